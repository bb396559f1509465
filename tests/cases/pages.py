"""The operator's page: that it is the source's, what its rules say of what the broker tells, and what a browser shows of it."""
import base64
import hashlib
import html
import json
import os
import re
import shutil
import subprocess

from harness import DEADLINE, HERE, Apart, case, same, until

SOURCE = os.path.join(HERE, "..", "crates", "admin_replies", "page.html")

# What the page makes of the texts that the program below is given, by a rule of its first script.
VERDICTS = "(text) => [headline(findings(text)), ...findings(text)]"
PLACES = "(hash) => [placeOf(hash), placeOf(hash).name ? sourceOf(placeOf(hash), 50) : null]"
ERRORS = "(told) => error(told)"
FAILURES = "([all, known]) => { const { lines, unread } = failuresOf(all, known); return [lines.map((one) => [one.told, one.count, one.last.id]), unread]; }"
PHASES = "(text) => [tellsEvents({ families: read(text) }), ...environmentsOf(read(text)).map((one) => [one.environment, one.phase, one.time])]"
POINTS = """([text, of, by, times]) => pointsOf(samplesOf(text), { of, by, times }).map(({ at, value }) => [at, value])"""


def ruled(page, rule, texts):
    """What a rule of a page says of texts."""
    if not shutil.which("node"):
        raise Apart("there is no node")
    script = re.search("<script>(.*?)</script>", page, re.S)[1]
    asked = f"{script}\nconsole.log(JSON.stringify(JSON.parse(require('fs').readFileSync(0, 'utf8')).map({rule})));"
    ran = subprocess.run(["node", "-e", asked], input=json.dumps(texts), capture_output=True, text=True, timeout=DEADLINE)
    same((ran.returncode, ran.stderr), (0, ""))
    return json.loads(ran.stdout)


def shown(broker, path="/"):
    """What a browser shows of the page after some seconds of its own clock: its elements as HTML."""
    browser = shutil.which("chromium")
    if not browser:
        raise Apart("there is no chromium")
    words = ["--headless=new", "--no-sandbox", "--disable-gpu", f"--user-data-dir={broker.folder}/browser", "--virtual-time-budget=8000"]
    address = f"http://127.0.0.1:{broker.admin}{path}"
    ran = subprocess.run([browser, *words, "--dump-dom", address], capture_output=True, text=True, timeout=2 * DEADLINE)
    same(ran.returncode, 0)
    return ran.stdout


def text_of(page, name):
    """The text of the element of this id."""
    found = re.search(rf'<(\w+)[^>]* id="{name}"[^>]*>(.*?)</\1>', page, re.S)
    assert found, f"the page has no {name}"
    return html.unescape(re.sub("<[^>]*>", " ", found[2])).strip()


def view_of(page):
    """The one view that is shown."""
    views = re.findall(r'<section id="view-(\w+)"([^>]*)>', page)
    return [view for view, more in views if "hidden" not in more]


@case()
def the_page_is_that_of_its_source(broker):
    broker.serve()
    with open(SOURCE, "rb") as file:
        assert broker.look("/").body == file.read(), "the program has another page than crates/admin_replies/page.html"


@case()
def the_page_inserts_text_and_asks_nobody_else(broker):
    broker.serve()
    page = broker.look("/").body.decode()
    same([word for word in ("innerHTML", "outerHTML", "insertAdjacent", "document.write", "eval(", "@import", "srcdoc") if word in page], [])
    same(set(re.findall(r"https?://[^\"'`/]*", page)), {"http://www.w3.org", "http://127.0.0.1:P"})
    same(set(re.findall(r'src="([^"]*)"', page)), {"healthz?deep", "history", "metrics"})


@case()
def the_policy_allows_what_stands_in_the_page_and_no_more(broker):
    broker.serve()
    page = broker.look("/").body.decode()
    policy = dict(part.split(" ", 1) for part in re.search('Content-Security-Policy" content="([^"]*)"', page)[1].split("; "))
    for tag in ("style", "script"):
        contents = re.findall(f"<{tag}>(.*?)</{tag}>", page, re.S)
        sums = [base64.b64encode(hashlib.sha256(content.encode()).digest()).decode() for content in contents]
        same(policy.pop(f"{tag}-src"), " ".join(f"'sha256-{one}'" for one in sums))
        same(len(re.findall(f"<{tag}", page)), len(contents))
    wanted = {"default-src": "'none'", "connect-src": "'self'", "frame-src": "'self'", "img-src": "data:"}
    same(policy, wanted | {"base-uri": "'none'", "form-action": "'none'"})
    same(re.findall(r"<[^>]* (?:style|on\w+)=", page), [])


@case()
def the_page_shows_what_the_broker_says(broker):
    broker.serve()
    told = ["", "ok\n", "stopping\n", "look b_c: Two.\nbad a: One: more.\n", "look a: One.\nlook b: Two.\n"]
    wanted = [
        ["The broker is well."],
        ["The broker is well."],
        ["The broker is well."],
        ["Bad: a.", ["look", "b c", "Two."], ["bad", "a", "One: more."]],
        ["Look: a; b.", ["look", "a", "One."], ["look", "b", "Two."]],
    ]
    same(ruled(broker.look("/").body.decode(), VERDICTS, told), wanted)


@case()
def the_page_finds_its_views_and_reads_errors(broker):
    broker.serve()
    page = broker.look("/").body.decode()
    wanted = {
        "": [{"view": "now"}, None],
        "#settings": [{"view": "settings"}, None],
        "#events": [{"view": "events", "name": "events", "after": ""}, "events?limit=50"],
        "#waiting/a%2Fb": [{"view": "events", "name": "waiting", "after": "a/b"}, "events?standing=waiting&limit=50&after=a%2Fb"],
        "#failure/x": [{"view": "records", "name": "failure", "after": "x"}, "records/failure?limit=50&after=x"],
        "#%": [{"view": "event", "id": "%"}, None],
        "#toString": [{"view": "event", "id": "toString"}, None],
    }
    same(ruled(page, PLACES, list(wanted)), list(wanted.values()))
    errors = {
        '{"errorType":"Bad","errorMessage":"no way"}': "Bad: no way",
        '{"errorMessage":"no way"}': "no way",
        '{"errorType":1}': '{"errorType":1}',
        '"said"': "said",
        "no JSON": "no JSON",
        "x" * 201: "x" * 200 + "…",
    }
    same(ruled(page, ERRORS, [*errors, None]), [*errors.values(), "no answer"])


@case()
def the_page_plots_what_the_broker_keeps(broker):
    broker.serve()
    text = "at,accepted,waiting,commits,commit_microseconds\n1000,5,2,1,500\n6000,15,1,1,500\n11000,15,0,5,8500\n"
    asked = {
        "levels": [text, ["waiting"], None, 1],
        "rates": [text, ["accepted"], "at", 1000],
        "sums": [text, ["accepted", "waiting"], "at", 1000],
        "means": [text, ["commit_microseconds"], "commits", 0.001],
        "none": [text.split("\n")[0], ["accepted"], "at", 1000],
    }
    wanted = {
        "levels": [[1000, 2], [6000, 1], [11000, 0]],
        "rates": [[6000, 2], [11000, 0]],
        "sums": [[6000, 1.8], [11000, -0.2]],
        "means": [[6000, None], [11000, 2]],
        "none": [],
    }
    same(dict(zip(asked, ruled(broker.look("/").body.decode(), POINTS, list(asked.values())))), wanted)


@case({"retries": 0, "age": 600})
def a_browser_shows_the_verdict_lists_and_events(broker):
    broker.serve()
    error = '{"errorType":"<b>Bad</b>","errorMessage":"no way"}'
    failed = broker.invoke('{"text":"<i>x</i>"}').id
    page = until("the verdict", lambda: (page := shown(broker)) and "Bad: nobody polls" in page and page)
    assert "and 1 events are due" in text_of(page, "findings"), text_of(page, "findings")
    same((view_of(page), text_of(page, "name"), text_of(page, "held")), (["now"], "my-function", "1 of at most 16"))
    same((broker.next().id, broker.respond(failed, error, path="error").status), (failed, 202))
    succeeded, waits = broker.live("{}", '"done"'), broker.invoke("{}").id
    page = shown(broker)
    assert "<b>Bad</b>: no way" in text_of(page, "fails"), text_of(page, "fails")
    assert waits in text_of(page, "waits")
    page = shown(broker, f"/#{failed}")
    same((view_of(page), text_of(page, "error"), text_of(page, "error-text")), (["event"], "<b>Bad</b>: no way", error))
    same((text_of(page, "payload"), text_of(page, "event").split()[:3]), ('{"text":"<i>x</i>"}', ["stands", "ended", "RetriesExhausted"]))
    assert text_of(page, "collect").endswith(f"/broker/destinations/{failed}")
    same(json.loads(text_of(page, "record"))["requestContext"]["requestId"], failed)
    for name, wanted in (("failure", failed), ("success", succeeded)):
        page = shown(broker, f"/#{name}")
        same((view_of(page), [id for id in (failed, succeeded, waits) if id in text_of(page, "records")]), (["records"], [wanted]))
    page = shown(broker, "/#waiting")
    same((view_of(page), [id for id in (failed, succeeded, waits) if id in text_of(page, "list")]), (["events"], [waits]))
    page = shown(broker, "/#00000000-0000-4000-8000-000000000009")
    same((view_of(page), text_of(page, "event-none").endswith("404 no event of this id is held")), (["event"], True))
    page = shown(broker, "/#settings")
    assert "10 min" in text_of(page, "settings") and broker.said("--version")[1].split()[1] in text_of(page, "settings")


@case()
def a_browser_shows_that_a_broker_is_well(broker):
    broker.serve()
    poll = broker.send_next()
    broker.until_parked(1)
    until("two samples", lambda: len(broker.look("/history").body.splitlines()) > 2)
    page = shown(broker)
    same((text_of(page, "health"), text_of(page, "findings")), ("The broker is well.", ""))
    # The plots have points at once, but for that of the time of commits.
    plots = page.split('id="plots"')[1].split("<h2>")[0]
    same((plots.count('>at most'), plots.count('>nothing yet')), (7, 1))
    poll.leave()


@case()
def the_page_counts_failures_by_error_and_says_how_many_it_has_not_read(broker):
    broker.serve()
    page = broker.look("/").body.decode()
    failure = {"standing": "ended RetriesExhausted", "starts": 1}
    all = [failure | {"id": id} for id in "abcd"] + [{"id": "e", "standing": "ended EventAgeExceeded", "starts": 0}]
    known = {"a 1": "one", "b 1": "two", "d 1": "one", "e 0": "no answer"}
    wanted = [[["one", 2, "a"], ["two", 1, "b"], ["EventAgeExceeded: no answer", 1, "e"]], 1]
    same(ruled(page, FAILURES, [[all, known], [[], {}]]), [wanted, [[], 0]])


@case()
def the_page_shows_first_what_does_not_go_on(broker):
    broker.serve()
    page = broker.look("/").body.decode()
    phases = {1: "ready", 2: "busy", 3: "init", 4: "busy", 5: "closing"}
    text = "".join(f'lambda_broker_environment_phase{{environment="{n}",phase="{phase}"}} 1\n' for n, phase in phases.items())
    text += "".join(f'lambda_broker_environment_phase_seconds{{environment="{n}"}} {10 * n}.5\n' for n in phases)
    text += 'lambda_broker_events{standing="waiting"} 0\n'
    wanted = [True, ["3", "init", 30.5], ["5", "closing", 50.5], ["4", "busy", 40.5], ["2", "busy", 20.5], ["1", "ready", 10.5]]
    same(ruled(page, PHASES, [text, 'lambda_broker_problem{reason="disk_hangs"} 1\n']), [wanted, [False]])


@case({"retries": 0, "events": 70})
def a_browser_shows_each_kind_of_error(broker):
    broker.serve()
    for errors, error in (3, "second"), (61, "first"):
        for _ in range(errors):
            broker.live("{}", f'{{"errorMessage":"the {error} kind"}}', path="error")
    page = shown(broker)
    fails = " ".join(text_of(page, "fails").split())
    assert re.search(r"the first kind 61 .*the second kind 3 ", fails), fails
    same(text_of(page, "fails-more"), "")
    assert re.search(r"1 busy [0-9]+ s", " ".join(text_of(page, "places").split())), text_of(page, "places")
