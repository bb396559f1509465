"""The broker's verdict: what it says is wrong with itself, in its health, in its metrics and on its page, and no longer."""
import json
import shutil
import time

from cases.pages import VERDICTS, ruled
from harness import OPENING, case, matches, same, statuses, until

REASONS = (
    "disk_hangs", "clock_is_behind", "clock_is_held_back", "events_expired_by_a_jump", "nobody_polls", "environment_hangs", "nothing_ends",
    "most_attempts_fail", "commits_are_slow", "all_busy", "backlog_grows", "records_not_collected", "table_full", "table_nearly_full", "callers_are_refused",
    "events_expire",
)


def found(broker):
    """What is wrong by /healthz?deep: the level and the words of each reason. The metrics are seen to say the same."""
    health = broker.look("/healthz?deep")
    lines = [line.split(" ", 2) for line in health.body.decode().splitlines()]
    if health.status == 200:
        same(health.body, b"ok\n")
        lines = []
    told = {reason.rstrip(":"): (level, words) for level, reason, words in lines}
    same((health.status, set(told) - set(REASONS)), (503 if told else 200, set()))
    numbers = broker.numbers()
    metrics = {name: value for name, value in numbers.items() if name.startswith("problem{")}
    same(list(metrics), [f'problem{{reason="{reason}"}}' for reason in REASONS])
    again = broker.look("/healthz?deep").body.decode()
    if [line.split(":")[0] for line in again.splitlines()] == [line.split(":")[0] for line in health.body.decode().splitlines()]:
        same([reason for reason in REASONS if metrics[f'problem{{reason="{reason}"}}']], list(told))
    return told


def shows(broker, told):
    """The page is seen to show just that, where there is a program to ask its rules by."""
    if shutil.which("node"):
        lines = "".join(f"{level} {reason}: {words}\n" for reason, (level, words) in told.items())
        [[headline, *findings]] = ruled(broker.look("/").body.decode(), VERDICTS, [lines])
        same({title.replace(" ", "_"): (level, words) for level, title, words in findings}, told)
        same(headline == "The broker is well.", not told)


def is_slow(broker):
    """The metrics show five slow commits and more: a tenth of a second on average, or one in twenty above half a second."""
    numbers = broker.numbers()
    commits = numbers["commit_seconds_count"]
    late = commits - numbers['commit_seconds_bucket{le="0.5"}']
    return commits >= 5 and (10 * numbers["commit_seconds_sum"] >= commits or 20 * late >= commits)


def finds(broker, *reasons):
    """Waits until just this is wrong: the words of each. The page shows it. Where the machine is slow, that may be told besides."""
    def just_this():
        others = set(found(broker)) ^ set(reasons)
        return not others or others == {"commits_are_slow"} and "commits_are_slow" not in reasons and is_slow(broker)
    until(reasons or "a broker that is well", just_this)
    told = found(broker)
    shows(broker, told)
    return {reason: words for reason, (_, words) in told.items()}


def poll(broker, environment=1):
    waiting = broker.send_next(environment)
    broker.until_parked(environment)
    return waiting


@case({"environments": 2})
def a_broker_whose_environments_are_polled_is_well(broker):
    broker.serve()
    words = finds(broker, "nobody_polls")["nobody_polls"]
    same(words.startswith("A poll is missing in 2 of 2 environments. Start"), True)
    same(found(broker)["nobody_polls"][0], "look")
    first = poll(broker)
    same("in 1 of 2 environments" in finds(broker, "nobody_polls")["nobody_polls"], True)
    second = poll(broker, 2)
    finds(broker)
    same((broker.look("/healthz").body, broker.look("/healthz?deep").body), (b"ok\n", b"ok\n"))
    first.leave()
    second.leave()


# In four seconds a slow machine's runtime answers too.
@case({"timeout": 4})
def events_that_nobody_takes_are_told(broker):
    broker.serve()
    broker.invoke("{}")
    same(found(broker)["nobody_polls"][0], "bad")
    words = finds(broker, "nobody_polls", "nothing_ends")
    same("while 1 events are due; the timeout is 4 s" in words["nothing_ends"], True)
    same(broker.look("/healthz").status, 200)
    event = broker.next()
    same(broker.respond(event.id, "1").status, 202)
    finds(broker)


@case({"timeout": 4})
def a_runtime_that_answered_and_hangs_is_told(broker):
    broker.serve()
    broker.live("{}", "1")
    finds(broker)
    broker.invoke("{}")
    words = finds(broker, "nothing_ends", "all_busy")
    same("1 attempts were begun lately: they fail, or hang." in words["nothing_ends"], True)
    same("In 1 of them no attempt runs" in words["all_busy"] and "--environments" not in words["all_busy"], True)


# The timeout is long: on a slow machine events wait for longer than the default one, and that would be told too.
@case({"events": 5, "timeout": 900})
def a_table_that_fills_and_callers_that_are_refused_are_told(broker):
    broker.serve()
    broker.live("{}", "1")
    for _ in range(3):
        broker.invoke("{}")
    words = finds(broker, "all_busy", "table_nearly_full")["table_nearly_full"]
    same("4 of at most 5 events are held, because all environments are busy; when it is full" in words and "1 have ended" in words, True)
    broker.invoke("{}")
    same("; callers are told 429. 1 have ended" in finds(broker, "all_busy", "table_full")["table_full"], True)
    same([broker.invoke("{}").status for _ in range(3)], 3 * [429])
    words = finds(broker, "all_busy", "table_full", "callers_are_refused")["callers_are_refused"]
    same("3 × 429" in words and "503" not in words, True)


@case({"retries": 0})
def attempts_that_fail_are_told(broker):
    broker.serve()
    for _ in range(4):
        broker.live("{}", '{"errorMessage":"no"}', path="error")
    finds(broker)
    broker.live("{}", '{"errorMessage":"no"}', path="error")
    words = finds(broker, "most_attempts_fail")["most_attempts_fail"]
    same("5 attempts failed, and 0 succeeded" in words, True)
    for _ in range(5):
        broker.live("{}", "1")
    finds(broker)
    same([broker.number(name) for name in ("attempts_started_total", "attempts_failed_total")], [10, 5])


@case({"timeout": 1, "retries": 0}, slow=True)
def a_runtime_that_starts_anew_at_each_event_is_told(broker):
    broker.serve()
    for _ in range(5):
        event = broker.invoke("{}").id
        same(broker.next().id, event)
        # It dies, and the one that is started in its place polls once that is noticed.
        until("the end of the attempt", lambda: broker.look(f"/events/{event}").json["standing"] == "ended RetriesExhausted")
    words = finds(broker, "most_attempts_fail", "nobody_polls")["most_attempts_fail"]
    same("5 attempts failed, and 0 succeeded" in words, True)


@case({"events": 300, "payload": 16, "response": 16})
def callers_that_are_told_503_are_told(broker):
    watch = broker.watches_disk()
    broker.serve()
    watch.hold_flush = OPENING + 1
    asked = [broker.send_invoke("{}") for _ in range(260)]
    until("a flush", lambda: watch.flushes == OPENING + 1)
    until("the refusals", lambda: sum(one.is_answered() for one in asked) == 4)
    watch.let_go()
    same(sorted(statuses(asked)), 256 * [202] + 4 * [503])
    same(broker.next().status, 200)
    words = finds(broker, "all_busy", "callers_are_refused", "table_nearly_full")["callers_are_refused"]
    same("429" not in words and " 4 × 503" in words, True)


@case({"age": 60}, slow=True)
def events_that_expire_are_told(broker):
    broker.serve()
    broker.live("{}", "1")
    broker.invoke("{}")
    time.sleep(51)
    words = finds(broker, "all_busy", "events_expire")["events_expire"]
    same(words.startswith("1 events that wait") and "given up in" not in words, True)


@case()
def commits_that_are_slow_are_told(broker):
    watch = broker.watches_disk()
    broker.serve()
    broker.live("{}", "1")
    finds(broker)
    for _ in range(5):
        watch.release = 0
        watch.hold_flush = watch.flushes + 1
        invoke = broker.send_invoke("{}")
        until("a flush", lambda: watch.flushes == watch.hold_flush)
        time.sleep(0.55)
        watch.let_go()
        same(invoke.done().status, 202)
    finds(broker, "all_busy", "commits_are_slow")
    same(found(broker)["commits_are_slow"][0], "look")


@case({"retries": 1})
def an_event_that_is_due_again_shows_its_error(broker):
    broker.serve()
    event = broker.invoke('{"a":1}').id
    same(broker.look(f"/events/{event}").json["lastError"], None)
    error = '{"errorType":"Bad","errorMessage":"no \\"way\\""}'
    same(broker.next().id, event)
    same(broker.respond(event, error, path="error").status, 202)
    told = broker.look(f"/events/{event}").json
    same((told["standing"], told["failures"], told["record"]), ("due again", 1, None))
    same(json.loads(told["lastError"]), json.loads(error))


@case({"events": 5, "concurrency": 3, "timeout": 7, "payload": 100, "response": 200})
def the_numbers_tell_the_limits_the_version_and_the_start(broker):
    before = time.time()
    broker.serve()
    told = broker.numbers()
    wanted = {
        "table_limit": 5,
        "attempts_limit": 3,
        "timeout_seconds": 7,
        "retries_limit": 2,
        "age_limit_seconds": 21600,
        "payload_limit_bytes": 100,
        "response_limit_bytes": 200,
        f'build_info{{version="{broker.said("--version")[1].split()[1]}",kit="",state="unproved",}}': 1,
    }
    same({name: told.get(name) for name in wanted}, wanted)
    assert before - 1 <= told["process_start_time_seconds"] <= time.time(), told["process_start_time_seconds"]


# What waits, and for what

def polled(broker, environment):
    """A poll of this environment, where none else is parked."""
    waiting = broker.send_next(environment)
    broker.until_parked(1)
    return waiting


@case({"timeout": 900, "events": 5})
def a_table_that_fills_since_all_environments_are_busy_is_told_as_that(broker):
    broker.serve()
    for _ in range(4):
        broker.invoke("{}")
    same(broker.next().status, 200)
    words = finds(broker, "all_busy", "table_nearly_full")
    same(words["all_busy"].startswith("All environments (1) are busy while 3 events are due, the first for "), True)
    told = words["table_nearly_full"]
    same("4 of at most 5 events are held, because all environments are busy; when it is full" in told, True)
    same([word for word in ("have ended", "collect", "see why") if word in told], [])


@case({"timeout": 900, "events": 400, "sectors": 8192}, slow=True)
def a_function_slower_than_its_callers_is_told(broker):
    broker.serve()
    # Five callers come for each that is answered: those that are due wait longer and longer.
    begun, told = time.monotonic(), {}
    while "backlog_grows" not in told and time.monotonic() < begun + 180:
        for _ in range(5):
            broker.invoke("{}")
        given = broker.next()
        answer = broker.respond(given.id, "1")
        assert (given.status, answer.status) == (200, 202), (given.status, given.body, given.id, answer.status, answer.body)
        time.sleep(4)
        told = found(broker)
    assert 110 < time.monotonic() - begun < 170, time.monotonic() - begun
    level, words = told["backlog_grows"]
    same((level, "events came and" in words, "the first that is due has waited for 12" in words), ("look", True, True))


@case({"timeout": 900, "environments": 2}, slow=True)
def one_environment_that_hangs_beside_another_is_told_within_two_minutes(broker):
    broker.serve()
    hangs, begun = broker.invoke("{}").id, time.monotonic()
    same(broker.next(1).id, hangs)
    told = {}
    while "environment_hangs" not in told and time.monotonic() < begun + 120:
        same(broker.delete(broker.live("{}", "1", environment=2)).status, 204)
        time.sleep(1)
        told = found(broker)
    same(told["environment_hangs"][0], "look")
    same("An attempt has run for 6" in told["environment_hangs"][1], True)
    # Nothing else of it is wrong, but that the other one is busy at a moment, say.
    same(set(told) - {"commits_are_slow", "nobody_polls"}, {"environment_hangs"})


@case({"timeout": 2, "environments": 2, "retries": 0}, slow=True)
def one_environment_that_is_gone_beside_another_is_told_within_two_minutes(broker):
    broker.serve()
    first, begun = broker.invoke("{}").id, time.monotonic()
    same(broker.next(1).id, first)
    waits, told = None, {}
    while "environment_hangs" not in told and time.monotonic() < begun + 120:
        waits = waits or polled(broker, 2)
        time.sleep(2)
        told = found(broker)
    same("Environment 1 has lacked a poll for 6" in told["environment_hangs"][1], True)
    same(set(told) - {"commits_are_slow"}, {"environment_hangs", "nobody_polls"})
    numbers = broker.numbers()
    same(numbers['environment_phase{environment="1",phase="init"}'], 1)
    same(numbers['environment_phase_seconds{environment="1"}'] > 60, True)
    waits.leave()


@case({"environments": 2})
def each_environment_is_told_with_its_phase_and_since_when(broker):
    broker.serve()
    waits = polled(broker, 2)
    told = broker.numbers()
    wanted = ['environment_phase{environment="1",phase="init"}', 'environment_phase{environment="2",phase="ready"}']
    same({name: told[name] for name in told if name.startswith("environment_phase{")}, dict.fromkeys(wanted, 1))
    time.sleep(1.2)
    later = broker.numbers()
    for number in 1, 2:
        name = f'environment_phase_seconds{{environment="{number}"}}'
        assert 1 < later[name] - told[name] < 5, (told[name], later[name])
    broker.invoke("{}")
    same(waits.done().status, 200)
    busy = broker.numbers()
    same((busy['environment_phase{environment="2",phase="busy"}'], busy['environment_phase_seconds{environment="2"}'] < 1), (1, True))


# The clock

HOUR = 3_600_000


@case({"timeout": 900})
def a_clock_that_is_behind_the_disk_is_told(broker):
    watch = broker.watches_disk()
    broker.serve()
    waits = polled(broker, 1)
    finds(broker)
    # It was an hour ahead when the last command came, and is right again.
    watch.ahead = HOUR
    until("a step", lambda: broker.number("clock_steps_total") == 1)
    event = broker.invoke("{}").id
    same((waits.done().id, broker.respond(event, "1").status), (event, 202))
    waits = polled(broker, 1)
    watch.ahead = 0
    words = finds(broker, "clock_is_behind")["clock_is_behind"]
    same(words.startswith("The system's clock is 59 min behind the last command on the disk: until"), True)
    numbers = broker.numbers()
    same(numbers["clock_steps_total"] >= 1, True)
    waits.leave()


@case({"timeout": 900, "age": 3600})
def events_that_a_jump_of_the_clock_gives_up_are_told(broker):
    watch = broker.watches_disk()
    broker.serve()
    same(broker.delete(broker.live("{}", "1")).status, 204)
    for _ in range(3):
        broker.invoke("{}")
    watch.ahead = 2 * HOUR
    until("their end", lambda: broker.number('events{standing="event_age_exceeded"}') == 3)
    until("a step", lambda: broker.number("clock_steps_total") == 1)
    same(broker.number("clock_step_seconds") > 7190, True)
    words = finds(broker, "events_expired_by_a_jump", "events_expire")
    matches(r".* 3 events were given up for their age, and the clock was set 1 times, last by 1(19|20) min ahead: .*", words["events_expired_by_a_jump"])
    same("five sixths" not in words["events_expire"] and "3 were given up" in words["events_expire"], True)
    # It is set right again, and the verdict remembers what happened.
    watch.ahead = 0
    until("a step back", lambda: broker.number("clock_steps_total") == 2)
    same(broker.number("clock_step_seconds") < -7190, True)
    words = finds(broker, "clock_is_behind", "events_expired_by_a_jump", "events_expire")["events_expired_by_a_jump"]
    same("3 events were given up for their age, and the clock was set 2 times: perhaps" in words, True)


@case({"timeout": 900, "age": 3600})
def a_clock_that_is_held_back_is_told_with_what_is_left(broker):
    watch = broker.watches_disk()
    broker.serve("--clock-grace", "900")
    waits = polled(broker, 1)
    finds(broker)
    watch.ahead = 2 * HOUR
    words = finds(broker, "clock_is_held_back")["clock_is_held_back"]
    matches(r"The system's clock was set ahead by 1(19|20) min: for 1[0-5] min yet what waits, .*, and then by it[.] .*", words)
    # What is accepted meanwhile has the moment that is told.
    event = broker.invoke("{}").id
    same((waits.done().id, broker.respond(event, "1").status), (event, 202))
    waits = polled(broker, 1)
    watch.ahead = 0
    finds(broker)
    waits.leave()


@case({"timeout": 900, "age": 3600})
def a_clock_that_was_set_back_and_is_right_again_is_believed_at_once(broker):
    watch = broker.watches_disk()
    broker.serve("--clock-grace", "900")
    waits = polled(broker, 1)
    event = broker.invoke("{}").id
    same((waits.done().id, broker.respond(event, "1").status), (event, 202))
    waits = polled(broker, 1)
    watch.back = 2 * HOUR
    until("a step back", lambda: broker.number("clock_steps_total") == 1)
    words = finds(broker, "clock_is_behind")["clock_is_behind"]
    same(words.startswith("The system's clock is 1"), True)
    watch.back = 0
    # A step of two hours, which leads no further than to what was told before.
    until("a step", lambda: broker.number("clock_steps_total") == 2)
    finds(broker)
    # From there a jump is held back as ever.
    watch.ahead = 2 * HOUR
    finds(broker, "clock_is_held_back")
    waits.leave()


# A disk that hangs

@case()
def while_a_flush_hangs_what_needs_no_look_is_answered(broker):
    watch = broker.watches_disk()
    broker.serve()
    same(broker.look("/history").status, 200)
    watch.hold_flush = OPENING + 1
    invoke = broker.send_invoke("{}")
    until("a flush", lambda: watch.flushes == OPENING + 1)
    broker.until_read()
    # Page and health wait for nothing. What shows events waits for the flush, until that takes long.
    same((broker.look("/").status, broker.look("/healthz").status, broker.look("/healthz").body), (200, 200, b"ok\n"))
    early = broker.send_look("/events")
    time.sleep(8)
    same(early.is_answered(), False)
    health = broker.look("/healthz?deep")
    same((health.status, len(health.body.splitlines())), (503, 1))
    assert health.body.startswith(b"bad disk_hangs: A flush of the disk has been under way for "), health.body
    numbers = broker.numbers()
    same((numbers['problem{reason="disk_hangs"}'], 5 <= numbers["flush_seconds"] < 20, numbers["device_fault"]), (1, True, 0))
    # Nothing is told that is not durable, or is not known to be.
    shown = [name for name in numbers if name.split("{")[0] in ("events", "events_accepted_total", "pending_commands", "commands_durable_total")]
    same((shown, [name for name in numbers if name.startswith("problem{")]), ([], ['problem{reason="disk_hangs"}']))
    for path in "/events", "/events/00000000-0000-4000-8000-000000000001", "/records/success":
        answer = broker.look(path)
        same((path, answer.status), (path, 503))
        matches(r"disk hangs: a flush has been under way for [0-9]+ s\n", answer.body.decode())
    same(len(broker.look("/history").body.splitlines()), 2)
    same((invoke.is_answered(), early.is_answered()), (False, False))
    watch.let_go()
    same((invoke.done().status, early.done().status), (202, 200))
    until("a flush that is short", lambda: broker.look("/events").status == 200)
    same(broker.number("flush_seconds"), 0)
    finds(broker, "nobody_polls")
    same(broker.stop(), (202, 0, ""))


@case()
def a_write_that_hangs_is_told_as_a_flush_is(broker):
    watch = broker.watches_disk()
    broker.serve()
    watch.hold_write = watch.writes + 1
    invoke = broker.send_invoke("{}")
    until("a write", lambda: watch.writes == watch.hold_write)
    # A look that came before this would wait for the write.
    until("a line", lambda: "disk hangs: " in broker.stderr())
    until("a long write", lambda: broker.look("/healthz?deep").body.startswith(b"bad disk_hangs: "))
    assert f"disk hangs: a flush of {broker.disk} has been under way for 5 s\n" in broker.stderr(), broker.stderr()
    same(invoke.is_answered(), False)
    watch.let_go()
    same(invoke.done().status, 202)
    until("a disk that goes on", lambda: "disk goes on: " in broker.stderr())
    same(broker.stop(), (202, 0, ""))
