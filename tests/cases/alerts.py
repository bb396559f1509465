"""The alerts of deploy/: that they are of what the program tells, and that Prometheus' own tool takes them and sees each one come."""
import json
import os
import re
import shutil
import subprocess

from harness import DEADLINE, HERE, Apart, case, same, until

DEPLOY = os.path.join(HERE, "..", "deploy")
ALERTS, SCENES, PAGE = "alerts.yml", "alerts.test.yml", os.path.join("consoles", "lambda_broker.html")

# How many minutes a broker is well before the trouble begins, and how many later it is looked at what was told.
WELL, TOLD = 20, 10
FIRING = 'count by (alertname) (ALERTS{alertstate="firing"})'


def text_of(name):
    with open(os.path.join(DEPLOY, name), encoding="utf-8") as file:
        return file.read()


def promtool(*words, text=None):
    """The status of Prometheus' own tool, and what it says."""
    if not shutil.which("promtool"):
        raise Apart("there is no promtool")
    ran = subprocess.run(["promtool", *words], input=text, capture_output=True, text=True, cwd=DEPLOY, timeout=4 * DEADLINE)
    return ran.returncode, ran.stdout + ran.stderr


def stored(name):
    """A number of a broker as Prometheus stores it."""
    family, labels = re.fullmatch(r"([^{]+)(?:\{(.*?),?\})?", name).groups()
    return f'{family}{{job="lambda_broker",broker="b"{"," + labels if labels else ""}}}'


def series_of(scrapes):
    """The series of these scrapes, each the numbers of a broker, and for how many minutes they are told."""
    told = [({f"lambda_broker_{name}": value for name, value in numbers.items()} | {"up": 1}, minutes) for numbers, minutes in scrapes]
    names = {name: None for numbers, _ in told for name in numbers}
    return [{"series": stored(name), "values": " ".join(values_of(numbers.get(name), minutes) for numbers, minutes in told)} for name in names]


def values_of(value, minutes):
    """A number in each of so many minutes, or none where it is not told."""
    return f"_x{minutes}" if value is None else f"{value:.17g}x{minutes - 1}"


def fire(broker, scrapes, *alerts):
    """Just these alerts fire at the end of these scrapes, where there is a tool to tell that."""
    if not shutil.which("promtool"):
        return
    wanted = [{"labels": f'{{alertname="{name}"}}', "value": 1} for name in alerts]
    asked = {"expr": FIRING, "eval_time": f"{sum(minutes for _, minutes in scrapes)}m", "exp_samples": wanted}
    scene = {"interval": "1m", "input_series": series_of(scrapes), "promql_expr_test": [asked]}
    path = os.path.join(broker.folder, "alerts.json")
    with open(path, "w", encoding="utf-8") as file:
        json.dump({"rule_files": [os.path.abspath(os.path.join(DEPLOY, ALERTS))], "evaluation_interval": "1m", "tests": [scene]}, file)
    status, said = promtool("test", "rules", path)
    same((status, status and said), (0, 0))


def fire_within_ten_minutes(broker, well, scene, *alerts):
    """Just these alerts fire ten minutes after the numbers of a broker that is well have become those of a scene."""
    fire(broker, [(well, WELL), (scene, TOLD)], *alerts)


def labels_of(text):
    return dict(re.findall(r'(\w+)="((?:[^"\\]|\\.)*)"', text))


def all_numbers(broker):
    """The names of what a broker tells, and of what it tells once its disk is gone."""
    broker.serve()
    names = list(broker.numbers())
    os.remove(broker.disk)
    until("an end of all", lambda: "disk_is_gone" in str(names_once_gone(broker)))
    return names + names_once_gone(broker)


def names_once_gone(broker):
    try:
        text = broker.look("/metrics").body.decode()
    except OSError:
        return []
    return [line.rsplit(" ", 1)[0].removeprefix("lambda_broker_") for line in text.splitlines() if "disk_is_gone" in line]


@case()
def alerts_scenes_and_the_page_are_of_numbers_that_are_told(broker):
    told = [(re.sub(r"\{.*", "", name), labels_of(name)) for name in all_numbers(broker)]
    asked = set()
    for name in ALERTS, SCENES, PAGE:
        asked |= set(re.findall(r"\blambda_broker_(\w+)(?:\{([^}]*)\})?", text_of(name)))
    assert len(asked) > 30, asked
    for family, matchers in asked:
        assert family in [of for of, _ in told], f"no number is of the family {family}"
        for label, values in re.findall(r"""(\w+)=~?["']([^"']*)["']""", matchers):
            found = {labels.get(label) for of, labels in told if of == family}
            assert label == "broker" or set(values.split("|")) <= found, (family, label, values, found)


@case()
def each_reason_of_the_verdict_has_its_alert_and_each_alert_its_scene(broker):
    alerts = {name: expr for name, expr in re.findall(r"- alert: (\w+)\n(.*?)\n        labels:", text_of(ALERTS), re.S)}
    reasons = [labels_of(name)["reason"] for name in all_numbers(broker) if name.startswith("problem{")]
    of_reasons = {reason: [name for name, expr in alerts.items() if f'problem{{reason="{reason}"}} == 1' in expr] for reason in reasons}
    same({reason: len(names) for reason, names in of_reasons.items()}, dict.fromkeys(reasons, 1))
    same(set(re.findall(r'alertname="(\w+)"', text_of(SCENES))), set(alerts))


@case(slow=True)
def each_alert_comes_in_its_scene_and_none_of_a_broker_that_is_well(broker):
    for words in ("check", "rules", ALERTS), ("test", "rules", SCENES):
        status, said = promtool(*words)
        same((words, status, status and said), (words, 0, 0))


@case()
def the_numbers_are_as_prometheus_wants_them(broker):
    broker.serve()
    broker.live("{}", "1")
    same(promtool("check", "metrics", text=broker.look("/metrics").body.decode()), (0, ""))
