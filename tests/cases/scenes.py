"""What an operator sees of each scene that wants one: the page's first line, /healthz?deep, the metrics, and who is told of it.

Each scene begins with a broker that is well. Where LAMBDA_BROKER_PICTURES names a folder, pictures of the page are kept in it.
"""
import os
import shutil
import subprocess
import time

import disks
from cases.alerts import TOLD, WELL, fire, fire_within_ten_minutes
from cases.pages import shown, text_of
from cases.verdicts import REASONS, found, poll, shows
from harness import DEADLINE, case, same, statuses, until

SLOW = "commits_are_slow"
ERROR = '{"errorType":"TypeError","errorMessage":"no such table"}'

# The name, width and height of a picture, in points.
SIZES = {"desktop": (1280, 1500), "telephone": (390, 2600)}


def pictures(broker, name):
    """Keeps pictures of the page, light and dark, wide and as on a telephone."""
    into, browser = os.environ.get("LAMBDA_BROKER_PICTURES"), shutil.which("chromium")
    if not into or not browser:
        return
    for place, scheme in enumerate(("dark", "light")):
        for size, (width, height) in SIZES.items():
            picture = os.path.join(into, f"{name}_{size}_{scheme}.png")
            words = ["--headless", "--no-sandbox", "--disable-gpu", "--hide-scrollbars", f"--user-data-dir={broker.folder}/browser"]
            words += [f"--blink-settings=preferredColorScheme={place}", f"--window-size={width},{height}", "--virtual-time-budget=8000"]
            subprocess.run(
                [browser, *words, f"--screenshot={picture}", f"http://127.0.0.1:{broker.admin}/"], capture_output=True, timeout=5 * DEADLINE
            )
            assert os.path.getsize(picture) > 10000, picture


def problem(reason):
    return f'problem{{reason="{reason}"}}'


def first_line(told):
    """What the page's first line has to be."""
    level = "bad" if "bad" in [level for level, _ in told.values()] else "look"
    named = [reason.replace("_", " ") for reason, (of, _) in told.items() if of == level]
    return f"{level.capitalize()}: {'; '.join(named)}." if told else "The broker is well."


def is_seen(broker, *reasons):
    """Just this is wrong, by /healthz?deep, by the metrics, and by the page, in a browser where there is one: the numbers. Where
    something is, a busy machine may commit slowly too."""
    slow = {SLOW} - set(reasons) if reasons else set()
    until(reasons or "a broker that is well", lambda: set(found(broker)) - slow == set(reasons))
    shows(broker, found(broker))
    if shutil.which("chromium"):
        page = shown(broker)
        told = found(broker)
        same((set(told) - slow, text_of(page, "health")), (set(reasons), first_line(told)))
        same([reason for reason, (_, words) in told.items() if words[-40:] not in text_of(page, "findings")], [])
    numbers = broker.numbers() | {problem(reason): 0 for reason in slow}
    same({reason for reason in REASONS if numbers[problem(reason)]}, set(reasons))
    return numbers


def works(broker):
    """A broker that is well: an event was tried, its record collected, and a runtime polls. Its numbers, and that poll."""
    same(broker.delete(broker.live("{}", '"done"')).status, 204)
    waits = poll(broker)
    return is_seen(broker), waits


def is_told(broker, well, picture, alert, *reasons):
    """Just this is wrong since all was well: it is looked at, pictured, and its alert fires within ten minutes."""
    seen = is_seen(broker, *reasons)
    pictures(broker, picture)
    fire_within_ten_minutes(broker, well, seen, alert)


@case()
def a_broker_that_is_well(broker):
    broker.serve()
    well, waits = works(broker)
    pictures(broker, "well")
    fire(broker, [(well, WELL + TOLD)])
    waits.leave()


@case({"timeout": 3})
def no_runtime(broker):
    broker.serve()
    well, waits = works(broker)
    # It dies while it polls: the first event is given to nobody.
    waits.leave()
    for _ in range(3):
        broker.invoke('{"order":7}')
    is_told(broker, well, "no_runtime", "NothingEnds", "nobody_polls", "nothing_ends")


@case({"timeout": 3})
def a_runtime_that_is_stuck(broker):
    broker.serve()
    well, waits = works(broker)
    event = broker.invoke('{"order":7}').id
    same((waits.done().id, broker.respond(event, "1").status), (event, 202))
    # It has answered, and does not poll again.
    for _ in range(3):
        broker.invoke('{"order":8}')
    is_told(broker, well, "stuck_runtime", "NothingEnds", "nothing_ends", "all_busy")


@case({"events": 12})
def a_table_that_is_full(broker):
    broker.serve()
    well, waits = works(broker)
    same([broker.invoke('{"order":7}').status for _ in range(17)], 12 * [202] + 5 * [429])
    same(waits.done().status, 200)
    is_told(broker, well, "full_table", "TableFull", "all_busy", "table_full", "callers_are_refused")


@case({"retries": 0})
def attempts_that_all_fail(broker):
    broker.serve()
    well, waits = works(broker)
    first = broker.invoke("{}").id
    same((waits.done().id, broker.respond(first, ERROR, path="error").status), (first, 202))
    for _ in range(5):
        broker.live('{"order":7}', ERROR, path="error")
    waits = poll(broker)
    is_told(broker, well, "all_failing", "AttemptsFail", "most_attempts_fail")
    waits.leave()


@case({"timeout": 3, "retries": 0}, slow=True)
def a_runtime_in_a_restart_loop(broker):
    broker.serve()
    well, waits = works(broker)
    for _ in range(6):
        event = broker.invoke('{"order":7}').id
        same(waits.done().id, event)
        # It dies of that, and is started again.
        until("the end of the attempt", lambda: broker.look(f"/events/{event}").json["standing"] == "ended RetriesExhausted")
        waits = poll(broker)
    is_told(broker, well, "runtime_restart_loop", "AttemptsFail", "most_attempts_fail")
    waits.leave()


def restarts(broker, seen):
    """The scrapes of a broker that ends and is served anew four times, once a minute: what is seen of each."""
    scrapes = []
    for _ in range(4):
        broker.kill()
        broker.serve()
        scrapes.append((seen(), 1))
        until("another second", lambda: time.time() > scrapes[-1][0]["process_start_time_seconds"] + 1)
    return scrapes


@case()
def a_broker_in_a_restart_loop(broker):
    broker.serve()
    well, _ = works(broker)
    broker.invoke('{"order":7}')
    # Its runtimes have not come back yet, and the event was put back.
    scrapes = restarts(broker, lambda: is_seen(broker, "nobody_polls"))
    pictures(broker, "broker_restart_loop")
    fire(broker, [(well, WELL), *scrapes], "RestartLoop")

    def given():
        same(broker.next().status, 200)
        return broker.numbers()

    # It ends of the event that a runtime is given at once: the verdict remembers no earlier start, and the alert does.
    fire(broker, [(well, WELL), *restarts(broker, given)], "RestartLoop")


@case(slow=True)
def commits_that_take_two_seconds(broker):
    watch = broker.watches_disk()
    broker.serve()
    well, waits = works(broker)
    for _ in range(4):
        watch.release = 0
        watch.hold_flush = watch.flushes + 1
        invoke = broker.send_invoke('{"order":7}')
        until("a flush", lambda: watch.flushes == watch.hold_flush)
        # So slow is the device.
        time.sleep(2)
        watch.let_go()
        same(invoke.done().status, 202)
    same(waits.done().status, 200)
    is_told(broker, well, "slow_commits", "CommitsSlow", SLOW, "all_busy")


@case({"events": 400, "payload": 16, "response": 16})
def requests_that_are_answered_503(broker):
    watch = broker.watches_disk()
    broker.serve()
    # It makes few commits: of more, one that takes long would be told too.
    waits = poll(broker)
    well = is_seen(broker)
    watch.hold_flush = watch.flushes + 1
    asked = [broker.send_invoke("{}") for _ in range(270)]
    until("the refusals", lambda: sum(one.is_answered() for one in asked) > 9)
    watch.let_go()
    told = statuses(asked)
    same((set(told), waits.done().status), ({202, 503}, 200))
    seen = is_seen(broker, "all_busy", "callers_are_refused")
    same(seen['refused_total{reason="unavailable"}'], told.count(503))
    pictures(broker, "answers_503")
    fire_within_ten_minutes(broker, well, seen, "CallersRefused")


@case({"age": 60}, slow=True)
def an_age_of_a_minute(broker):
    broker.serve()
    well, waits = works(broker)
    events = [broker.invoke('{"order":7}').id for _ in range(4)]
    same(waits.done().id, events[0])
    until("five sixths of it", lambda: "events_expire" in found(broker), 60 + DEADLINE)
    until("the end of it", lambda: broker.number('events{standing="event_age_exceeded"}') == 3, 60 + DEADLINE)
    seen = is_seen(broker, "events_expire")
    same(seen['events_ended_total{outcome="event_age_exceeded"}'], 3)
    pictures(broker, "age_of_60_seconds")
    fire_within_ten_minutes(broker, well, seen, "EventsExpire")


@case()
def records_that_nobody_collects(broker):
    settings, now, well = disks.Settings(events=16, timeout=900), int(1000 * time.time()), None
    for minutes, reasons in (5, ()), (16, ("records_not_collected",)):
        ended = now - 60_000 * minutes
        row = disks.Row(
            disks.id_of(1), ended - 2, 1, 3, disks.ENDED, ended, b"{}", outcome=disks.SUCCESS, starts=1, answer=(1, b'"done"')
        )
        content = disks.segment(2, settings, 1, disks.snapshot(2, settings, 3, ended, [row]))
        with open(broker.disk, "wb") as disk:
            disk.write(disks.disk(4096, content))
        broker.serve()
        waits = poll(broker)
        seen = is_seen(broker, *reasons)
        if reasons:
            pictures(broker, "records_not_collected")
            fire_within_ten_minutes(broker, well, seen, "RecordsNotCollected")
        well = seen
        waits.leave()
        broker.end()


@case()
def a_flush_that_hangs(broker):
    watch = broker.watches_disk()
    broker.serve()
    well, waits = works(broker)
    watch.hold_flush = watch.flushes + 1
    invoke = broker.send_invoke('{"order":7}')
    until("a flush", lambda: watch.flushes == watch.hold_flush)
    time.sleep(8)
    numbers, told = broker.numbers(), broker.look("/healthz?deep").body.decode()
    same((numbers[problem("disk_hangs")], told[:16]), (1, "bad disk_hangs: "))
    if shutil.which("chromium"):
        page = shown(broker)
        same((text_of(page, "health"), "A flush of the disk has been" in text_of(page, "findings")), ("Bad: disk hangs.", True))
    pictures(broker, "disk_hangs")
    fire_within_ten_minutes(broker, {name: well[name] for name in numbers if name in well}, numbers | {problem("disk_hangs"): 1}, "DiskHangs")
    watch.let_go()
    same((invoke.done().status, waits.done().status), (202, 200))


@case({"timeout": 900, "events": 12})
def environments_that_are_all_busy(broker):
    broker.serve()
    well, waits = works(broker)
    events = [broker.invoke('{"order":7}').id for _ in range(11)]
    same(waits.done().id, events[0])
    seen = is_seen(broker, "all_busy", "table_nearly_full")
    pictures(broker, "all_busy")
    same("because all environments are busy" in found(broker)["table_nearly_full"][1], True)
    fire_within_ten_minutes(broker, well, seen, "TableNearlyFull")


@case({"timeout": 900})
def a_clock_that_was_set_back(broker):
    watch = broker.watches_disk()
    broker.serve()
    well, waits = works(broker)
    watch.ahead = 3_600_000
    event = broker.invoke('{"order":7}').id
    same((waits.done().id, broker.respond(event, "1").status), (event, 202))
    waits = poll(broker)
    watch.ahead = 0
    is_told(broker, well, "clock_behind", "ClockBehind", "clock_is_behind")
    waits.leave()


@case({"timeout": 900, "age": 7200})
def a_clock_that_is_held_back(broker):
    watch = broker.watches_disk()
    broker.serve("--clock-grace", "3600")
    well, waits = works(broker)
    watch.ahead = 7_200_000
    is_told(broker, well, "clock_held_back", "ClockHeldBack", "clock_is_held_back")
    waits.leave()


@case({"timeout": 900, "age": 3600})
def events_given_up_by_a_jump_of_the_clock(broker):
    watch = broker.watches_disk()
    broker.serve()
    same(broker.delete(broker.live("{}", "1")).status, 204)
    well = is_seen(broker)
    for _ in range(3):
        broker.invoke('{"order":7}')
    watch.ahead = 7_200_000
    until("their end", lambda: broker.number('events{standing="event_age_exceeded"}') == 3)
    until("a step", lambda: broker.number("clock_steps_total") == 1)
    seen = is_seen(broker, "events_expired_by_a_jump", "events_expire")
    pictures(broker, "expired_by_a_jump")
    # No runtime polls in this scene, so that the events wait.
    fire(broker, [(well, WELL), (seen, TOLD)], "ExpiredByJump", "EventsExpire", "EnvironmentNotReady")


@case({"timeout": 900, "environments": 2}, slow=True)
def one_of_two_environments_that_hangs(broker):
    broker.serve()
    hangs = broker.invoke('{"order":7}').id
    same(broker.next(1).id, hangs)
    begun = time.monotonic()
    while time.monotonic() < begun + 65:
        same(broker.delete(broker.live("{}", "1", environment=2)).status, 204)
        time.sleep(1)
    waits = broker.send_next(2)
    broker.until_parked(1)
    told = found(broker)
    same(set(told) - {SLOW}, {"environment_hangs"})
    pictures(broker, "environment_hangs")
    numbers = broker.numbers()
    fire(broker, [(numbers | {problem("environment_hangs"): 0}, WELL), (numbers, 2)], "EnvironmentHangs")
    waits.leave()
