"""Configuring a disk: what is in force for later events alone, and what a stop in the middle of it leaves."""
from harness import OPENING, case, matches, same


@case()
def what_is_configured_holds_for_later_events_alone(broker):
    broker.serve()
    before = broker.invoke("{}").id
    same(broker.stop(), (202, 0, ""))
    same(broker.configure("--retries", 0, "--age", 60), (0, "configured retries 0 age 60\n"))
    same(broker.in_force(), (0, 60))
    broker.serve()
    after = broker.invoke("{}").id
    for event in before, after:
        same(broker.next().id, event)
        same(broker.respond(event, "{}", path="error").status, 202)
    record = broker.record("failure").json
    same((record["requestContext"]["requestId"], record["requestContext"]["condition"]), (after, "RetriesExhausted"))
    same(broker.stop(), (202, 0, ""))
    for event, standing in (before, "due again"), (after, "ended RetriesExhausted"):
        line = f"{event} {standing} accepted [0-9]+ moment [0-9]+ starts 1 failures 1 pushbacks 0"
        matches(line, broker.audit("--event", event)[3])


@case()
def what_is_left_out_stays_as_it_is(broker):
    same(broker.configure("--retries", 1), (0, "configured retries 1 age 21600\n"))
    same(broker.configure("--age", 90), (0, "configured retries 1 age 90\n"))
    same(broker.configure(), (0, "configured retries 1 age 90\n"))
    same(broker.audit(), ["generation 1 number 3", "held 0 waiting 0 running 0 success 0 failure 0", "older none"])


@case()
def what_cannot_be_configured_is_refused_and_changes_nothing(broker):
    before = broker.content()
    same(broker.configure("--retries", 3), (1, "refused: bad settings: retries\n"))
    for age in 59, 21601:
        same(broker.configure("--age", age), (1, "refused: bad settings: age\n"))
    same(broker.configure("--retries", 3, "--age", 59), (1, "refused: bad settings: retries\n"))
    for words in ("--retries", 256), ("--retries", "x"), ("--age", -1), ("--age", 1 << 32), ("--timeout", 3), ("x",):
        same((words, broker.configure(*words)[0]), (words, 2))
    missing = broker.disk + "x"
    told = [broker.said("configure", missing, *words) for words in ((), ("--retries", 3))]
    same(told, [(1, "refused: no such file\n"), (1, "refused: bad settings: retries\n")])
    broker.serve()
    same(broker.configure("--retries", 0), (1, "refused: in use by another program\n"))
    broker.kill()
    assert broker.content() == before, "the disk was changed"


@case()
def a_worn_disk_is_not_configured(broker):
    # The number of the snapshot, the first field of the third sector, is the greatest: 2^62.
    broker.put(2 * 512, (1 << 62).to_bytes(8, "big"))
    before = broker.content()
    same(broker.configure("--retries", 0), (1, "refused: worn out\n"))
    same(broker.in_force(), (2, 21600))
    assert broker.content() == before, "the disk was changed"


# Where a stop may come: what the watch is told, and whether what was asked for is in force behind it. The opening makes the first
# flushes. The frame's body is written, then its gate, each with a flush behind it.
STOPS = (
    ({"kill_flush": 1}, False), ({"kill_flush": OPENING}, False), ({"kill_write": 1}, False), ({"kill_write": 1, "torn": 512}, False),
    ({"kill_flush": OPENING + 1}, False), ({"kill_write": 2}, False), ({"kill_flush": OPENING + 2}, True), ({"kill_print": 1}, True),
)


@case()
def a_configure_that_is_killed_leaves_what_was_or_what_was_asked_for(broker):
    broker.serve()
    event = broker.invoke('{"a":1}').id
    same(broker.stop(), (202, 0, ""))
    watch, was = broker.watches_disk(), (2, 21600)
    for place, (words, after) in enumerate(STOPS):
        for loses in False, True:
            watch.clear()
            watch.keep = 1
            for word, value in words.items():
                setattr(watch, word, value)
            asked = ((2 * place + loses) % 3, 60 + 2 * place + loses)
            same(broker.configure("--retries", asked[0], "--age", asked[1]), (-9, ""))
            if loses and watch.flushed:
                broker.lose_what_was_not_flushed()
            # A power failure behind the last write may lose it, since its flush did not come.
            is_new = after and not (loses and "kill_flush" in words)
            watch.clear()
            same((words, loses, broker.in_force()), (words, loses, asked if is_new else was))
            was = broker.in_force()
            same(broker.audit()[1], "held 1 waiting 1 running 0 success 0 failure 0")
    broker.watch = None
    broker.serve()
    same(broker.next().id, event)


@case({"sectors": 64, "events": 2, "payload": 64, "response": 64})
def a_configure_outlives_the_switches_behind_it(broker):
    same(broker.configure("--retries", 0, "--age", 61), (0, "configured retries 0 age 61\n"))
    broker.serve()
    for _ in range(15):
        same(broker.delete(broker.live("{}", "{}")).status, 204)
    assert broker.number("generation") > 2
    same(broker.stop(), (202, 0, ""))
    same(broker.in_force(), (0, 61))


@case()
def an_operator_is_shown_what_is_in_force(broker):
    def shown():
        told = broker.numbers()
        return told["retries_limit"], told["age_limit_seconds"]

    broker.serve()
    same(shown(), (2, 21600))
    same(broker.stop(), (202, 0, ""))
    broker.configure("--retries", 1, "--age", 77)
    broker.serve()
    same(shown(), (1, 77))
