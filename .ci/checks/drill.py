#!/usr/bin/env python3
"""Compares what `ebusd drill` prints with what `ebusd once` replies to the same messages, and with what `ebusd check` says of their journal.

The messages are made here from the seed, and by no part of the program. Those of 20 seeds are given to `once`, with as many DeliverDue as
their deliveries need, then DutyCounts and DeleteMessages. Each number that `drill` has to print is counted in these replies, so this also
shows that a drill makes the same messages. Without the last two they are given to `once --journal`: `check` of that journal prints what
`drill` prints. Two rows are worked by hand, one long drill is made twice, and two outputs are full.

A word names another program to run. The last line is `N passed, M failed`.
"""
import json
import os
import random
import subprocess
import sys
import tempfile

from mixed import Failure
from router import CALLS, QUEUE_ARN
from sessions import command_of, expect, side_by_side

COMMAND = []  # the program to run, and what comes before it
SECONDS = 60  # that a run may take
SEEDS = [0, 1, 2_147_483_647, *random.Random(36).sample(range(2_147_483_648), 17)]
BUDGET = 1_000  # attempts that a DeliverDue of a drill makes at most
NOW = "1700000000"
RULES = {f"k{i}": {"detail": {"k": [f"k{i}"]}} for i in range(10)} | {"low": {"detail": {"b": [{"numeric": ["<", 600]}]}}}
BY_HAND = {
    (0, 1): (26, 26, 23, 1, 2),
    (1, 3): (30, 30, 23, 3, 4),
    (7, 20_000): (52_091, 52_091, 23, 20_000, 32_068),
}


def run(*words, asked=b"", stdout=subprocess.PIPE):
    """What a process writes to both streams, and its status."""
    ran = subprocess.run([*COMMAND, *words], input=asked, stdout=stdout, stderr=subprocess.PIPE, timeout=SECONDS)
    return ran.stdout, ran.stderr, ran.returncode


def drill(seed, events):
    return run("drill", "--seed", str(seed), "--events", str(events))


def draws(seed):
    x = seed
    while True:
        x = (x * 1_103_515_245 + 12_345) % 2**31
        yield x // 65_536


def requests(seed, events):
    """The calls of a drill up to its last event, each with its members, and the number of deliveries that they make."""
    calls = [("CreateQueue", {"QueueName": "d"})]
    calls += [("PutRule", {"Name": name, "EventPattern": json.dumps(pattern)}) for name, pattern in RULES.items()]
    calls += [("PutTargets", {"Rule": name, "Targets": [{"Id": "t", "Arn": QUEUE_ARN + "d"}]}) for name in RULES]
    drawn, deliveries = draws(seed), 0
    for _ in range(events):
        k, b = next(drawn) % 10, next(drawn) % 1_000
        detail = json.dumps({"k": f"k{k}", "b": b})
        calls.append(("PutEvents", {"Entries": [{"Source": "drill", "DetailType": "drill", "Detail": detail}]}))
        deliveries += 2 if b < 600 else 1
    return calls, deliveries


def message(action, members):
    body = json.dumps(members).encode()
    full = next(it for it in CALLS if it.endswith("." + action))
    return f"POST / HTTP/1.1\r\nHost: a\r\nX-Amz-Target: {full}\r\nContent-Length: {len(body)}\r\n\r\n".encode() + body


def bodies(replies):
    """The bodies of replies 200, in order."""
    found = []
    while replies:
        head, _, rest = replies.partition(b"\r\n\r\n")
        if not head.startswith(b"HTTP/1.1 200 "):
            raise Failure(f"a reply is {head[:200]!r}")
        length = next(int(it.split(b":")[1]) for it in head.split(b"\r\n") if it.startswith(b"Content-Length:"))
        found.append(json.loads(rest[:length]))
        replies = rest[length:]
    return found


def lines(records, entries, control, events, deliveries, delivered, messages):
    return (
        f"records {records} entries {entries} control {control}\n"
        f"events {events} archived 0 replays 0\n"
        f"duties {deliveries} pending {deliveries - delivered} delivered {delivered} dead-lettered 0 dropped 0\n"
        f"messages {messages}\n"
    ).encode()


def replies_count(seed, events):
    """What a drill has to print, counted in the replies of `once` to the same messages."""
    calls, deliveries = requests(seed, events)
    rounds = -(-deliveries // BUDGET) + 1
    asked = [*calls, *[("DeliverDue", {"Budget": BUDGET})] * rounds, ("DutyCounts", {})]
    asked.append(("DeleteMessages", {"QueueName": "d", "Through": deliveries}))
    output, faults, status = run("once", "--now", NOW, asked=b"".join(message(*it) for it in asked))
    expect("the faults and the status of once", (faults, status), (b"", 0))
    replies = bodies(output)
    expect("the number of replies", len(replies), len(asked))
    control = len(calls) - events
    ids = [it["Entries"][0]["EventId"] for it in replies[control : len(calls)]]
    expect("events with an id", len(set(ids)), events)
    counted = replies[len(calls) : len(calls) + rounds]
    expect("the attempts of the last DeliverDue", counted[-1]["Attempts"], 0)
    attempts, counts, deleted = sum(it["Attempts"] for it in counted), replies[-2], replies[-1]["Deleted"]
    expect("DutyCounts", (counts["Created"], counts["DeadLettered"], counts["Dropped"]), (deliveries, 0, 0))
    records = control + events + attempts
    return lines(records, records, control, events, counts["Created"], counts["Delivered"], deleted)


def check_counts(seed, events):
    """What `check` prints of the journal that the messages of a drill leave."""
    calls, deliveries = requests(seed, events)
    asked = [*calls, *[("DeliverDue", {"Budget": BUDGET})] * (-(-deliveries // BUDGET) + 1)]
    with tempfile.TemporaryDirectory() as folder:
        journal = os.path.join(folder, "J")
        output, faults, status = run("once", "--journal", journal, "--now", NOW, asked=b"".join(message(*it) for it in asked))
        expect("the faults and the status of once with a journal", (faults, status), (b"", 0))
        expect("the number of replies with a journal", len(bodies(output)), len(asked))
        return run("check", "--journal", journal)


def of_seed(seed):
    def case():
        events = random.Random(seed).randint(1, 1_500)
        drilled = drill(seed, events)
        expect(f"drill --seed {seed} --events {events}", drilled, (replies_count(seed, events), b"", 0))
        expect(f"check after the messages of seed {seed} and {events} events", check_counts(seed, events), drilled)

    case.__name__ = f"seed {seed}"
    return case


def rows_by_hand():
    for (seed, events), (records, entries, control, put, deliveries) in BY_HAND.items():
        wanted = lines(records, entries, control, put, deliveries, deliveries, deliveries)
        expect(f"drill --seed {seed} --events {events}", drill(seed, events), (wanted, b"", 0))


def the_same_twice():
    expect("the second of two drills", drill(7, 20_000), drill(7, 20_000))


def full_outputs():
    with open("/dev/full", "wb") as full:
        for words in ["drill", "--seed", "1", "--events", "3"], ["help"], ["--version"]:
            _, *rest = run(*words, stdout=full)
            expect(" ".join(words), rest, [b"ebusd: output failed\n", 4])


def main():
    COMMAND.extend(command_of(sys.argv[1:]))
    cases = [of_seed(it) for it in SEEDS] + [rows_by_hand, the_same_twice, full_outputs]
    return side_by_side([(it.__name__, it) for it in cases])


if __name__ == "__main__":
    sys.exit(main())
