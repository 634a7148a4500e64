#!/usr/bin/env python3
"""Makes a run for each seed of SEEDS in which a bus has 300 rules and 90 archives, and compares each reply with the model of the mixed runs
(`router.py`).

The rules' patterns have tests of all kinds over few keys, and the events have lists in lists. Each rule has one target, a queue of its
own, so the messages of the queues show which rules an event matched. Of the 3,000 events each 20 are followed by a change of one rule: it is
put again with another pattern, disabled, enabled, or deleted and created anew, and of one archive: it gets another pattern, or is deleted and
created anew. Each 100 are followed by all deliveries that are due, by all messages of all queues, which are then deleted, and by what the
archives keep. Required are the status and the body of each reply, as in the mixed runs.

The last line is `N passed, M failed`.
"""
import os
import random
import sys
from concurrent.futures import ProcessPoolExecutor

import rows
from mixed import EBUSD, PROGRAM, Failure, run
from mixed_requests import Request
from pattern_texts import KEYS, a_value, fields_of
from patterns import Fault, holds, read_pattern, spelled, view_count
from router import A_CALL_MOST, EVENTS_ARN, PEEKED_MOST, QUEUE_ARN, Router, Spelled

READING = 1_900_000_000
SECONDS = 600  # that one run may take
SEEDS = [1, 2, 3]
RULES, ARCHIVES, EVENTS, UNTIL_A_CHANGE, UNTIL_A_LOOK = 300, 90, 3_000, 20, 100
SOURCES = ["shop.orders", "shop.users", "a"]
MOST_VIEWS = 60  # of an event, since the model goes through all of them


def an_event(chance):
    while True:
        detail = {it: a_value(chance, 3) for it in chance.sample(KEYS, chance.randint(1, 4))}
        event = {"source": chance.choice(SOURCES), "detail-type": chance.choice("xyz"), "detail": detail}
        if view_count(event) <= MOST_VIEWS:
            return event


def a_pattern(chance):
    """The text of a pattern that holds of some event, but not of most."""
    while True:
        pattern = fields_of(chance, an_event(chance), 4)
        if chance.random() < 0.7:
            pattern.setdefault("source", [chance.choice(SOURCES)])
        text = spelled(pattern)
        try:
            read = read_pattern(text)
        except Fault:
            continue
        if sum(holds(read, an_event(chance)) for _ in range(5)) <= 1:
            return text


def of(action, members):
    return Request(action, members, spelled(members))


def put(chance, name):
    return of("AWSEvents.PutRule", {"Name": name, "EventPattern": a_pattern(chance)})


def given_its_queue(name):
    return of("AWSEvents.PutTargets", {"Rule": name, "Targets": [{"Id": "1", "Arn": QUEUE_ARN + name}]})


def a_change(chance, name):
    kind = chance.randrange(4)
    if kind == 0:
        return [put(chance, name)]
    if kind == 1:
        return [of("AWSEvents.DisableRule", {"Name": name})]
    if kind == 2:
        return [of("AWSEvents.EnableRule", {"Name": name})]
    removed = of("AWSEvents.RemoveTargets", {"Rule": name, "Ids": ["1"]})
    return [removed, of("AWSEvents.DeleteRule", {"Name": name}), put(chance, name), given_its_queue(name)]


def created(chance, name):
    members = {"ArchiveName": name, "EventSourceArn": EVENTS_ARN + "event-bus/default"}
    return of("AWSEvents.CreateArchive", {**members, "EventPattern": a_pattern(chance)})


def a_change_of_an_archive(chance, name):
    if chance.random() < 0.7:
        return [of("AWSEvents.UpdateArchive", {"ArchiveName": name, "EventPattern": a_pattern(chance)})]
    return [of("AWSEvents.DeleteArchive", {"ArchiveName": name}), created(chance, name)]


def a_look(router, names):
    """All deliveries that are due, and then all messages and archives."""
    while router.is_due:
        yield of("RouterLocal.DeliverDue", {"Budget": A_CALL_MOST})
    for name in names:
        while messages := router.queues[name].messages[:PEEKED_MOST]:
            yield of("RouterLocal.PeekMessages", {"QueueName": name, "Limit": PEEKED_MOST})
            yield of("RouterLocal.DeleteMessages", {"QueueName": name, "Through": messages[-1]["Number"]})
    yield of("AWSEvents.ListArchives", {})


def requests_of(router, chance):
    names = [f"rule-{number}" for number in range(RULES)]
    chance.shuffle(names)
    for name in names:
        yield of("RouterLocal.CreateQueue", {"QueueName": name})
        yield put(chance, name)
        yield given_its_queue(name)
    archives = [f"archive-{number}" for number in range(ARCHIVES)]
    for name in archives:
        yield created(chance, name)
    for number in range(1, EVENTS + 1):
        event = an_event(chance)
        entry = {"Source": event["source"], "DetailType": event["detail-type"], "Detail": Spelled(event["detail"])}
        yield of("AWSEvents.PutEvents", {"Entries": [entry]})
        if number % UNTIL_A_CHANGE == 0:
            yield from a_change(chance, chance.choice(names))
            yield from a_change_of_an_archive(chance, chance.choice(archives))
        if number % UNTIL_A_LOOK == 0:
            yield of("RouterLocal.DutyCounts", {})
            yield from a_look(router, names)


def exchanges_of(seed):
    """The run's requests, each with its reply."""
    router, chance = Router(READING), random.Random(seed)
    for request in requests_of(router, chance):
        status, body = router.answer(request.method, request.action, request.caller, request.value)
        yield request, status, body.encode()


def one(command, seed):
    """Makes the run of one seed: why it failed, or nothing; and its counts."""
    counts = {}
    try:
        run(command, READING, exchanges_of(seed), counts, SECONDS)
        return None, counts
    except Failure as found:
        return str(found), counts


def main():
    command = sys.argv[1:] or [PROGRAM if os.access(PROGRAM, os.X_OK) else EBUSD]
    rows.check()
    with ProcessPoolExecutor(len(SEEDS)) as pool:
        found = list(pool.map(one, [command] * len(SEEDS), SEEDS))
    failed = 0
    for seed, (failure, counts) in zip(SEEDS, found):
        if failure is None and any(status != 200 for _, status in counts):
            failure = f"some request is refused: {counts}"
        if failure is not None:
            failed += 1
            print(f"seed {seed}: {failure}")
        if os.environ.get("MIXED_COUNTS"):
            print(f"seed {seed}: {counts}", file=sys.stderr)
    print(f"{len(SEEDS) - failed} passed, {failed} failed")
    return 1 if failed else 0


if __name__ == "__main__":
    sys.exit(main())
