#!/usr/bin/env python3
"""Makes long runs of mixed requests, one for each clock reading of READINGS, and compares each reply with a model.

A run has one request for each length of a body from 2 to 20,000 bytes, and some up to the limit of 1,048,576, in an order
that a fixed seed shuffles; then each fault of a member, a pattern and a policy alone, each input of a target, and requests that
reach the limits. The requests (`mixed_requests.py`) are all actions that the program serves, accepted and refused, by the owner and
by others, and messages that it does not serve. The model (`router.py`) knows only the requests. It is checked by rows worked by hand
(`rows.py`) first, and by those of examples/tables in `model.sh`.
Required are the status and the body of each reply, no reply more or less, nothing on standard error, and the exit status 0. A
503 is never right here: memory is available. Each refusal of REFUSALS has to come in some run. Nobody listens at the endpoints, so
each attempt to one has no answer, and as all readings of a run are one no retry is ever due.

To add an action, add it to CALLS of `router.py`, to ACTIONS and BAD_VALUES of `mixed_requests.py`, and its refusals to REFUSALS.

The last line is `N passed, M failed`.
"""
import os
import queue
import random
import subprocess
import sys
import threading
import time
from concurrent.futures import ProcessPoolExecutor

import rows
from mixed_requests import ACTIONS, a_request, all_that_is_due, conditions, events_in_archives, faults_of_targets, in_order_of_names
from mixed_requests import inputs_of_targets, most_bytes, one_by_one, replays_of_archives, request_of, to_the_limits, uses_of_queues
from router import A_CALL, CALLS, PEEKED_MOST, TARGET_MEMBERS, Router

PROGRAM = "crates/ebusd/out/ebusd"
EBUSD = "bin/ebusd"
READINGS = [0, 1_900_000_000, 250_000_000_000]
SEED = 12
SECONDS = 240  # that one run may take
LENGTHS = range(2, 20_001)
LONG_LENGTHS = [32_767, 32_768, 65_535, 65_536, 131_072, 262_143, 262_144, 262_145, 524_288, 1_000_000, 1_048_575, 1_048_576]
HEADS = ["Host: a\r\n", "Host: 127.0.0.1\r\nUser-Agent: mixed\r\n", "host: b\r\nX-Amz-Date: 20260101T000000Z\r\nAccept: */*\r\n"]
CALLER_FIELDS = ["x-caller-account: ", "X-Caller-Account:", "X-CALLER-ACCOUNT:  "]

# ---- The refusals that have to come. Those of members follow from CALLS.

PATTERN_FAULTS = """TooLong NotJson TooDeep KeyTwice NotObject EmptyObject EmptyArray BadId BadOr UnknownTest BadOperand
    BadNumeric BadCidr BadWildcard TooMany""".split()
POLICY_FAULTS = """TooLong NotJson TooDeep KeyTwice NotObject BadVersion BadSid BadEffect BadPrincipal BadAction BadResource
    BadCondition UnknownMember""".split()
NO_BUS = "Event bus {} does not exist."
NO_RULE = "Rule {} does not exist."
NO_QUEUE = "Queue {} does not exist."
NO_ARCHIVE = "Archive {} does not exist."
NO_REPLAY = "Replay {} does not exist."
REFUSALS = {
    "AWSEvents.CreateEventBus": ["Event bus {} already exists.", "Event bus limit 100 reached."],
    "AWSEvents.DeleteEventBus": ["The default bus stays.", NO_BUS, "Event bus {} is in use."],
    "AWSEvents.DescribeEventBus": [NO_BUS],
    "AWSEvents.PutRule": [NO_BUS, "Rule limit 300 reached."],
    "AWSEvents.DeleteRule": [NO_BUS, "Rule {} has targets."],
    "AWSEvents.EnableRule": [NO_BUS, NO_RULE],
    "AWSEvents.DisableRule": [NO_BUS, NO_RULE],
    "AWSEvents.DescribeRule": [NO_BUS, NO_RULE],
    "AWSEvents.ListRules": [NO_BUS],
    "AWSEvents.PutTargets": [NO_BUS, NO_RULE, NO_QUEUE, "A dead-letter queue does not exist.", "Target limit 5 reached."]
    + ["More than one input."]
    + [f"A target's {it} is not valid." for it in TARGET_MEMBERS],
    "AWSEvents.RemoveTargets": [NO_BUS, NO_RULE, "Target {} does not exist."],
    "AWSEvents.ListTargetsByRule": [NO_BUS, NO_RULE],
    "AWSEvents.ListRuleNamesByTarget": [NO_BUS],
    "AWSEvents.PutPermission": [NO_BUS, "Member Policy is not valid.", "Statement {} already exists."]
    + [f"Policy is not valid. Reason: {it}" for it in [*POLICY_FAULTS, "TooLong, as it would be stored"]],
    "AWSEvents.RemovePermission": [NO_BUS, "Member StatementId is required.", "Statement {} does not exist."],
    "AWSEvents.PutEvents": [f"Parameter {it} is not valid." for it in ("Source", "DetailType", "Detail", "Time", "EventBusName")]
    + ["Detail is malformed.", "Not authorized for the source.", "The entry's bus does not exist."]
    + ["Denied by statement {}.", "No statement allows it.", "The request is over 262144 bytes."],
    "AWSEvents.CreateArchive": [NO_BUS, "Archive {} already exists.", "Archive limit 100 reached."],
    "AWSEvents.UpdateArchive": [NO_ARCHIVE],
    "AWSEvents.DeleteArchive": [NO_ARCHIVE],
    "AWSEvents.DescribeArchive": [NO_ARCHIVE],
    "AWSEvents.StartReplay": ["Replay {} already exists.", NO_ARCHIVE, "Destination is not the archive's bus.", "The range is empty."]
    + ["Replay limit 10 reached."],
    "AWSEvents.CancelReplay": [NO_REPLAY, "Replay {} is not running."],
    "AWSEvents.DescribeReplay": [NO_REPLAY],
    "RouterLocal.CreateQueue": ["Queue {} already exists.", "Queue limit 1000 reached."],
    "RouterLocal.DeleteQueue": [NO_QUEUE]
    + [f"{it} uses the queue." for it in ("a target", "a target's dead letters", "a delivery", "a delivery's dead letters", "a message")],
    "RouterLocal.PeekMessages": [NO_QUEUE],
    "RouterLocal.DeleteMessages": [NO_QUEUE],
}


def wanted_refusals():
    """Each action with each cause that some run has to have."""
    yield None, "Unknown operation."
    for action, (_, asked) in CALLS.items():
        yield action, "Member x-caller-account is not valid."
        yield action, "The body is not a JSON object."
        if action != "AWSEvents.PutEvents":
            yield action, "Only the owner may call this."
        for member, is_required, _ in asked:
            yield action, f"Member {member} is not valid."
            if is_required:
                yield action, f"Member {member} is required."
            if member == "EventPattern":
                yield from ((action, f"Event pattern is not valid. Reason: {it} at ") for it in PATTERN_FAULTS)
        yield from ((action, it) for it in REFUSALS.get(action, []))


# ---- A run


def requests_of(router, chance):
    """The run's requests: first a few that make queues and rules, then one of each length, each fault alone, those at the limits,
    and what is left to deliver. Each is made for what the router has just now."""
    for action in ("RouterLocal.CreateQueue", "AWSEvents.CreateEventBus", "AWSEvents.PutRule", "AWSEvents.PutTargets", "AWSEvents.CreateArchive"):
        for _ in range(8):
            make, _ = ACTIONS[action]
            yield request_of(action, make(router, chance), chance, 60_000)
    lengths = [*LENGTHS, *LONG_LENGTHS]
    chance.shuffle(lengths)
    for length in lengths:
        yield a_request(router, chance, length)
    for over in (0, 1):
        yield request_of("AWSEvents.PutEvents", most_bytes(over), chance, 300_000)
    for make in (one_by_one, conditions, faults_of_targets, inputs_of_targets, uses_of_queues, in_order_of_names, events_in_archives):
        yield from make(router, chance)
    for make in (replays_of_archives, to_the_limits, all_that_is_due):
        yield from make(router, chance)
    yield request_of("RouterLocal.DeliverDue", {"Budget": A_CALL}, chance, 20)
    yield request_of("RouterLocal.DutyCounts", {}, chance, 20)
    for name in router.queues:
        yield request_of("RouterLocal.PeekMessages", {"QueueName": name, "Limit": PEEKED_MOST}, chance, 150)


def exchanges_of(reading, causes):
    """The run's requests, each with its reply. The causes of all refusals are added."""
    router, chance = Router(reading), random.Random(SEED + reading)
    router.causes = causes
    for request in requests_of(router, chance):
        status, body = router.answer(request.method, request.action, request.caller, request.value)
        yield request, status, body.encode()


def message(request, number):
    target = "" if request.action is None else f"X-Amz-Target: {request.action}\r\n"
    caller = "" if request.caller is None else f"{CALLER_FIELDS[number % len(CALLER_FIELDS)]}{request.caller}\r\n"
    fields = f"{HEADS[number % len(HEADS)]}{target}{caller}"
    return f"{request.method} / HTTP/1.1\r\n{fields}Content-Length: {len(request.body)}\r\n\r\n".encode() + request.body


class Failure(Exception):
    pass


def read_reply(output, method):
    """The status and the body of the next reply, to a message of that method, or None at the end of the output."""
    line = output.readline()
    if not line:
        return None
    parts = line.split(b" ", 2)
    if len(parts) != 3 or parts[0] != b"HTTP/1.1" or not parts[1].isdigit():
        raise Failure(f"the output goes on with {line[:60]!r}, which is no status line")
    length = None
    while (field := output.readline()) not in (b"\r\n", b""):
        name, _, value = field.partition(b":")
        if name.lower() == b"content-length":
            length = int(value)
    if length is None:
        raise Failure(f"the head after {line[:60]!r} has no Content-Length")
    length = 0 if method == "HEAD" else length
    body = output.read(length)
    if len(body) != length:
        raise Failure(f"the output ends within a body of {length} bytes")
    return int(parts[1]), body


def place(number, request):
    caller = "" if request.caller is None else f" by {request.caller!r}"
    return f"request {number}, {request.action or 'without an action'}{caller}, a body of {len(request.body)} bytes"


def difference(got, wanted):
    at = next((at for at, pair in enumerate(zip(got, wanted)) if pair[0] != pair[1]), min(len(got), len(wanted)))
    return f"at byte {at} the body has {got[at : at + 60]!r}, and {wanted[at : at + 60]!r} is wanted"


def compare(output, asked, counts, settled=lambda body: body):
    """Compares each reply with the request's, in order. A reply's body is compared after `settled`."""
    number = 0
    while (exchange := asked.get(timeout=SECONDS)) is not None:
        request, *wanted = exchange
        reply = read_reply(output, request.method)
        if reply is None:
            raise Failure(f"there are {number} replies, and request {number + 1} has none")
        number += 1
        reply = reply[0], settled(reply[1])
        if reply[0] != wanted[0]:
            raise Failure(f"{place(number, request)}: the status is {reply[0]}, and {wanted[0]} is wanted: {reply[1][:80]!r}, not {wanted[1][:80]!r}")
        if reply[1] != wanted[1]:
            raise Failure(f"{place(number, request)}: {difference(reply[1], wanted[1])}")
        counts[request.action, reply[0]] = counts.get((request.action, reply[0]), 0) + 1
    if read_reply(output, None) is not None:
        raise Failure(f"reply {number + 1} comes after the last request's")
    return number


def run(command, reading, exchanges, counts, seconds=SECONDS):
    """Makes the requests of the exchanges at one reading, in that many seconds at most; a failure is raised."""
    ran = subprocess.Popen([*command, "once", "--now", str(reading)], stdin=subprocess.PIPE, stdout=subprocess.PIPE, stderr=subprocess.PIPE)
    late = threading.Event()
    timer = threading.Timer(seconds, lambda: (late.set(), ran.kill()))
    timer.start()
    asked = queue.Queue()
    faults = []
    broken = []  # what ended the model, if it did not end by itself

    def write():
        try:
            for number, exchange in enumerate(exchanges):
                asked.put(exchange)
                ran.stdin.write(message(exchange[0], number))
            ran.stdin.close()
        except BrokenPipeError:
            pass
        except Exception as error:
            broken.append(error)
            ran.kill()
        asked.put(None)

    threads = [threading.Thread(target=write), threading.Thread(target=lambda: faults.append(ran.stderr.read()))]
    for it in threads:
        it.start()
    failure = None
    try:
        compare(ran.stdout, asked, counts)
    except Failure as found:
        failure = str(found)
        ran.stdout.close()
        ran.kill()
    status = ran.wait()
    timer.cancel()
    for it in threads:
        it.join()
    if broken:
        raise broken[0]
    if late.is_set():
        raise Failure(f"the run took more than {seconds} s")
    if status != 0 and (failure is None or "has none" in failure):
        failure = f"{failure + '; ' if failure else ''}the exit status is {status}, and 0 is wanted"
    if faults[0]:
        failure = f"{failure + '; ' if failure else ''}standard error has {faults[0][:200]!r}"
    if failure:
        raise Failure(failure)


def one(command, reading):
    """Makes the run of one reading: why it failed, or nothing; its counts, its refusals and its seconds."""
    began = time.monotonic()
    counts, causes = {}, set()
    try:
        run(command, reading, exchanges_of(reading, causes), counts)
        return None, counts, causes, time.monotonic() - began
    except Failure as found:
        return str(found), counts, causes, time.monotonic() - began


def main():
    words = sys.argv[1:]
    command = words or [PROGRAM if os.access(PROGRAM, os.X_OK) else EBUSD]
    rows.check()
    passed = failed = 0
    causes = set()
    # The runs need nothing of each other, and each keeps a processor busy.
    with ProcessPoolExecutor(len(READINGS)) as pool:
        found = list(pool.map(one, [command] * len(READINGS), READINGS))
    for reading, (failure, counts, refusals, seconds) in zip(READINGS, found):
        causes |= refusals
        passed, failed = passed + (failure is None), failed + (failure is not None)
        if failure is not None:
            print(f"--now {reading}: {failure}")
        if os.environ.get("MIXED_COUNTS"):
            print(f"--now {reading}: {sum(counts.values())} replies in {seconds:.1f} s", file=sys.stderr)
            for key, count in sorted(counts.items(), key=str):
                print(f"  {key[0]} {key[1]}: {count}", file=sys.stderr)
    lacking = [] if failed else [it for it in wanted_refusals() if it not in causes]
    for action, cause in lacking:
        print(f"no run has the refusal {cause!r} of {action}")
    failed += bool(lacking)
    print(f"{passed} passed, {failed} failed")
    return 1 if failed else 0


if __name__ == "__main__":
    sys.exit(main())
