#!/usr/bin/env python3
"""Times archives of few and of many events, and replays of them, by `ebusd once`, and prints tables.

    bench/archives.py [COUNT]

Run at the top of the repository. COUNT events, 1,000,000 if left out, are put ten at a time, and have texts of 220 and of 827
bytes. A tenth of them is stepped. A time is the least of three runs. With gcc, what the program occupies is counted by
bench/allocations.c in runs of their own. Outside the gate: nothing depends on a time.
"""
import datetime
import json
import os
import platform
import random
import subprocess
import sys
import tempfile

from control import Counts, Session, message
from once import EBUSD, SETUP, WORDS, row, table

RUNS = 3
FEW, MANY = 1_000, 1_000_000
TOGETHER = 10  # events of one PutEvents
DETAILS = {220: '{"total":12.50}', 827: json.dumps({"total": 12, "note": "x" * 600}, separators=(",", ":"))}
CALLS = 1_000  # descriptions that are timed together
SOURCE = "arn:aws:events:us-east-1:111122223333:event-bus/default"
PATTERNS = [0, 1, 10, 100]  # archives with a pattern
MOST = {"a": 190, "b": 40}  # bytes of an event beside its text, in the first archive and in a further one
SEED = 1
FIRST_TIME = 1_600_000_000  # of the events that are replayed, which are a second apart
STEPS = 1_000  # of one StepReplays
ENDED = [1_000, 8_000, 20_000]  # replays that have ended
STARTS = 200  # starts that are timed together beside them


def created(name, pattern=None):
    given = {"EventPattern": pattern} if pattern else {}
    return message("AWSEvents.CreateArchive", {"ArchiveName": name, "EventSourceArn": SOURCE, **given})


def put(detail, count):
    entry = {"Source": "shop.orders", "DetailType": "Order", "Detail": detail}
    return message("AWSEvents.PutEvents", {"Entries": [entry] * TOGETHER}) * (count // TOGETHER), count // TOGETHER


def put_in_time(detail, count, is_shuffled):
    """Events a second apart, in order of time or not."""
    times = list(range(FIRST_TIME, FIRST_TIME + count))
    if is_shuffled:
        random.Random(SEED).shuffle(times)
    entries = [{"Source": "shop.orders", "DetailType": "Order", "Time": it, "Detail": detail} for it in times]
    return b"".join(message("AWSEvents.PutEvents", {"Entries": entries[it : it + TOGETHER]}) for it in range(0, count, TOGETHER)), count // TOGETHER


def started(name, first=0, last=FIRST_TIME * 2):
    source, to = "arn:aws:events:us-east-1:111122223333:archive/a", {"Arn": SOURCE}
    given = {"EventSourceArn": source, "EventStartTime": first, "EventEndTime": last, "Destination": to}
    return message("AWSEvents.StartReplay", {"ReplayName": name, **given})


DESCRIBED = message("AWSEvents.DescribeArchive", {"ArchiveName": "a"})
# The events are freed before the next reply.
DELETED = message("AWSEvents.DeleteArchive", {"ArchiveName": "a"}) + message("RouterLocal.DutyCounts", {})
CANCELLED = message("AWSEvents.CancelReplay", {"ReplayName": "p"}) + message("RouterLocal.DutyCounts", {})
DESCRIBED_REPLAY = message("AWSEvents.DescribeReplay", {"ReplayName": "empty-0"})
LISTED = message("AWSEvents.ListReplays", {})


def times(count):
    """PutEvents with and without an archive, and calls on it."""
    table("events of", "PutEvents a second, no archive", "one archive", "ratio, at least 0.85", f"DescribeArchive at {FEW:,}, us", f"at {count:,}, us")
    deleted = {}
    for size, detail in DETAILS.items():
        least = {}

        def timed(what, seconds):
            least[what] = min(seconds, least.get(what, seconds))

        for _ in range(RUNS):
            for archives in ([], ["a"]):
                session = Session()
                for name in archives:
                    session.ask(created(name), 1)
                if archives:
                    session.ask(*put(detail, FEW))
                    timed("few", session.ask(DESCRIBED * CALLS, CALLS))
                timed(len(archives), session.ask(*put(detail, count)))
                if archives:
                    timed("many", session.ask(DESCRIBED * CALLS, CALLS))
                    timed("deleted", session.ask(DELETED, 2))
                session.end()
        without, kept = (count / TOGETHER / least[it] for it in (0, 1))
        row(f"{size} bytes", round(without), round(kept), f"{kept / without:.2f}", *(f"{1e6 * least[it] / CALLS:.1f}" for it in ("few", "many")))
        deleted[size] = least["deleted"]
    table("DeleteArchive of all, until the next reply", "s", "at most")
    for size, seconds in deleted.items():
        row(f"{size} bytes", f"{seconds:.3f}", 0.2)


def patterns(count):
    """PutEvents beside archives with a pattern that holds of no event."""
    table("events of", *(f"{number} archives with a pattern, events a second" for number in PATTERNS))
    for size, detail in DETAILS.items():
        rates = []
        for number in PATTERNS:
            session = Session()
            for place in range(number):
                session.ask(created(f"a-{place}", json.dumps({"source": ["another.shop"], "detail": {"total": [{"numeric": [">", place]}]}})), 1)
            rates.append(count / session.ask(*put(detail, count)))
            session.end()
        row(f"{size} bytes", *map(round, rates))


def starts(count):
    """A replay of all events: its start, and its end by a cancellation."""
    table("events of", "StartReplay in order of time, s, at most 0.5", "shuffled, at most 2", "CancelReplay until the next reply, at most 0.2")
    for size, detail in DETAILS.items():
        least = {}
        for is_shuffled in (False, True):
            text, wanted = put_in_time(detail, count, is_shuffled)
            for _ in range(RUNS):
                session = Session()
                session.ask(created("a"), 1)
                session.ask(text, wanted)
                for what, took in ((is_shuffled, session.ask(started("p"), 1)), ("cancelled", session.ask(CANCELLED, 2))):
                    least[what] = min(took, least.get(what, took))
                session.end()
        row(f"{size} bytes", *(f"{least[it]:.3f}" for it in (False, True, "cancelled")))


def steps(count):
    """Steps of a replay to one target."""
    table("events of", "steps a second, at least 20,000")
    for size, detail in DETAILS.items():
        least = float("inf")
        for _ in range(RUNS):
            session = Session()
            session.ask(created("a"), 1)
            session.ask(*put(detail, count))
            session.ask(b"".join(message(*it) for it in SETUP) + started("p"), len(SETUP) + 1)
            calls = count // STEPS
            least = min(least, session.ask(message("RouterLocal.StepReplays", {"Budget": STEPS}) * calls, calls))
            session.end()
        row(f"{size} bytes", round(count // STEPS * STEPS / least))


def beside_ended():
    """Calls beside replays that have ended. Each of these selects nothing, so it has ended once it has started."""
    table("replays that have ended", "StartReplay, us", "DescribeReplay, us", "ListReplays, ms")
    session, there = Session(), 0
    session.ask(created("a"), 1)

    def more(number):
        return b"".join(started(f"empty-{it}", 1, 2) for it in range(there, there + number)), number

    for ended in ENDED:
        session.ask(*more(ended - there))
        there = ended
        took = session.ask(*more(STARTS))
        there += STARTS
        described, listed = session.ask(DESCRIBED_REPLAY * CALLS, CALLS), session.ask(LISTED, 1)
        row(f"{ended:,}", f"{1e6 * took / STARTS:.1f}", f"{1e6 * described / CALLS:.1f}", f"{1e3 * listed:.1f}")
    session.end()


def memory(count):
    """What an event occupies beside its text, in one archive and in each further one."""
    with tempfile.TemporaryDirectory() as folder:
        library = os.path.join(folder, "allocations.so")
        subprocess.run(["gcc", "-O2", "-shared", "-fPIC", "-o", library, "bench/allocations.c"], check=True)
        table("bytes of an event beside its text", f"first archive, at most {MOST['a']}", f"a further one, at most {MOST['b']}")
        for size, detail in DETAILS.items():
            live = []
            for names in ([], ["a"], ["a", "b"]):
                counts = Counts(folder)
                session = Session(library=library, counts=counts)
                for name in names:
                    session.ask(created(name), 1)
                before = counts.now()
                if before[0] == 0:
                    session.end()
                    return print("\nwhat the program allocates was not counted: it does not use the C library's calls")
                session.ask(*put(detail, count))
                live.append((counts.now()[2] - before[2]) / count)
                session.end()
            row(f"{size} bytes", f"{live[1] - live[0] - size:.0f}", f"{live[2] - live[1]:.0f}")
        table("bytes of an event in a replay of all", "allocated at the start, at most 16", "kept after it, at most 8")
        for is_shuffled in (False, True):
            counts = Counts(folder)
            session = Session(library=library, counts=counts)
            session.ask(created("a"), 1)
            session.ask(*put_in_time(DETAILS[220], count, is_shuffled))
            before = counts.now()
            session.ask(started("p"), 1)
            after = counts.now()
            session.end()
            row("shuffled" if is_shuffled else "in order of time", *(f"{(after[it] - before[it]) / count:.1f}" for it in (1, 2)))
    return None


def main():
    count = int(sys.argv[1]) if len(sys.argv) > 1 else MANY
    # What has to be built is built before anything is timed.
    if subprocess.run([EBUSD, *WORDS], stdin=subprocess.DEVNULL).returncode:
        sys.exit(f"{EBUSD} {' '.join(WORDS)} does not end with status 0 on empty input")
    print(f"{datetime.date.today()}, {os.cpu_count()} processors, {platform.machine()}, {' '.join(sys.argv)}")
    times(count)
    patterns(min(count, MANY // 10))
    starts(count)
    steps(count // 10)
    beside_ended()
    memory(min(count, MANY // 10))


if __name__ == "__main__":
    main()
