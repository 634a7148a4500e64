#!/usr/bin/env python3
"""Times inputs of targets by `ebusd once` and by leaf_bench, counts their memory, and prints one table.

    bench/inputs.py [PROGRAM [LEAF_BENCH]]

Run at the top of the repository. PROGRAM is a built program; without it bin/ebusd builds the one that is measured. Without
crates/leaf_bench/out/leaf_bench, or the LEAF_BENCH that is named, its row is left out. A time is processor time, the least of many short
pieces. The two sides of a ratio take turns. gcc builds bench/allocations.c, which counts what the program allocates. Takes a minute.
Outside the gate: nothing depends on a time.
"""
import datetime
import json
import os
import platform
import string
import subprocess
import sys
import tempfile

from control import Counts, message
from deliveries import DELIVER, LARGE, RULES, TARGETS, Router, large, program, queues, row, shown, table
from once import EBUSD, PROGRAM, WORDS, peak_of

LEAF_BENCH = "crates/leaf_bench/out/leaf_bench"
ROUNDS, RUNS = 100_000, 5  # of leaf_bench
PIECES, EVENTS = 60, 400  # of a time, and of a piece
FEW_PIECES = 12  # of the time of one large event
EVENT = 800  # bytes
WHOLE = 262_144  # bytes of a large event
KEYS, NUMBERS = 30_000, 131_000  # of a Detail
LETTERS = string.ascii_letters + string.digits + "_-"

PATHS = {"id": "$.detail.id", "who": "$.detail.who"}
TEMPLATE = '{"id":<id>, "w":<who>, "t":"order <id> by <who>"}'


def transformer(paths, template):
    return {"InputTransformer": {"InputPathsMap": paths, "InputTemplate": template}}


def detail_of(size, members):
    """A Detail of so many bytes, filled up by one text."""
    text = json.dumps({**members, "fill": ""}, separators=(",", ":"))
    return json.dumps({**members, "fill": "x" * (size - len(text))}, separators=(",", ":"))


def put(detail):
    return message("AWSEvents.PutEvents", {"Entries": [{"Source": "shop.orders", "DetailType": "Order", "Detail": detail}]})


def router(given, **words):
    """A session with one target that has this input."""
    session = Router(**words)
    session.rule("shop.orders", [{**queues(1)[0], **given}])
    return session


def small_detail():
    """A Detail with which the event has 800 bytes."""
    session = router({})
    session.ask(put(detail_of(400, {"id": 'a"b'})) + DELIVER, 2)
    body = session.reply("RouterLocal.PeekMessages", {"QueueName": "q0000"})["Messages"][0]["Body"]
    session.end(Delivered=1)
    return detail_of(400 + EVENT - len(body.encode()), {"id": 'a"b'})


def least(sessions, pieces, piece):
    times = [[piece(session) for session in sessions] for _ in range(pieces)]
    return [min(column) for column in zip(*times)]


# ---- Times


def leaf(command, detail):
    if not os.path.exists(command):
        return
    word = [command, "templates", str(ROUNDS), "0"]
    took = min(int(subprocess.run(word, input=detail.encode(), capture_output=True, check=True).stderr) for _ in range(RUNS))
    rate = 1e6 * ROUNDS / took
    shown(f"a template filled from the tree of an event of {EVENT} bytes", f"{rate:,.0f} a second", "at least 500,000", rate >= 500_000)


def rates(detail):
    """PutEvents with its delivery, with a template and without an input."""
    sessions = [router(transformer(PATHS, TEMPLATE)), router({})]
    text = (put(detail) + DELIVER) * EVENTS
    filled, whole = least(sessions, PIECES, lambda session: session.timed(text, 2 * EVENTS) / EVENTS)
    for session in sessions:
        session.end(Delivered=PIECES * EVENTS)
    result = f"{whole / filled:.2f} ({1 / filled:,.0f} to {1 / whole:,.0f} a second)"
    shown(f"rate of PutEvents and a delivery, an event of {EVENT} bytes, with a template to without", result, "at least 0.8", whole >= 0.8 * filled)


def large_times(detail, *given):
    """The least time of a PutEvents with this Detail for a target with each of these inputs."""
    sessions = [router(it) for it in given]
    times = least(sessions, FEW_PIECES, lambda session: session.timed(put(detail), 1))
    for session in sessions:
        session.end(Pending=FEW_PIECES if session.reply("RouterLocal.DutyCounts", {})["Dropped"] == 0 else 0)
    return times


def uses(count):
    names = [LETTERS[it % len(LETTERS)] for it in range(count)]
    return transformer({letter: f"$.detail.{key_of(KEYS - 1 - at)}" for at, letter in enumerate(LETTERS)}, '"' + "".join(f"<{it}>" for it in names) + '"')


def key_of(number):
    return "".join(LETTERS[number // 62**at % 62] for at in range(3))


def many_uses():
    detail = json.dumps({key_of(it): 1 for it in range(KEYS)}, separators=(",", ":"))
    few, many, none = large_times(detail, uses(100), uses(2_700), {})
    result = f"{many / few:.2f} ({1e3 * many:.2f} ms to {1e3 * few:.2f} ms; {1e3 * none:.2f} ms without an input)"
    shown(f"time of a PutEvents, 2,700 uses of 64 names to 100, a Detail of {KEYS:,} keys", result, "at most 2", many <= 2 * few)


# ---- Large texts: time and memory beside a target without an input


def beside(library, folder, what, detail, given, most_time, most_memory):
    filled, whole = large_times(detail, given, {})
    peaks = []
    for it in (given, {}):
        counts = Counts(folder)
        session = router(it, library=library, counts=counts)
        session.ask(put(detail.replace("x", "y")), 1)  # what a large message takes is taken
        before = peak_of(session.ran.pid)
        session.ask(put(detail), 1)
        peaks.append((counts.now()[2], 1_024 * (peak_of(session.ran.pid) - before), 1_024 * peak_of(session.ran.pid)))
        session.timer.cancel()
        session.ran.kill()
    time, (live, more, peak), (_, _, least_peak) = filled - whole, *peaks
    result = f"{1e3 * time:.2f} ms more than {1e3 * whole:.2f} ms; peak {peak:,} bytes, {peak - least_peak:,} more; {more:,} for a second event"
    target = f"{1e3 * most_time:.0f} ms, {most_memory:,} bytes" if most_time else "reported"
    shown(what, result, target, not most_time or (time <= most_time and peak - least_peak <= most_memory))


def whole_event():
    name = "<aws.events.event.json>"
    count = (8_192 - 2 + 1) // (len(name) + 1)
    template = "[" + ",".join([name] * count) + "]"
    return transformer({}, template + " " * (8_192 - len(template)))


def texts(folder):
    library = os.path.join(folder, "allocations.so")
    subprocess.run(["gcc", "-O2", "-shared", "-fPIC", "-o", library, "bench/allocations.c"], check=True)
    detail = detail_of(WHOLE - len("shop.ordersOrder"), {})
    beside(library, folder, f"8,192 characters of `<aws.events.event.json>`, an entry of {WHOLE:,} bytes", detail, whole_event(), 0.020, 4_000_000)
    numbers = json.dumps({"l": [1] * NUMBERS}, separators=(",", ":"))
    beside(library, folder, f"one path, a Detail with a list of {NUMBERS:,} numbers", numbers, {"InputPath": f"$.detail.l[{NUMBERS - 1}]"}, 0, 0)
    print(f"an event of {LARGE:,} bytes to {RULES * TARGETS:,} targets without an input:", flush=True)
    large(library, folder)


def main():
    command = EBUSD if program() == PROGRAM else program()
    if subprocess.run([command, *WORDS], stdin=subprocess.DEVNULL).returncode:
        sys.exit(f"{command} {' '.join(WORDS)} does not end with status 0 on empty input")
    load = os.getloadavg()[0]
    print(f"{datetime.date.today()}, {os.cpu_count()} processors, load {load:.1f}, {platform.machine()}, {' '.join(sys.argv)}")
    detail = small_detail()
    table("measured", "result", "target", "met")
    leaf(sys.argv[2] if len(sys.argv) > 2 else LEAF_BENCH, detail)
    rates(detail)
    many_uses()
    with tempfile.TemporaryDirectory() as folder:
        texts(folder)


if __name__ == "__main__":
    main()
