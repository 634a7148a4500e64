#!/usr/bin/env python3
"""Times PutEvents by the number of rules on the bus, by `ebusd once`, and prints a table.

    bench/rules.py [PROGRAM]

Run at the top of the repository. PROGRAM is a built program; without it bin/ebusd builds the one that is measured. A request is a PutEvents
with one entry, whose event has 800 bytes. No rule matches it: the rules of the first kind ask for another source, and those of the second kind for
its source and another value of a field of its detail. A time is the least of a few pieces: the program's processor time, which a busy machine
changes little, and the time by the clock. After the table come the lines of it for bench/rates.tsv. Takes some ten seconds.
Outside the gate: nothing depends on a time.
"""
import datetime
import json
import os
import platform
import subprocess
import sys

from control import Session, message
from once import EBUSD, PROGRAM, row, table
from serve import EVENT_BYTES, entry, spent

COUNTS = [0, 1, 10, 100, 300]
PIECES = 5
REQUESTS = 10_000  # of a piece
KINDS = {
    "another source": lambda rule: {"source": [f"shop.{rule}"]},
    "another detail": lambda rule: {"source": ["shop.orders"], "detail": {"text": [f"order-{rule}"]}},
}


def put_rule(rule, pattern):
    return message("AWSEvents.PutRule", {"Name": f"rule-{rule}", "EventPattern": json.dumps(pattern)})


def times(program, count, pattern_of):
    """The processor seconds and the seconds of one piece, with that number of rules."""
    session = Session(program)
    if count:
        session.ask(b"".join(put_rule(it, pattern_of(it)) for it in range(count)), count)
    text = message("AWSEvents.PutEvents", {"Entries": [entry(EVENT_BYTES)]}) * REQUESTS
    used, took = [], []
    for _ in range(PIECES):
        before = spent(session.ran.pid)
        took.append(session.ask(text, REQUESTS))
        used.append(spent(session.ran.pid) - before)
    session.end()
    return min(used), min(took)


def main():
    program = sys.argv[1] if len(sys.argv) > 1 else PROGRAM
    if program == PROGRAM and subprocess.run([EBUSD, "once", "--now", "0"], stdin=subprocess.DEVNULL).returncode:
        sys.exit(f"{EBUSD} does not end with status 0 on empty input")
    print(f"{datetime.date.today()}, {os.cpu_count()} processors, load {os.getloadavg()[0]:.1f}, {platform.machine()}, {' '.join(sys.argv)}")
    table("rules", "that ask for", "us of processor time a request", "requests for a processor second", "requests a second by the clock")
    lines = []
    commit = subprocess.run(["git", "rev-parse", "--short", "HEAD"], capture_output=True, text=True).stdout.strip()
    for kind, pattern_of in KINDS.items():
        for count in COUNTS:
            used, took = times(program, count, pattern_of)
            row(count, kind, f"{1e6 * used / REQUESTS:.2f}", f"{REQUESTS / used:,.0f}", f"{REQUESTS / took:,.0f}")
            rate = round(REQUESTS / used)
            lines.append(("rate-by-rules", kind, count, rate, rate, commit, datetime.date.today()))
    print()
    for line in lines:
        print(*line, sep="\t")


if __name__ == "__main__":
    main()
