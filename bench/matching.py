#!/usr/bin/env python3
"""Times PutEvents by the number of rules on the bus, by `ebusd once`, and one match by kind of test, and prints tables.

    bench/matching.py [PROGRAM]

Run at the top of the repository. PROGRAM is a built program; without it bin/ebusd builds the one that is measured. A request is a PutEvents
of one entry whose event has 930 bytes, with a list of 12 objects. With 1, 11 or 300 rules one rule matches it. All rules ask for its source, and
the others for another value of one field. A rate is the best of a few pieces, by the program's processor time, which a busy machine
changes little, and by the clock. With valgrind, instructions are those of one more request. If `rt run` in crates/leaf_bench has built leaf_bench,
a second table has the time of one match of an event that is read already, by kind and number of rules. Takes some ten seconds.
Outside the gate: nothing depends on a time.
"""
import datetime
import json
import os
import platform
import re
import shutil
import subprocess
import sys
import tempfile

from control import Session, message
from once import EBUSD, PROGRAM, row, table
from serve import spent

COUNTS = [0, 1, 11, 300]
PIECES = 5
REQUESTS = 10_000  # of a piece
COUNTED = 200  # requests whose instructions are counted, and as many again
EVENT_BYTES = 930
BENCH = "crates/leaf_bench/out/leaf_bench"
KINDS = {
    "match_exact": [1, 300, 30_000],
    "match_prefix": [300],
    "match_suffix": [300],
    "match_case": [300],
    "match_wildcard": [300],
    "match_numeric": [300],
    "match_cidr": [300],
    "match_but": [300],
    "match_inner": [300],
    "match_list": [300],
    "match_or": [300],
    "match_absent": [300],
}
MATCHES = 10_000


def an_entry():
    """An entry whose event has EVENT_BYTES bytes."""
    lines = [{"sku": f"sku-{it}", "count": it, "price": 1.5} for it in range(12)]
    shown = {"version": "0", "id": "0" * 36, "detail-type": "Order", "source": "shop.orders", "account": "1" * 12}
    shown |= {"time": "2023-11-14T22:13:20Z", "region": "us-east-1", "resources": [], "detail": {"order": 12, "lines": lines, "note": ""}}
    note = "x" * (EVENT_BYTES - len(json.dumps(shown, separators=(",", ":"))))
    detail = {**shown["detail"], "note": note}
    return {"Source": "shop.orders", "DetailType": "Order", "Detail": json.dumps(detail, separators=(",", ":"))}


def rules(count):
    """Requests for that number of rules, of which the first matches."""
    text = b""
    for rule in range(count):
        pattern = {"source": ["shop.orders"], "detail": {"order": [12 + rule]}}
        text += message("AWSEvents.PutRule", {"Name": f"rule-{rule}", "EventPattern": json.dumps(pattern)})
    return text


PUT = message("AWSEvents.PutEvents", {"Entries": [an_entry()]})


def rates(program, count):
    """Events for a processor second and a second by the clock, with that number of rules."""
    session = Session(program)
    if count:
        session.ask(rules(count), count)
    used, took = [], []
    for _ in range(PIECES):
        before = spent(session.ran.pid)
        took.append(session.ask(PUT * REQUESTS, REQUESTS))
        used.append(spent(session.ran.pid) - before)
    session.end()
    return REQUESTS / min(used), REQUESTS / min(took)


def all_instructions(program, count, requests):
    with tempfile.TemporaryDirectory() as folder:
        words = ["valgrind", "--tool=callgrind", f"--callgrind-out-file={folder}/out", program, "once", "--now", "1700000000"]
        ran = subprocess.run(words, input=rules(count) + PUT * requests, capture_output=True, check=True)
    return int(re.search(rb"Collected : (\d+)", ran.stderr)[1])


def instructions(program, count):
    """The instructions of one more request."""
    return (all_instructions(program, count, 2 * COUNTED) - all_instructions(program, count, COUNTED)) // COUNTED


def matches():
    table("rules of a kind", "number", "that hold", "us a match", "us to remove and enter a rule")
    for kind, counts in KINDS.items():
        for count in counts:
            best = None
            for _ in range(PIECES):
                ran = subprocess.run([BENCH, kind, str(count), str(MATCHES)], capture_output=True, text=True, check=True)
                built, changed, matched = map(int, ran.stderr.split())
                best = min(best or (matched, changed), (matched, changed))
            row(kind, count, ran.stdout.strip(), f"{best[0] / MATCHES:.2f}", best[1])


def main():
    program = sys.argv[1] if len(sys.argv) > 1 else PROGRAM
    if program == PROGRAM and subprocess.run([EBUSD, "once", "--now", "0"], stdin=subprocess.DEVNULL).returncode:
        sys.exit(f"{EBUSD} does not end with status 0 on empty input")
    print(f"{datetime.date.today()}, {os.cpu_count()} processors, load {os.getloadavg()[0]:.1f}, {platform.machine()}, {' '.join(sys.argv)}")
    table("rules", "events for a processor second", "events a second by the clock", "of the rate with one rule", "instructions")
    found = {count: rates(program, count) for count in COUNTS}
    counts = shutil.which("valgrind") is not None
    for count, (rate, by_clock) in found.items():
        row(count, f"{rate:,.0f}", f"{by_clock:,.0f}", f"{rate / found[1][0]:.2f}", f"{instructions(program, count):,}" if counts else "")
    if os.access(BENCH, os.X_OK):
        matches()


if __name__ == "__main__":
    main()
