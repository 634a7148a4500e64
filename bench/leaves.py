#!/usr/bin/env python3
"""Times the calls of the leaf crates by the proved program leaf_bench, and prints tables.

    bench/leaves.py [wildcards] [ranges] [json] [events] [numbered] [patterns] [reading] [archives]

Run at the top of the repository, once `rt run` in crates/leaf_bench has built crates/leaf_bench/out/leaf_bench.
If c++ and Debian's rapidjson-dev are installed, RapidJSON's rates are shown beside ours. Outside the gate: nothing
depends on a time.
"""
import datetime
import json
import os
import platform
import random
import shutil
import subprocess
import sys
import tempfile

PROGRAM = "crates/leaf_bench/out/leaf_bench"
RUNS = 3

# Measurement, sizes of the pattern, lengths of the text: each doubled in turn, then the largest that the router allows.
WILDCARDS = [
    ("wild_runs", [4], [100_000, 200_000, 262_144]),
    ("wild_letters", [500, 1_000], [20_000, 40_000]),
    ("wild_letters", [4_094], [262_144]),
    ("wild_letters_run", [500, 1_000], [20_000, 40_000]),
    ("wild_letters_run", [4_093], [262_144]),
    ("like_runs", [4], [100_000, 200_000, 262_144]),
    ("like_letters", [500, 1_000], [20_000, 40_000]),
    ("like_letters", [10_238], [262_144]),
    ("like_letters_run", [500, 1_000], [20_000, 40_000]),
    ("like_letters_run", [10_237], [262_144]),
    ("like_characters_run", [500, 1_000], [20_000, 40_000]),
    ("like_characters_run", [10_237], [262_144]),
]

# Measurement, and for a number of ranges the numbers that are in none, in one and in all of them.
RANGES = [
    ("ranges_disjoint", lambda count: {"none": 7, "one": 3}),
    ("ranges_nested", lambda count: {"none": 2 * count + 1, "one": 0, "all": count}),
    ("ranges_one_sided", lambda count: {"none": 0, "one": 1, "all": count}),
    ("ranges_equal", lambda count: {"none": 4, "all": 7}),
]
RANGE_COUNTS = [10, 1_000, 100_000]
LOOKUPS = 1_000  # in one run of the program
ARCHIVED, DAYS = [1_000, 1_000_000], 10

# Measurement, and for each number of objects in the event's list how many calls one run makes.
PATTERNS = [
    ("holds_source", {0: 100_000}),
    ("holds_nested", {0: 20_000}),
    ("holds_list", {100: 2_000, 1_000: 200, 10_000: 20}),
    ("holds_or", {100: 2_000, 1_000: 200, 10_000: 20}),
    ("holds_absent", {100: 2_000, 1_000: 200, 10_000: 20}),
    ("holds_alternatives", {0: 200}),
]


def least(command, stdin):
    """A program's answer, and each of its times as the least of a few runs, in microseconds."""
    best = None
    for _ in range(RUNS):
        done = subprocess.run(command, input=stdin, capture_output=True, check=True)
        times = [int(word) for word in done.stderr.split()]
        best = times if best is None else [min(pair) for pair in zip(best, times)]
    return done.stdout.decode().strip(), best


def run(word, size, number, stdin=b""):
    return least([PROGRAM, word, str(size), str(number)], stdin)


def row(*cells):
    print("| " + " | ".join(str(cell) for cell in cells) + " |", flush=True)


def table(*heads):
    print()
    row(*heads)
    print("|" + "---|" * len(heads))


def wildcards():
    table("pattern", "letters", "text, bytes", "answer", "microseconds", "a byte of text and of pattern, ns")
    for word, sizes, lengths in WILDCARDS:
        for size in sizes:
            for length in lengths:
                answer, [micros] = run(word, size, length)
                row(word, size, length, answer, micros, f"{1000 * micros / (size * length):.2f}")


def ranges():
    table("ranges", "how many", "made, microseconds", "number lies in", "answer", "one lookup, ns")
    for word, numbers in RANGES:
        for count in RANGE_COUNTS:
            for place, number in numbers(count).items():
                answer, [made, found] = run(word, count, number)
                row(word, count, made, place, answer, f"{1000 * found / LOOKUPS:.0f}")


def order(number):
    """A publisher's event of about a kilobyte."""
    return {
        "version": "0",
        "id": f"{number:032x}",
        "detail-type": "Order Placed",
        "source": "shop.orders",
        "account": "123456789012",
        "time": "2026-11-26T12:00:00Z",
        "region": "eu-central-1",
        "resources": [],
        "detail": {
            "order": number,
            "paid": number % 2 == 0,
            "note": "caf\u00e9 \u201cau lait\u201d\n" * 8,
            "lines": [{"sku": f"sku-{i}", "count": i, "price": i * 19.95} for i in range(12)],
        },
    }


def texts():
    """Each with its name: an event, and megabytes of one kind."""
    choose = random.Random(7)
    names = [f"key-{choose.randrange(10**9):09d}" for _ in range(45_000)]
    compact = lambda value: json.dumps(value, ensure_ascii=False, separators=(",", ":")).encode()
    return {
        "an event": compact(order(12)),
        "a list of events": compact([order(i) for i in range(750)]),
        "an object of 45,000 keys": compact({name: i for i, name in enumerate(names)}),
        "an object of 45,000 keys in order": compact({name: i for i, name in enumerate(sorted(names))}),
        "an object of one key, 60,000 times": b"{" + b",".join([b'"the key":12345'] * 60_000) + b"}",
        "a list of numbers": compact([choose.uniform(-1e6, 1e6) for _ in range(50_000)]),
        "one string": compact("x" * 1_000_000),
        "one string of escapes": compact("\n" * 500_000),
    }


def jsons():
    table("JSON text", "bytes read", "written", "read, MB/s", "written, MB/s", "RapidJSON reads, MB/s", "writes, MB/s")
    with tempfile.TemporaryDirectory() as folder:
        other = built_rapidjson(folder)
        for name, text in texts().items():
            rounds = max(1, 8_000_000 // len(text))
            answer, ours = run("json", rounds, 0, text)
            bytes_a_round = [len(text), int(answer)]
            rates = lambda times: [f"{rounds * pair[0] / max(1, pair[1]):.0f}" for pair in zip(bytes_a_round, times)]
            theirs = rates(least([other, str(rounds)], text)[1]) if other else ["", ""]
            row(name, *bytes_a_round, *rates(ours), *theirs)


def events():
    table("event, bytes", "events from entry to text a second")
    for lines in [0, 13, 100]:
        detail = {"order": 12, "paid": True, "lines": [{"sku": f"sku-{i}", "count": i, "price": i * 19.95} for i in range(lines)]}
        rounds = 2_000
        length, [micros] = run("events", rounds, 0, json.dumps(detail).encode())
        row(length, round(1e6 * rounds / micros))


def numbered():
    table("text of an event, bytes", "decided, MB/s", "read, MB/s")
    for lines in [0, 13, 100]:
        detail = {"order": 12, "paid": True, "lines": [{"sku": f"sku-{i}", "count": i, "price": i * 19.95} for i in range(lines)]}
        rounds = 20_000
        answer, times = run("numbered", rounds, 0, json.dumps(detail).encode())
        length, is_one = answer.split()
        assert is_one == "true", answer
        row(length, *[f"{rounds * int(length) / max(1, micros):.0f}" for micros in times])


def patterns():
    table("pattern", "objects", "calls in which it holds", "one call, ns")
    for word, sizes in PATTERNS:
        for objects, rounds in sizes.items():
            answer, [micros] = run(word, rounds, objects)
            row(word, objects, f"{answer} of {rounds}", f"{1000 * micros / rounds:.1f}")


def pattern_texts():
    """Texts of patterns, each with its name."""
    compact = lambda value: json.dumps(value, separators=(",", ":"))
    fields = lambda count: compact({f"field-{i:03d}": [f"value-{i:03d}"] for i in range(count)})
    branches = {"$or": [{"a": [1]}, {"b": [2]}]}
    return {
        "4 fields": fields(4),
        "38 fields": fields(38),
        "157 fields": fields(157),
        "113 `$or`s": compact({f"{i:02x}": branches for i in range(113)}),
    }


def reading():
    table("text of a pattern", "bytes", "it is one", "read as a pattern, MB/s", "read as JSON, MB/s")
    for name, text in pattern_texts().items():
        rounds = max(1, 4_000_000 // len(text))
        answer, times = run("pattern", rounds, 0, text.encode())
        row(name, len(text), answer, *[f"{rounds * len(text) / max(1, micros):.0f}" for micros in times])


def archives():
    """An archive that keeps its events for a day. From the second day on each event that it keeps lets one expire."""
    table("events a day", *(f"day {day}, ns an event" for day in range(1, DAYS + 1)), "a purge of all, s, at most 0.5")
    for events in ARCHIVED:
        kept, [*days, purged] = run("archives", events, DAYS)
        assert int(kept) == events, kept
        row(f"{events:,}", *(round(1000 * it / events) for it in days), f"{purged / 1e6:.3f}")


def built_rapidjson(folder):
    """The program for RapidJSON, or nothing if it cannot be built here."""
    program = os.path.join(folder, "rapidjson")
    if not shutil.which("c++") or not os.path.exists("/usr/include/rapidjson"):
        return None
    subprocess.run(["c++", "-O2", "-o", program, "bench/rapidjson.cc"], check=True)
    return program


def main():
    if not os.path.exists(PROGRAM):
        sys.exit(f"{PROGRAM} is not built: run `rt run` in crates/leaf_bench")
    print(f"{datetime.date.today()}, {os.cpu_count()} processors, {platform.machine()}, {' '.join(sys.argv)}")
    tables = {"wildcards": wildcards, "ranges": ranges, "json": jsons, "events": events, "numbered": numbered, "patterns": patterns}
    tables |= {"reading": reading, "archives": archives}
    for name in sys.argv[1:] or tables:
        tables[name]()


if __name__ == "__main__":
    main()
