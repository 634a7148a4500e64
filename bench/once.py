#!/usr/bin/env python3
"""Times `ebusd once` on many requests by bin/ebusd, and prints tables.

    bench/once.py [COUNT ..]

Run at the top of the repository; COUNT is 1000, 10000 and 100000 if left out. The requests are written to the program's
input one after another, while its replies are read. Its peak memory is read from the system while its input is still open.
Outside the gate: nothing depends on a time.
"""
import datetime
import json
import os
import platform
import subprocess
import sys
import threading
import time

EBUSD = "bin/ebusd"
PROGRAM = "crates/ebusd/out/ebusd"
WORDS = ["once", "--now", "1700000000"]
COUNTS = [1_000, 10_000, 100_000]
STARTS = 20
A_CALL = 100  # duties that one DeliverDue delivers at most
LIMIT = 900  # seconds that one run may take

QUEUE = "arn:aws:sqs:us-east-1:111122223333:q"
SETUP = [
    ("RouterLocal.CreateQueue", {"QueueName": "q"}),
    ("AWSEvents.PutRule", {"Name": "r", "EventPattern": '{"source":["shop.orders"]}'}),
    ("AWSEvents.PutTargets", {"Rule": "r", "Targets": [{"Id": "t", "Arn": QUEUE}]}),
]


def message(action, value):
    body = json.dumps(value, separators=(",", ":"))
    head = f"POST / HTTP/1.1\r\nHost: 127.0.0.1\r\nX-Amz-Target: {action}\r\nContent-Length: {len(body)}\r\n\r\n"
    return (head + body).encode()


def put(source):
    entry = {"Source": source, "DetailType": "Order", "Detail": '{"total":12.50}'}
    return message("AWSEvents.PutEvents", {"Entries": [entry]})


def peak_of(pid):
    """The most memory that a process has had resident, in kilobytes."""
    with open(f"/proc/{pid}/status", encoding="ascii") as lines:
        return next(int(line.split()[1]) for line in lines if line.startswith("VmHWM:"))


def run(text, wanted, command=EBUSD):
    """The seconds of one run until the wanted number of replies has come, those of the whole, its peak memory, and its last reply."""
    start = time.perf_counter()
    ran = subprocess.Popen([command, *WORDS], stdin=subprocess.PIPE, stdout=subprocess.PIPE, bufsize=0)
    timer = threading.Timer(LIMIT, ran.kill)
    timer.start()

    def write():
        rest = memoryview(text)
        try:
            while rest:
                rest = rest[ran.stdin.write(rest[:65_536]) :]
        except BrokenPipeError:
            pass

    writer = threading.Thread(target=write)
    writer.start()
    came, well, last = 0, 0, b""
    while came < wanted:
        more = ran.stdout.read(65_536)
        if not more:
            break
        last += more
        # A head that lies across two pieces is counted with the second one.
        at = max(0, last.rfind(b"HTTP/1.1 "))
        came += last.count(b"HTTP/1.1 ", 0, at)
        well += last.count(b"HTTP/1.1 200", 0, at)
        last = last[at:]
        if came == wanted - 1 and is_whole(last):
            came, well = came + 1, well + last.startswith(b"HTTP/1.1 200")
    took = time.perf_counter() - start
    writer.join()
    peak = peak_of(ran.pid) if ran.poll() is None else 0
    ran.stdin.close()
    status = ran.wait()
    whole = time.perf_counter() - start
    timer.cancel()
    if (status, came, well) != (0, wanted, wanted):
        sys.exit(f"{command} ended with status {status}: {came} replies, {well} of them 200, and {wanted} are wanted")
    return took, whole, peak, last


def is_whole(reply):
    head, end, body = reply.partition(b"\r\n\r\n")
    length = head.partition(b"Content-Length: ")[2].partition(b"\r\n")[0]
    return bool(end) and len(body) == int(length)


def row(*cells):
    print("| " + " | ".join(str(cell) for cell in cells) + " |", flush=True)


def table(*heads):
    print()
    row(*heads)
    print("|" + "---|" * len(heads))


def starts():
    """The first run of examples/, from its start to its end."""
    with open("examples/first-run.http", "rb") as file:
        text = file.read()
    wanted = text.count(b"HTTP/1.1\r\n")
    table("first run by", "least, ms", "middle, ms", "peak memory, KB")
    for command in [EBUSD, PROGRAM]:
        runs = [run(text, wanted, command) for _ in range(STARTS)]
        times = sorted(whole for _, whole, _, _ in runs)
        peak = max(peak for _, _, peak, _ in runs)
        row(command, f"{1000 * times[0]:.1f}", f"{1000 * times[len(times) // 2]:.1f}", peak)


def floods(counts):
    table("events", "each", "requests", "seconds", "requests a second", "peak memory, KB")
    setup = b"".join(message(*it) for it in SETUP)
    deliver = message("RouterLocal.DeliverDue", {})
    for count in counts:
        calls = -(-count // A_CALL)
        kinds = {
            "matches nothing": (put("shop.other") * count, count),
            "makes a duty": (put("shop.orders") * count, count),
            "makes a duty, then delivered": (put("shop.orders") * count + deliver * (calls + 1), count + calls + 1),
        }
        for kind, (text, requests) in kinds.items():
            requests += len(SETUP)
            took, _, peak, last = run(setup + text, requests)
            if kind.endswith("delivered") and b'"Attempts":0' not in last:
                sys.exit(f"after {calls} calls of DeliverDue something is still due")
            row(f"{count:,}", kind, f"{requests:,}", f"{took:.3f}", round(requests / took), peak)


def main():
    counts = [int(word.replace("_", "")) for word in sys.argv[1:]] or COUNTS
    # What has to be built is built before anything is timed.
    if subprocess.run([EBUSD, *WORDS], stdin=subprocess.DEVNULL).returncode:
        sys.exit(f"{EBUSD} {' '.join(WORDS)} does not end with status 0 on empty input")
    print(f"{datetime.date.today()}, {os.cpu_count()} processors, {platform.machine()}, {' '.join(sys.argv)}")
    starts()
    floods(counts)


if __name__ == "__main__":
    main()
