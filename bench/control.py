#!/usr/bin/env python3
"""Times the calls that change the configuration, and PutEvents with policies, by `ebusd once`, and prints tables.

    bench/control.py [PROGRAM]

Run at the top of the repository. PROGRAM is an older program: then its PutEvents are timed too. Requests of a kind are
written one after another while their replies are read. A time is the least of five runs. With gcc, what the program
allocates is counted by bench/allocations.c in runs of their own. Outside the gate: nothing depends on a time.
"""
import datetime
import json
import mmap
import os
import platform
import struct
import subprocess
import sys
import tempfile
import threading
import time

from once import EBUSD, PROGRAM, WORDS, is_whole, row, table

RUNS = 5
BUSES, RULES, TARGETS, QUEUES = 100, 300, 5, 1_000  # the full set
CHANGES = 2_000  # requests of one run
EVENTS = 20_000
EDGE = 100  # the first and the last queues
STATEMENTS = 50
LIMIT = 600  # seconds that one session may take
QUEUE = "arn:aws:sqs:us-east-1:111122223333:q%04d"
STRANGER = "4444555566%02d"


def message(action, value, caller=None):
    body = json.dumps(value, separators=(",", ":"))
    field = f"x-caller-account: {caller}\r\n" if caller else ""
    head = f"POST / HTTP/1.1\r\nHost: 127.0.0.1\r\nX-Amz-Target: {action}\r\n{field}Content-Length: {len(body)}\r\n\r\n"
    return (head + body).encode()


class Counts:
    """What the program has allocated: the number of calls, all bytes, and the bytes of now."""

    def __init__(self, folder):
        self.path = os.path.join(folder, "counts")
        with open(self.path, "wb") as file:
            file.write(bytes(24))
        with open(self.path, "r+b") as file:
            self.shared = mmap.mmap(file.fileno(), 24)

    def now(self):
        time.sleep(0.05)  # the program has written its reply, and now waits for the next request
        return struct.unpack("QQQ", self.shared)


class Session:
    """One run of the program, which is asked piece by piece."""

    def __init__(self, program=PROGRAM, library=None, counts=None):
        env = {**os.environ, "LD_PRELOAD": library, "ALLOCATIONS": counts.path} if library else None
        self.ran = subprocess.Popen([program, *WORDS], stdin=subprocess.PIPE, stdout=subprocess.PIPE, bufsize=0, env=env)
        self.timer = threading.Timer(LIMIT, self.ran.kill)
        self.timer.start()
        self.ask(message("RouterLocal.DeliverDue", {}), 1)  # the program has started

    def ask(self, text, wanted, status=200):
        """The seconds until the wanted number of replies has come, each with that status."""
        start = time.perf_counter()
        writer = threading.Thread(target=self.write, args=(text,))
        writer.start()
        came, well, last = 0, 0, b""
        front = b"HTTP/1.1 %d" % status
        while came < wanted:
            more = self.ran.stdout.read(65_536)
            if not more:
                break
            last += more
            # A head that lies across two pieces is counted with the second one.
            at = max(0, last.rfind(b"HTTP/1.1 "))
            came += last.count(b"HTTP/1.1 ", 0, at)
            well += last.count(front, 0, at)
            last = last[at:]
            if came == wanted - 1 and is_whole(last):
                came, well = came + 1, well + last.startswith(front)
        took = time.perf_counter() - start
        writer.join()
        if (came, well) != (wanted, wanted):
            sys.exit(f"{came} replies came, {well} of them {status}, and {wanted} are wanted; the last begins {last[:200]!r}")
        return took

    def write(self, text):
        rest = memoryview(text)
        try:
            while rest:
                rest = rest[self.ran.stdin.write(rest[:65_536]) :]
        except BrokenPipeError:
            pass

    def end(self):
        self.ran.stdin.close()
        status = self.ran.wait()
        self.timer.cancel()
        if status:
            sys.exit(f"the program ended with status {status}")


# ---- The full set, and an almost empty one that has the same texts


def bus(number):
    return "default" if number == 0 else f"bus-{number:03}"


def pattern(number, rule):
    return '{"source":["shop.%03d.%03d"]}' % (number, rule)


def of_bus(number):
    return {"EventBusName": bus(number)}


def put_rule(number, rule):
    return message("AWSEvents.PutRule", {"Name": f"rule-{rule:03}", "EventPattern": pattern(number, rule), **of_bus(number)})


def a_target(number):
    return {"Id": f"target-{number}", "Arn": QUEUE % number}


def put_targets(number, rule, targets):
    return message("AWSEvents.PutTargets", {"Rule": f"rule-{rule:03}", "Targets": targets, **of_bus(number)})


def create_queues(first, last):
    return b"".join(message("RouterLocal.CreateQueue", {"QueueName": f"q{it:04}"}) for it in range(first, last))


def create_bus(number):
    return message("AWSEvents.CreateEventBus", {"Name": bus(number)})


HERE = (BUSES // 2, RULES // 2)  # the bus and the rule that are changed


def make_small(session):
    number, rule = HERE
    made = create_queues(0, 1) + create_bus(number) + put_rule(number, rule) + put_targets(number, rule, [a_target(0)])
    session.ask(made, 4)


def make_full(session, shown=lambda what, count, seconds: None):
    """Makes the full set, and shows each quarter's seconds."""
    session.ask(create_queues(0, QUEUES), QUEUES)
    session.ask(b"".join(create_bus(it) for it in range(1, BUSES)), BUSES - 1)
    quarters = [range(at * BUSES // 4, (at + 1) * BUSES // 4) for at in range(4)]
    for what, one in (("rules", put_rule), ("rules' targets", put_all_targets)):
        for buses in quarters:
            text = b"".join(one(number, rule) for number in buses for rule in range(RULES))
            count = len(buses) * RULES
            shown(what, count, session.ask(text, count))


def put_all_targets(number, rule):
    return put_targets(number, rule, [a_target(it) for it in range(TARGETS)])


CHANGED = {
    "PutRule": put_rule(*HERE),
    "DisableRule": message("AWSEvents.DisableRule", {"Name": f"rule-{HERE[1]:03}", **of_bus(HERE[0])}),
    "PutTargets": put_targets(*HERE, [a_target(0)]),
}


def elsewhere(text):
    """The same request on a bus that does not exist, which is refused before anything changes."""
    return text.replace(bus(HERE[0]).encode(), b"bus-xxx")


# ---- Measurements


def changes():
    """How long the changes take on both sets, and how long the full set takes to be made."""
    least = {}
    quarters = {}
    for name, make in (("almost empty", make_small), ("full", make_full)):
        session = Session()
        if make is make_full:
            make(session, lambda what, count, seconds: quarters.setdefault((what, count), []).append(seconds))
        else:
            make(session)
        for what, text in CHANGED.items():
            least[what, name] = min(session.ask(text * CHANGES, CHANGES) for _ in range(RUNS)) / CHANGES
        session.end()
    table("one more change of", "almost empty set, us", "full set, us", "ratio, at most 2")
    for what in CHANGED:
        small, full = least[what, "almost empty"], least[what, "full"]
        row(what, f"{1e6 * small:.1f}", f"{1e6 * full:.1f}", f"{full / small:.2f}")
    first, last = queues()
    row(f"CreateQueue, the first {EDGE} and the last of {QUEUES:,}", f"{1e6 * first:.1f}", f"{1e6 * last:.1f}", f"{last / first:.2f}")
    table("making the full set", "requests a quarter", *(f"quarter {it}, s" for it in range(1, 5)), "last to first")
    for (what, count), seconds in quarters.items():
        row(what, f"{count:,}", *(f"{it:.3f}" for it in seconds), f"{seconds[-1] / seconds[0]:.2f}")


def queues():
    first, last = [], []
    for _ in range(RUNS):
        session = Session()
        first.append(session.ask(create_queues(0, EDGE), EDGE))
        session.ask(create_queues(EDGE, QUEUES - EDGE), QUEUES - 2 * EDGE)
        last.append(session.ask(create_queues(QUEUES - EDGE, QUEUES), EDGE))
        session.end()
    return min(first) / EDGE, min(last) / EDGE


def allocations():
    """What the changes allocate, and what the full set occupies."""
    with tempfile.TemporaryDirectory() as folder:
        library = os.path.join(folder, "allocations.so")
        subprocess.run(["gcc", "-O2", "-shared", "-fPIC", "-o", library, "bench/allocations.c"], check=True)
        each, live = {}, {}
        for name, make in (("almost empty", make_small), ("full", make_full)):
            counts = Counts(folder)
            session = Session(library=library, counts=counts)
            if make is make_full:
                make(session, lambda what, count, _seconds: live.setdefault(what, []).append((count, counts.now()[2])))
            else:
                make(session)
            if counts.now()[0] == 0:
                print("\nwhat the program allocates was not counted: it does not use the C library's calls")
                return session.end()
            for what, text in CHANGED.items():
                each[what, name] = allocated(session, counts, text, 200) - allocated(session, counts, elsewhere(text), 400)
            session.end()
    table("one more change of", "almost empty set, bytes", "full set, bytes, at most 8,000 beside texts")
    for what in CHANGED:
        row(what, round(each[what, "almost empty"]), round(each[what, "full"]))
    print("\nBytes allocated by a change, less those of the same request on a bus that does not exist.")
    table("in the full set", "bytes that it occupies", "of them its texts", "at most, beside texts")
    number, rule = HERE
    texts = {"rules": len(f"rule-{rule:03}") + len(pattern(number, rule)), "rules' targets": TARGETS * sum(map(len, a_target(0).values()))}
    for what, one, most in (("rules", 1, 1_000), ("rules' targets", TARGETS, 300)):
        (_, before), *_, (_, after) = live[what]
        count = sum(count for count, _ in live[what][1:]) * one
        row("a rule" if one == 1 else "a target", f"{(after - before) / count:.0f}", f"{texts[what] / one:.0f}", most)
    return None


def allocated(session, counts, text, status):
    """The bytes that one of many equal requests allocates."""
    session.ask(text * 10, 10, status)
    before = counts.now()[1]
    session.ask(text * 1_000, 1_000, status)
    return (counts.now()[1] - before) / 1_000


def events(older):
    put = {"Entries": [{"Source": "shop.other", "DetailType": "Order", "Detail": '{"total":12.50}'}]}
    setup = create_queues(0, 1) + message("AWSEvents.PutRule", {"Name": "r", "EventPattern": '{"source":["shop.orders"]}'})
    setup += message("AWSEvents.PutTargets", {"Rule": "r", "Targets": [a_target(0)]})
    statement = '{"Sid":"%d","Effect":"Allow","Principal":{"AWS":"%s"},"Action":"events:PutEvents","Resource":"*"}'
    statements = ",".join(statement % (it, STRANGER % it) for it in range(STATEMENTS))
    policy = message("AWSEvents.PutPermission", {"Policy": '{"Statement":[%s]}' % statements})
    last = f"{STATEMENTS} statements, of which the last one allows"
    kinds = [("no policy", PROGRAM, setup, None), (last, PROGRAM, setup + policy, STRANGER % (STATEMENTS - 1))]
    if older:
        kinds.insert(0, (f"no policy, {older}", older, setup, None))
    table("PutEvents that match nothing", "requests a second", "of the first")
    rates = []
    for what, program, made, caller in kinds:
        text = message("AWSEvents.PutEvents", put, caller) * EVENTS
        seconds = []
        for _ in range(RUNS):
            session = Session(program)
            session.ask(made, made.count(b"HTTP/1.1"))
            seconds.append(session.ask(text, EVENTS))
            session.end()
        rates.append(EVENTS / min(seconds))
        row(what, round(rates[-1]), f"{rates[-1] / rates[0]:.2f}")


def main():
    # What has to be built is built before anything is timed.
    if subprocess.run([EBUSD, *WORDS], stdin=subprocess.DEVNULL).returncode:
        sys.exit(f"{EBUSD} {' '.join(WORDS)} does not end with status 0 on empty input")
    print(f"{datetime.date.today()}, {os.cpu_count()} processors, {platform.machine()}, {' '.join(sys.argv)}")
    changes()
    allocations()
    events(sys.argv[1] if len(sys.argv) > 1 else None)


if __name__ == "__main__":
    main()
