#!/usr/bin/env python3
"""Times deliveries by `ebusd once`, counts their memory, and prints one table.

    bench/deliveries.py [PROGRAM]

Run at the top of the repository. PROGRAM is a built program; without it bin/ebusd builds the one that is measured. A time is
processor time, the least of many short pieces. The two sides of a ratio take turns, so that a busy machine slows down both.
Sends are also timed by the clock, because a send waits for its sink. gcc builds bench/sends.c, which is the sink and a C
client, and bench/allocations.c, which counts what the program allocates. Takes some five minutes and 700 MB, and twice as
long on a busy machine; a session that takes over ten minutes is ended.
Outside the gate: nothing depends on a time.
"""
import datetime
import fcntl
import functools
import json
import os
import platform
import resource
import socket
import subprocess
import sys
import tempfile
import time

from control import LIMIT, Counts, Session, a_target, create_queues, message
from once import EBUSD, PROGRAM, WORDS, is_whole, peak_of, row, table

FEW, MANY = 1_000, 1_000_000  # deliveries
TARGETS = 5  # of a rule
ENTRIES = 10  # of a PutEvents
BUDGET = 1_000  # attempts of one DeliverDue
PIECES = 100  # of a time
EVENTS = 1_000  # of a piece
SENDS, SEND_PIECES = 100_000, 20  # in all, and the pieces of them
PIPE = 2**20  # bytes of a pipe
SETTLED = 0.03  # seconds after which a piece is most likely done, so that reading its replies does not disturb it
RULES, LARGE = 300, 100_000  # rules that a large event matches, and its bytes
ROW = 320  # bytes that a pending delivery may take beside its text
DETAIL = '{"total":12.50}'
DELIVER = message("RouterLocal.DeliverDue", {"Budget": BUDGET})


def put(source, count, detail=DETAIL):
    return message("AWSEvents.PutEvents", {"Entries": [{"Source": source, "DetailType": "Order", "Detail": detail}] * count})


def queues(count):
    return [a_target(it) for it in range(count)]


def endpoints(ports):
    return [{"Id": f"target-{it}", "Arn": f"http://127.0.0.1:{port}/"} for it, port in enumerate(ports)]


class Router(Session):
    """A session whose rules have the names of their events' source."""

    def __init__(self, **words):
        super().__init__(program(), **words)
        for pipe in (self.ran.stdin, self.ran.stdout):
            fcntl.fcntl(pipe, fcntl.F_SETPIPE_SZ, PIPE)
        self.ask(create_queues(0, TARGETS), TARGETS)

    def reply(self, action, value):
        """The reply to one request."""
        self.write(message(action, value))
        came = b""
        while not is_whole(came):
            more = self.ran.stdout.read(65_536)
            if not more:
                sys.exit(f"the program ended before its reply to {action}")
            came += more
        return json.loads(came.partition(b"\r\n\r\n")[2])

    def rule(self, source, targets, name=None):
        self.reply("AWSEvents.PutRule", {"Name": name or source, "EventPattern": '{"source":["%s"]}' % source})
        if self.reply("AWSEvents.PutTargets", {"Rule": name or source, "Targets": targets})["FailedEntryCount"]:
            sys.exit(f"a target of rule {name or source} was refused")

    def make(self, source, deliveries, targets):
        """Makes deliveries of events that have a rule with so many targets."""
        count = deliveries // (ENTRIES * targets)
        self.ask(put(source, ENTRIES) * count, count)

    def deliver(self, count):
        self.ask(DELIVER * (count // BUDGET), count // BUDGET)

    def spent(self):
        """The processor seconds of the program so far."""
        return time.clock_gettime(~self.ran.pid << 3 | 2)  # the clock of a process, as clock_getcpuclockid finds it

    def timed(self, text, wanted):
        """The processor seconds of a piece. The pipes have room for its requests and replies, so the program never waits."""
        before = self.spent()
        self.write(text)
        time.sleep(SETTLED)
        self.ask(b"", wanted)
        return self.spent() - before

    def resident(self):
        """The bytes that the program has resident."""
        with open(f"/proc/{self.ran.pid}/status", encoding="ascii") as lines:
            return next(1_024 * int(line.split()[1]) for line in lines if line.startswith("VmRSS:"))

    def end(self, **wanted):
        """Ends the session, whose deliveries have to be those."""
        counts = self.reply("RouterLocal.DutyCounts", {})
        if any(counts[kind] != count for kind, count in wanted.items()):
            sys.exit(f"the deliveries are {counts}, and {wanted} are wanted")
        super().end()


def program():
    return sys.argv[1] if len(sys.argv) > 1 else PROGRAM


def shown(what, result, target, met):
    row(what, result, target, "yes" if met else "no")


# ---- Times


def least(sessions, piece):
    """The least time of a piece in each session. They take turns."""
    times = [[piece(session) for session in sessions] for _ in range(PIECES)]
    return [min(column) for column in zip(*times)]


def steps():
    sessions = [Router(), Router()]
    for session, pending in zip(sessions, (FEW, MANY)):
        session.rule("shop.orders", queues(TARGETS))
        session.make("shop.orders", pending - BUDGET // 2, TARGETS)

    def piece(session):
        session.make("shop.orders", BUDGET, TARGETS)
        return session.timed(DELIVER, 1) / BUDGET

    few, many = least(sessions, piece)
    for session, pending in zip(sessions, (FEW, MANY)):
        session.end(Delivered=PIECES * BUDGET, Pending=pending - BUDGET // 2)
    result = f"{many / few:.2f} ({1e6 * many:.2f} us to {1e6 * few:.2f} us)"
    shown(f"time of a step to a queue, {MANY:,} pending to {FEW:,}", result, "at most 4", many <= 4 * few)


def puts():
    sessions = [Router(), Router()]
    with socket.socket() as refusing:
        refusing.bind(("127.0.0.1", 0))  # it does not listen, so each connection is refused
        for session, waiting in zip(sessions, (0, MANY)):
            session.rule("shop.late", endpoints([refusing.getsockname()[1]] * TARGETS))
            session.rule("shop.orders", queues(1))
            session.make("shop.late", waiting, TARGETS)
            session.deliver(waiting)
    text = (put("shop.orders", 1) + DELIVER) * EVENTS
    none, many = least(sessions, lambda session: session.timed(text, 2 * EVENTS) / EVENTS)
    for session, waiting in zip(sessions, (0, MANY)):
        session.end(Delivered=PIECES * EVENTS, Pending=waiting)
    result = f"{none / many:.2f} ({1 / many:,.0f} to {1 / none:,.0f} a second)"
    shown(f"rate of PutEvents and a delivery, {MANY:,} waiting to none", result, "at least 0.7", none >= 0.7 * many)


# ---- Memory


def pending(library, folder, targets):
    """What a pending delivery occupies beside its event's text, which its event's deliveries share."""
    counts = Counts(folder)
    session = Router(library=library, counts=counts)
    session.rule("shop.orders", queues(targets))
    session.ask(put("shop.orders", 1), 1)
    session.ask(DELIVER, 1)
    text = len(session.reply("RouterLocal.PeekMessages", {"QueueName": "q0000"})["Messages"][0]["Body"].encode()) / targets
    live, resident = counts.now()[2], session.resident()
    session.make("shop.orders", MANY, targets)
    live, resident = (counts.now()[2] - live) / MANY - text, (session.resident() - resident) / MANY - text
    session.end(Pending=MANY)
    what = f"bytes of a pending delivery, an event with {targets}, beside {text:.0f} of text"
    shown(what, f"{live:.0f} allocated, {resident:.0f} resident", f"at most {ROW}", live <= ROW)


def flat(library, folder):
    """How memory grows over deliveries that are made, delivered and deleted."""
    counts = Counts(folder)
    session = Router(library=library, counts=counts)
    session.rule("shop.orders", queues(TARGETS))
    made = BUDGET // (ENTRIES * TARGETS)
    text = put("shop.orders", ENTRIES) * made + DELIVER
    text += b"".join(message("RouterLocal.DeleteMessages", {"QueueName": f"q{it:04}", "Through": 2**48 - 1}) for it in range(TARGETS))
    requests = made + 1 + TARGETS
    session.ask(text * (MANY // BUDGET // 10), requests * (MANY // BUDGET // 10))
    live, resident = counts.now()[2], session.resident()
    session.ask(text * (MANY // BUDGET), requests * (MANY // BUDGET))
    live, resident = counts.now()[2] - live, session.resident() - resident
    session.end(Pending=0, Delivered=MANY + MANY // 10)
    result = f"{live:,} allocated, {resident:,} resident"
    shown(f"bytes more after {MANY:,} delivered and deleted", result, "below 1 each", max(live, resident) < MANY)


def large(library, folder):
    """What a large event with many targets occupies."""
    counts = Counts(folder)
    session = Router(library=library, counts=counts)
    for number in range(RULES):
        session.rule("shop.orders", queues(TARGETS), f"rule-{number:03}")
    detail = json.dumps({"text": "x" * (LARGE - len('{"text": ""}'))})
    session.ask(put("shop.other", 1, detail), 1)  # matches nothing: what a large message takes is taken
    live, peak = counts.now()[2], peak_of(session.ran.pid)
    session.ask(put("shop.orders", 1, detail), 1)
    live, peak = counts.now()[2] - live, 1_024 * (peak_of(session.ran.pid) - peak)
    session.end(Pending=RULES * TARGETS)
    most = 1_000_000 + RULES * TARGETS * ROW
    what = f"bytes of an event of {LARGE:,} bytes with {RULES * TARGETS:,} targets"
    shown(what, f"{live:,} allocated, {peak:,} more at the peak", f"at most {most:,}", max(live, peak) <= most)


def memory(folder):
    library = os.path.join(folder, "allocations.so")
    subprocess.run(["gcc", "-O2", "-shared", "-fPIC", "-o", library, "bench/allocations.c"], check=True)
    for targets in (TARGETS, 1):
        pending(library, folder, targets)
    flat(library, folder)
    large(library, folder)


# ---- Sends


class Sink:
    """The C sink, at ports that were free."""

    def __init__(self, command):
        self.ran = subprocess.Popen([command, "sink", str(TARGETS)], stdin=subprocess.PIPE, stdout=subprocess.PIPE, text=True)
        self.ports = self.ran.stdout.readline().split()

    def end(self, wanted):
        answered = int(self.ran.communicate(timeout=LIMIT)[0])
        if answered != wanted:
            sys.exit(f"the sink answered {answered} sends, and {wanted} are wanted")


def request():
    """The bytes of one send of the program."""
    session = Router()
    with socket.create_server(("127.0.0.1", 0)) as server:
        server.settimeout(LIMIT)
        session.rule("shop.orders", endpoints([server.getsockname()[1]]))
        session.ask(put("shop.orders", 1), 1)
        session.write(DELIVER)
        connection = server.accept()[0]
        with connection, connection.makefile("rb") as file:
            came = b""
            while not is_whole(came):
                more = file.read1()
                if not more:
                    sys.exit(f"the program sent only {came!r}")
                came += more
            connection.sendall(b"HTTP/1.1 200 OK\r\n\r\n")
    session.ask(b"", 1)
    session.end(Delivered=1)
    return came


def sent_by_program(count, ports):
    """The processor seconds, and the seconds, of so many sends."""
    session = Router()
    session.rule("shop.orders", endpoints(ports))
    session.make("shop.orders", count, TARGETS)
    before = session.spent()
    seconds = session.ask(DELIVER * (count // BUDGET), count // BUDGET)
    spent = session.spent() - before
    session.end(Delivered=count, Pending=0)
    return spent, seconds


def sent_by_client(command, file, count, ports):
    before, start = resource.getrusage(resource.RUSAGE_CHILDREN), time.perf_counter()
    subprocess.run([command, "client", str(count), file, *ports], check=True, timeout=LIMIT)
    seconds, after = time.perf_counter() - start, resource.getrusage(resource.RUSAGE_CHILDREN)
    return after.ru_utime + after.ru_stime - before.ru_utime - before.ru_stime, seconds


def sends(folder):
    command, file = os.path.join(folder, "sends"), os.path.join(folder, "request")
    subprocess.run(["gcc", "-O2", "-pthread", "-o", command, "bench/sends.c"], check=True)
    with open(file, "wb") as out:
        out.write(request())
    count = SENDS // SEND_PIECES
    ways = [sent_by_program, functools.partial(sent_by_client, command, file)]
    pieces = ([], [])
    for _ in range(SEND_PIECES):
        for way, times in zip(ways, pieces):
            sink = Sink(command)  # at new ports, whose connections of before do not matter
            times.append(way(count, sink.ports))
            sink.end(count)
    for at, name in enumerate(("processor time", "clock")):
        own, client = (count / min(times[at] for times in way) for way in pieces)
        result = f"{own / client:.2f} ({own:,.0f} to {client:,.0f} a second)"
        shown(f"rate of {SENDS:,} sends to that of a C client, by {name}", result, "at least 0.8", own >= 0.8 * client)


def main():
    # What has to be built is built before anything is timed.
    command = EBUSD if program() == PROGRAM else program()
    if subprocess.run([command, *WORDS], stdin=subprocess.DEVNULL).returncode:
        sys.exit(f"{command} {' '.join(WORDS)} does not end with status 0 on empty input")
    load = os.getloadavg()[0]
    print(f"{datetime.date.today()}, {os.cpu_count()} processors, load {load:.1f}, {platform.machine()}, {' '.join(sys.argv)}")
    table("measured", "result", "target", "met")
    steps()
    puts()
    with tempfile.TemporaryDirectory() as folder:
        memory(folder)
        sends(folder)


if __name__ == "__main__":
    main()
