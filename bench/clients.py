#!/usr/bin/env python3
"""Measures `ebusd serve` with many clients that keep their connections.

    bench/clients.py PORT [CLIENTS [SECONDS]]        asks a running server: 1,000 clients, for 20 seconds, if left out
    bench/clients.py --table [PROGRAM [REFERENCE]]   starts programs by itself, and prints a table of all that is measured

Each client of the first form keeps its connection and asks once a second, all of them spread over the second. It prints the time from
a request to its reply, the median, 99 of 100 and the longest, how often a client had to connect again, and the server's threads: as
many as workers, if the system let all of them begin. The status is 1 if 99 of 100 took more than 10 ms, or a client had to connect
again. A server that starts has 20 seconds until it listens.

The table measures PROGRAM, or the built one. Rates to W 16 are to those of REFERENCE, a program of another commit, or of the same one;
the two are measured in turns. Run it at the top of the repository. gcc builds bench/http_load.c, whose clients ask as fast as they can.
Takes some four minutes. Outside the gate: nothing depends on a time.
"""
import datetime
import json
import os
import platform
import resource
import selectors
import socket
import subprocess
import sys
import tempfile
import time

import serve
from once import PROGRAM, message, row, table

HOST = "127.0.0.1"
CLIENTS, SECONDS = 1_000, 20
WARM = 2  # seconds at the beginning that do not count: all connect at once
P99 = 0.010
STARTS = 20  # seconds in which a server has to listen
LONGEST = 6.0  # seconds in which a new client has to get its reply beside slow ones
REQUESTS, PIECES = 100_000, 5
DUE = 1_000_000  # deliveries
RULES, TARGETS, ENTRIES = 100, 5, 10  # an event makes RULES * TARGETS deliveries
ASK = message("RouterLocal.DutyCounts", {})
SLOW = message("RouterLocal.CreateQueue", {"QueueName": "x" * 60, "Pad": "x" * 4_000})
FILES = 8_192


def more_files():
    soft, hard = resource.getrlimit(resource.RLIMIT_NOFILE)
    wanted = FILES if hard == resource.RLIM_INFINITY else min(FILES, hard)
    if soft != resource.RLIM_INFINITY and soft < wanted:
        resource.setrlimit(resource.RLIMIT_NOFILE, (wanted, hard))


def until_it_listens(port):
    end = time.monotonic() + STARTS
    while True:
        try:
            return socket.create_connection((HOST, port), timeout=60).close()
        except ConnectionRefusedError:
            if time.monotonic() > end:
                sys.exit(f"nobody listens at port {port} after {STARTS} s")
            time.sleep(0.1)


def listener_of(port):
    """The process that listens at the port; None if it is not this user's."""
    with open("/proc/net/tcp", encoding="ascii") as lines:
        rows = [line.split() for line in lines][1:]
    sockets = {f"socket:[{row[9]}]" for row in rows if row[3] == "0A" and int(row[1].rpartition(":")[2], 16) == port}
    for pid in filter(str.isdigit, os.listdir("/proc")):
        try:
            if any(os.readlink(f"/proc/{pid}/fd/{it}") in sockets for it in os.listdir(f"/proc/{pid}/fd")):
                return int(pid)
        except OSError:
            continue
    return None


def threads_at(port):
    pid = listener_of(port)
    return "unknown" if pid is None else f"{serve.status_of(pid, 'Threads'):,}"


# ---- Clients that ask once a second


def length_of(came):
    """The number of bytes of the whole reply; None if its head is not whole."""
    end = came.find(b"\r\n\r\n")
    if end < 0:
        return None
    for line in came[:end].split(b"\r\n"):
        if line[:15].lower() == b"content-length:":
            return end + 4 + int(line[15:])
    return end + 4


class Paced:
    """Clients that ask once a second each."""

    def __init__(self, port, count):
        self.port, self.count = port, count
        self.sockets, self.came, self.asked = [None] * count, [b""] * count, [None] * count
        self.selector = selectors.DefaultSelector()
        self.times, self.again, self.late = [], 0, 0

    def connect(self, one):
        it = socket.create_connection((HOST, self.port), timeout=60)
        it.setsockopt(socket.IPPROTO_TCP, socket.TCP_NODELAY, 1)
        self.selector.register(it, selectors.EVENT_READ, one)
        self.sockets[one] = it

    def ask(self, one):
        if self.asked[one] is not None:
            self.late += 1  # its reply has not come within a second
            return
        self.asked[one], self.came[one] = time.monotonic(), b""
        self.send(one)

    def send(self, one):
        if self.sockets[one] is None:
            self.connect(one)
        try:
            self.sockets[one].sendall(ASK)
        except OSError:
            self.lost(one)

    def lost(self, one):
        """The server closed the connection. The client asks again if it waits for a reply."""
        self.selector.unregister(self.sockets[one])
        self.sockets[one].close()
        self.sockets[one] = None
        self.again += 1
        if self.asked[one] is not None:
            self.came[one] = b""
            self.send(one)

    def hear(self, one):
        try:
            more = self.sockets[one].recv(65_536)
        except OSError:
            more = b""
        if not more:
            self.lost(one)
            return
        self.came[one] += more
        length = length_of(self.came[one])
        if length is not None and len(self.came[one]) >= length and self.asked[one] is not None:
            if not self.came[one].startswith(b"HTTP/1.1 200"):
                sys.exit(f"a client gets {self.came[one][:200]!r}")
            self.times.append((self.asked[one], time.monotonic() - self.asked[one]))
            self.asked[one] = None

    def run(self, seconds):
        for one in range(self.count):
            self.connect(one)
        began, turn = time.monotonic(), 0
        while (now := time.monotonic()) < began + WARM + seconds:
            while began + turn / self.count <= now:
                self.ask(turn % self.count)
                turn += 1
            for key, _ in self.selector.select(max(0.0, began + turn / self.count - time.monotonic())):
                self.hear(key.data)
        waiting = sum(it is not None for it in self.asked)
        for it in self.sockets:
            if it is not None:
                it.close()
        return sorted(took for asked, took in self.times if asked >= began + WARM), self.again, self.late + waiting


def paced(port, count, seconds):
    """The median, 99 of 100 and the longest time in seconds, how often a client connected again, and how many replies came late."""
    times, again, late = Paced(port, count).run(seconds)
    if not times:
        sys.exit("no reply came")
    return times[len(times) // 2], times[len(times) * 99 // 100], times[-1], again, late


# ---- Clients that send a byte a second


def slow(port, count):
    """Sends a byte a second over each of so many connections, which are made again when they end. Does not return."""
    selector, sockets = selectors.DefaultSelector(), {}
    resting = list(range(count))

    def begin(one):
        it = socket.socket()
        it.setblocking(False)
        try:
            it.connect((HOST, port))
        except BlockingIOError:
            pass
        sockets[one] = [it, 0, time.monotonic() + one % 100 / 100]
        selector.register(it, selectors.EVENT_READ, one)

    def end(one):
        it, _, _ = sockets.pop(one)
        selector.unregister(it)
        it.close()
        resting.append(one)

    while True:
        while resting:
            begin(resting.pop())
        now = time.monotonic()
        for one, (it, sent, at) in list(sockets.items()):
            if at > now:
                continue
            try:
                it.send(SLOW[sent : sent + 1])
                sockets[one][1], sockets[one][2] = sent + 1, at + 1
            except BlockingIOError:
                sockets[one][2] = at + 1
            except OSError:
                end(one)
        for key, _ in selector.select(0.05):
            if key.data in sockets:
                try:
                    if sockets[key.data][0].recv(4_096):
                        continue
                except BlockingIOError:
                    continue
                except OSError:
                    pass
                end(key.data)


def one_reply(port):
    """Whether a new connection gets a reply. It may be closed as its client sends."""
    try:
        with socket.create_connection((HOST, port), timeout=120) as it:
            it.sendall(ASK)
            came = b""
            while (length := length_of(came)) is None or len(came) < length:
                more = it.recv(65_536)
                if not more:
                    return False
                came += more
            return came.startswith(b"HTTP/1.1 200")
    except ConnectionError:
        return False


def beside_slow(port, count, seconds):
    """The longest time in which a new client got its reply beside slow ones, and how many got one. A client whose connection ends
    before its reply connects again, and its time goes on."""
    others = subprocess.Popen([sys.executable, "-B", __file__, "--slow", str(port), str(count)])
    longest, asked = 0.0, 0
    try:
        time.sleep(2)
        began = time.monotonic()
        while time.monotonic() < began + seconds:
            at = time.monotonic()
            while not (got := one_reply(port)) and time.monotonic() < began + 2 * seconds:
                time.sleep(0.01)
            longest, asked = max(longest, time.monotonic() - at), asked + got
            time.sleep(0.2)
    finally:
        others.kill()
        others.wait()
    return longest, asked


# ---- The table


class Idle:
    """Clients that keep their connections. They ask at the beginning, and again when `ask` is called, which has to be within the 20
    seconds of an idle connection."""

    def __init__(self, port, count):
        self.sockets = [socket.create_connection((HOST, port), timeout=60) for _ in range(count)]
        self.ask()

    def ask(self):
        """Each client has to get a reply: if the server has closed a connection, there is no measure."""
        try:
            for it in self.sockets:
                it.sendall(ASK)
            lost = sum(not it.recv(65_536) for it in self.sockets)
        except ConnectionError:
            lost = 1
        if lost:
            sys.exit("an idle client has lost its connection: what is measured is not beside all of them")

    def close(self):
        for it in self.sockets:
            it.close()


def rate(folder, router, clients, requests=REQUESTS, pieces=PIECES, idle=None):
    """The best rate of a few pieces, each beside the idle clients."""
    best = 0.0
    for _ in range(pieces):
        if idle:
            idle.ask()
        best = max(best, serve.load(folder, router.port, clients, requests, serve.put(1))[0])
        if idle:
            idle.ask()
        router.settle()
    return best


def beside_due(folder, command, workers):
    """The rate of 8 clients while deliveries to a queue are due, and how many of a million were pending at its begin and at its end."""
    with serve.Router(command, workers) as it:
        it.ask("RouterLocal.CreateQueue", {"QueueName": "q"})
        targets = [{"Id": f"t{number}", "Arn": "arn:aws:sqs:us-east-1:111122223333:q"} for number in range(TARGETS)]
        for number in range(RULES):
            it.ask("AWSEvents.PutRule", {"Name": f"r{number}", "EventPattern": json.dumps({"source": ["due"]})})
            it.ask("AWSEvents.PutTargets", {"Rule": f"r{number}", "Targets": targets})
        entries = [{"Source": "due", "DetailType": "Order", "Detail": "{}"}] * ENTRIES
        text = message("AWSEvents.PutEvents", {"Entries": entries})
        with socket.create_connection((HOST, it.port), timeout=60) as one:
            for _ in range(DUE // (RULES * TARGETS * ENTRIES)):
                one.sendall(text)
                came = b""
                while (length := length_of(came)) is None or len(came) < length:
                    came += one.recv(65_536)
        before = it.ask("RouterLocal.DutyCounts")["Pending"]
        found = serve.load(folder, it.port, 8, 20_000, serve.put(1))[0]
        return found, before, it.ask("RouterLocal.DutyCounts")["Pending"]


def shown(what, result, target="", met=None):
    row(what, result, target, "" if met is None else "yes" if met else "no")


def a_thousand(command):
    with serve.Router(command, 1_024) as it:
        time.sleep(1)  # until all workers have begun
        size = serve.status_of(it.ran.pid, "VmRSS") / 1_000
        shown("threads, W 1,024", f"{serve.status_of(it.ran.pid, 'Threads'):,}", "1,024")
        shown("memory, W 1,024, idle", f"{size:.1f} MB", "20 MB", size <= 20)
        began, used = time.monotonic(), serve.spent(it.ran.pid)
        median, most, longest, again, late = paced(it.port, CLIENTS, SECONDS)
        share = (serve.spent(it.ran.pid) - used) / (time.monotonic() - began)
        times = f"{1_000 * median:.2f}, {1_000 * most:.2f}, {1_000 * longest:.1f} ms"
        shown("W 1,024, 1,000 clients that ask once a second: median, 99 of 100, longest", times, "99 of 100: 10 ms", most <= P99)
        shown("the same: connected again; replies after more than a second", f"{again}; {late}", "0", not again and not late)
        shown("the same: share of a processor", f"{100 * share:.1f} %", "4 %", share <= 0.04)
        everybody = Idle(it.port, 1_023)
        size = serve.status_of(it.ran.pid, "VmRSS") / 1_000
        everybody.close()
        shown("memory, W 1,024, after each worker served", f"{size:.1f} MB", "150 MB", size <= 150)


def slow_ones(command, workers, count):
    with serve.Router(command, workers) as it:
        longest, asked = beside_slow(it.port, count, 20)
        result = f"{longest:.2f} s, {asked} asked"
        shown(f"{count:,} clients that send a byte a second, W {workers:,}: a new client's reply", result, f"{LONGEST:.0f} s", longest <= LONGEST)


def beside_idle(folder, command):
    with serve.Router(command, 1_024) as it:
        it.set_up()
        alone = rate(folder, it, 8)
        idle = Idle(it.port, 500)
        beside = rate(folder, it, 8, idle=idle)
        idle.close()
        result = f"{beside / alone:.2f} ({beside:,.0f} to {alone:,.0f} a second)"
        shown("W 1,024, 8 clients beside 500 idle ones to 8 alone", result, "0.95", beside >= 0.95 * alone)


def compared(what, found, base):
    shown(what, f"{found / base:.2f} ({found:,.0f} to {base:,.0f} a second)", "0.95", found >= 0.95 * base)


def to_sixteen(folder, command, reference):
    """Rates to that of W 16 of the reference, in turns."""
    ways = {"W 16": (reference, 16), "W 64": (command, 64), "W 16 again": (command, 16)}
    routers = {name: serve.Router(*way).set_up() for name, way in ways.items()}
    best = dict.fromkeys(routers, 0.0)
    for _ in range(PIECES):
        for name, it in routers.items():
            best[name] = max(best[name], rate(folder, it, 8, pieces=1))
    for it in routers.values():
        it.__exit__()
    compared("8 clients, W 64 to W 16", best["W 64"], best["W 16"])
    if command != reference:
        compared("8 clients, W 16 to W 16 of the reference", best["W 16 again"], best["W 16"])


def due_to_sixteen(folder, command, reference):
    """Medians of a few rounds, since a rate beside deliveries differs by a third from one to the next."""
    ways = {16: reference, 64: command, 1_024: command}
    rounds = {workers: [] for workers in ways}
    for _ in range(PIECES):
        for workers, of in ways.items():
            rounds[workers].append(beside_due(folder, of, workers))
    middle = {workers: sorted(found)[PIECES // 2] for workers, found in rounds.items()}
    for workers, (_, first, last) in middle.items():
        shown(f"deliveries due at the begin and at the end, W {workers:,}", f"{first:,}; {last:,}")
    for workers in (64, 1_024):
        compared(f"8 clients beside due deliveries to a queue, W {workers:,} to W 16", middle[workers][0], middle[16][0])


def whole_table(command=PROGRAM, reference=None):
    reference = reference or command
    print(f"{datetime.date.today()}, {os.cpu_count()} processors, load {os.getloadavg()[0]:.1f}, {platform.machine()}")
    table("measured", "result", "target", "met")
    with tempfile.TemporaryDirectory() as folder:
        subprocess.run(["gcc", "-O2", "-pthread", "-o", os.path.join(folder, "http_load"), "bench/http_load.c"], check=True)
        a_thousand(command)
        beside_idle(folder, command)
        due_to_sixteen(folder, command, reference)
        slow_ones(command, 64, 64)
        slow_ones(command, 1_024, 2_000)
        to_sixteen(folder, command, reference)
    print(f"load at the end {os.getloadavg()[0]:.1f}")


def main():
    more_files()
    words = sys.argv[1:]
    if words[:1] == ["--slow"]:
        slow(int(words[1]), int(words[2]))
    if words[:1] == ["--table"]:
        whole_table(*words[1:3])
        return 0
    if not words or not all(it.isdigit() for it in words):
        print(__doc__.strip())
        return 2
    count, seconds = (int(words[1]) if len(words) > 1 else CLIENTS), (int(words[2]) if len(words) > 2 else SECONDS)
    port = int(words[0])
    until_it_listens(port)
    median, most, longest, again, late = paced(port, count, seconds)
    print(f"{count:,} clients, {seconds} s: median {1_000 * median:.2f} ms, 99 of 100 {1_000 * most:.2f} ms, longest {1_000 * longest:.1f} ms")
    print(f"{again} connected again, {late} replies took more than a second or did not come")
    print(f"the server's threads: {threads_at(port)}")
    return 1 if most > P99 or again or late else 0


if __name__ == "__main__":
    sys.exit(main())
