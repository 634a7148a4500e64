#!/usr/bin/env python3
"""Times `ebusd serve` beside a C server with epoll, and prints two tables.

    bench/serve.py [PROGRAM [REQUESTS]]

Run at the top of the repository. PROGRAM is a built program; without it bin/ebusd builds the one that is measured. REQUESTS is the
number of requests of one piece, 60000 if left out. gcc builds bench/epoll_server.c, which answers each request with the same bytes
that ebusd answers to the first one, with one thread and with one for each processor; and bench/http_load.c, the client of both.

A request is a PutEvents with one entry, whose event has 800 bytes and goes to one queue by one rule. Deliveries are made in the
background meanwhile. A rate is the best of a few pieces, in which the servers take turns, and the times are those of that piece.
All of it shares the machine's processors, the client too. If there are more clients than W - 1, the others wait until one has
ended, which the longest time shows. Takes some minutes.
Outside the gate: nothing depends on a time.
"""
import datetime
import http.client
import json
import os
import platform
import random
import socket
import subprocess
import sys
import tempfile
import time

from once import EBUSD, PROGRAM, SETUP, message, row, table

REQUESTS = 60_000
PIECES = 3
EVENT_BYTES = 800
CLIENTS = [1, 4, 12]
WORKERS = [3, 8]
PAIRS = [(16, 8), (4, 3), (16, 3), (16, 15), (1, 1)]  # of workers and clients, for the second table
LIMIT = 300  # seconds that one piece may take
IDLE = 5  # seconds in which an idle process is watched
EVENTS, ROUNDS, FIRST = 100_000, 10, 8  # events of a round, all delivered and deleted at its end; the first rounds fill the heaps of the threads
PORTS = range(12_000, 32_000)  # outside the ports that the system gives to connections
LAST = 2**48 - 1


def entry(size):
    """An entry whose event has this number of bytes."""
    shown = {"version": "0", "id": "0" * 36, "detail-type": "Order", "source": "shop.orders", "account": "1" * 12}
    shown |= {"time": "2023-11-14T22:13:20Z", "region": "us-east-1", "resources": [], "detail": {"text": ""}}
    text = "x" * (size - len(json.dumps(shown, separators=(",", ":"))))
    return {"Source": "shop.orders", "DetailType": "Order", "Detail": json.dumps({"text": text}, separators=(",", ":"))}


def put(count):
    return message("AWSEvents.PutEvents", {"Entries": [entry(EVENT_BYTES)] * count})


def status_of(pid, name):
    """A line of the process's status, in kilobytes."""
    with open(f"/proc/{pid}/status", encoding="ascii") as lines:
        return next(int(line.split()[1]) for line in lines if line.startswith(name + ":"))


def spent(pid):
    """The processor seconds of a process so far."""
    return time.clock_gettime(~pid << 3 | 2)  # the clock of a process, as clock_getcpuclockid finds it


class Router:
    """A process of `ebusd serve` with one rule that sends to queue `q`."""

    def __init__(self, command, workers):
        self.port = free_port()
        words = self.words(command, workers)
        self.ran = subprocess.Popen(words, stdout=subprocess.PIPE)
        if self.ran.stdout.readline() != b"listening %d\n" % self.port:
            sys.exit(f"{' '.join(words)} ended with status {self.ran.wait()}")

    def words(self, command, workers):
        return [command, "serve", "--port", str(self.port), "--workers", str(workers)]

    def set_up(self):
        for action, members in SETUP:
            self.ask(action, members)
        return self

    def __enter__(self):
        return self

    def __exit__(self, *_):
        self.ran.terminate()
        self.ran.wait()

    def ask(self, action, members=None):
        connection = http.client.HTTPConnection("127.0.0.1", self.port, timeout=LIMIT)
        connection.request("POST", "/", json.dumps(members or {}), {"X-Amz-Target": action})
        reply = connection.getresponse()
        text = reply.read()
        connection.close()
        if reply.status != 200:
            sys.exit(f"{action} gets {reply.status} {text[:200]!r}")
        return json.loads(text)

    def settle(self):
        """Waits until all is delivered, and deletes it."""
        while (counts := self.ask("RouterLocal.DutyCounts"))["Pending"]:
            time.sleep(0.01)
        self.ask("RouterLocal.DeleteMessages", {"QueueName": "q", "Through": LAST})
        return counts


def free_port():
    for port in random.sample(PORTS, 200):
        with socket.socket() as it:
            try:
                it.bind(("127.0.0.1", port))
                return port
            except OSError:
                continue
    sys.exit("200 ports are taken")


class Baseline:
    """The C server."""

    def __init__(self, folder, threads, reply):
        file = os.path.join(folder, "reply")
        with open(file, "wb") as out:
            out.write(reply)
        words = [os.path.join(folder, "epoll_server"), str(threads), file]
        self.ran = subprocess.Popen(words, stdin=subprocess.PIPE, stdout=subprocess.PIPE)
        self.port = int(self.ran.stdout.readline())

    def __enter__(self):
        return self

    def __exit__(self, *_):
        self.ran.stdin.close()
        self.ran.wait()

    def settle(self):
        pass


def load(folder, port, clients, requests, text):
    """Requests a second, and the times in microseconds: the median, 99 of 100, and the longest."""
    file = os.path.join(folder, "request")
    with open(file, "wb") as out:
        out.write(text)
    count = max(1, requests // clients)
    words = [os.path.join(folder, "http_load"), str(port), str(clients), str(count), file]
    ran = subprocess.run(words, stdout=subprocess.PIPE, timeout=LIMIT)
    if ran.returncode:
        sys.exit(f"http_load ended with status {ran.returncode}")
    seconds, *times = map(float, ran.stdout.split())
    return clients * count / seconds, times


def best(folder, servers, clients, requests):
    """The best piece of each server. They take turns."""
    pieces = [[] for _ in servers]
    for _ in range(PIECES):
        for server, found in zip(servers, pieces):
            found.append(load(folder, server.port, clients, requests, put(1)))
            server.settle()
    return [max(found) for found in pieces]


def first_reply(router):
    """The bytes of the reply to a PutEvents."""
    with socket.create_connection(("127.0.0.1", router.port), timeout=LIMIT) as it:
        it.sendall(put(1).replace(b"\r\nHost", b"\r\nConnection: close\r\nHost", 1))
        came = b""
        while more := it.recv(65_536):
            came += more
    return came.replace(b"Connection: close\r\n", b"")


def rates(command, folder, requests, found):
    """The table of rates. Each row goes to `found` too, by server and clients."""
    processors = os.cpu_count()
    with Router(command, 2) as it:
        reply = first_reply(it.set_up())
    table("server", "clients", "requests a second", "median, us", "99 of 100, us", "longest, us")
    pairs = [(workers, clients) for clients in CLIENTS for workers in WORKERS] + PAIRS
    for clients in sorted({clients for _, clients in pairs}):
        all_workers = [workers for workers, others in pairs if others == clients]
        routers = [Router(command, it).set_up() for it in all_workers]
        baselines = [Baseline(folder, it, reply) for it in (1, processors)]
        names = [f"ebusd, W {it}" for it in all_workers] + [f"C, threads {it}" for it in (1, processors)]
        for name, (rate, times) in zip(names, best(folder, routers + baselines, clients, requests)):
            found[name, clients] = rate, times
            row(name, clients, f"{rate:,.0f}", *(f"{it:,.0f}" for it in times))
        for it in routers + baselines:
            it.__exit__()


def shown(what, result, target, met):
    row(what, result, target, "" if met is None else "yes" if met else "no")


def targets(command, folder, found, events):
    processors = os.cpu_count()
    table("measured", "result", "target", "met")
    rate, times = found["ebusd, W 16", 8]
    for threads in (1, processors):
        base = found[f"C, threads {threads}", 8][0]
        result = f"{rate / base:.2f} ({rate:,.0f} to {base:,.0f} a second)"
        shown(f"rate to that of the C server, threads {threads}; W 16, 8 clients", result, "at least 0.5", rate >= 0.5 * base)
    shown("99 of 100 replies, W 16, 8 clients", f"{times[1] / 1_000:.2f} ms", "at most 5 ms", times[1] <= 5_000)
    few, many = found["ebusd, W 4", 3][0], found["ebusd, W 16", 3][0]
    shown("3 clients at W 16 to W 4", f"{many / few:.2f}", "0.8 to 1.25", 0.8 <= many / few <= 1.25)
    most = found["ebusd, W 16", 15][0]
    shown("15 clients at W 16 to 3 at W 4", f"{most / few:.2f}", "at least 0.8", most >= 0.8 * few)
    shown("1 client at W 1", f"{found['ebusd, W 1', 1][0]:,.0f} a second", "reported", None)

    with Router(command, 8) as it:
        before = spent(it.ran.pid)
        time.sleep(IDLE)
        used, memory = (spent(it.ran.pid) - before) / IDLE, status_of(it.ran.pid, "VmRSS")
        result = f"{100 * used:.1f} % of a processor, {memory:,} KB"
        shown("idle, W 8", result, "1 %, 10,000 KB", used <= 0.01 and memory <= 10_000)
        it.set_up()
        resident, best_rate = [], 0.0
        for _ in range(FIRST + ROUNDS):
            began = time.monotonic()
            load(folder, it.port, 4, events // 10, put(10))
            it.settle()
            best_rate = max(best_rate, events / (time.monotonic() - began))
            resident.append(status_of(it.ran.pid, "VmRSS"))
        # In each round the events were put first, so this is less than the rate of the deliveries alone.
        shown("background deliveries to a queue, while events are put", f"{best_rate:,.0f} a second", "at least 10,000", best_rate >= 10_000)
        more = 1_024 * (resident[-1] - resident[FIRST - 1])
        what = f"bytes more after {ROUNDS * events:,} events delivered and deleted"
        shown(what, f"{more:,} of {1_024 * resident[FIRST - 1]:,}", "below 1 each", more < ROUNDS * events)
        shown("peak memory meanwhile", f"{status_of(it.ran.pid, 'VmHWM'):,} KB", "reported", None)


def main():
    command = sys.argv[1] if len(sys.argv) > 1 else PROGRAM
    requests = int(sys.argv[2]) if len(sys.argv) > 2 else REQUESTS
    if command == PROGRAM and subprocess.run([EBUSD, "once", "--now", "0"], stdin=subprocess.DEVNULL).returncode:
        sys.exit(f"{EBUSD} does not end with status 0 on empty input")
    load_now = os.getloadavg()[0]
    print(f"{datetime.date.today()}, {os.cpu_count()} processors, load {load_now:.1f}, {platform.machine()}, {' '.join(sys.argv)}")
    found = {}
    with tempfile.TemporaryDirectory() as folder:
        for name in ("epoll_server", "http_load"):
            subprocess.run(["gcc", "-O2", "-pthread", "-o", os.path.join(folder, name), f"bench/{name}.c"], check=True)
        rates(command, folder, requests, found)
        targets(command, folder, found, EVENTS * requests // REQUESTS)


if __name__ == "__main__":
    main()
