#!/usr/bin/env python3
"""Serves clients over TCP by `ebusd serve`, and compares what they get, how long it takes, and how processes end, with what is
written here.

Each case has processes and ports of its own. The cases are made side by side and take about 65 seconds, almost all of them asleep:
a client that sends a byte a second has 60. A reply that has to come at once has a second on a busy machine, and the end of a
connection may be late by 1.5 s. boto3 is Debian's python3-boto3, which is installed if it is not there. If it cannot be, the check
says so, and the cases are made without it.

A word names another program to run. `--crowd PORT` are the clients of `a_full_door`, in a process of their own. SERVE_CASES in the environment chooses cases by their names; serve.sh makes all. The last line is
`N passed, M failed`.
"""
import http.server
import itertools
import json
import os
import queue
import random
import re
import resource
import signal
import socket
import struct
import subprocess
import sys
import threading
import time
from concurrent.futures import ThreadPoolExecutor

import inputs
import limits
from endpoint_texts import ENDPOINTS
from mixed import SEED, Failure, compare, message as mixed_message
from mixed_requests import a_request, conditions, request_of, uses_of_queues
from patterns import Fault, Number
from router import NO_OBJECT, QUEUE_ARN, Router
from serving import COMMAND, HOST, Client, Closed, Served, event_id, free_port, message, put_events, put_rule, run
from sessions import command_of, expect, side_by_side

AT_ONCE = 1.0  # seconds in which a reply has to come that waits for nothing
LATE = 1.5  # seconds by which the end of a connection may be late: 0.3 by Linux's timers, more on a machine that is busy with other work
IDLE, UNFINISHED, SHORT = 20.0, 60.0, 0.25  # seconds after which a connection ends
LONG = 5.0  # seconds that a message may take while another client waits
SEND = 5.0  # seconds of a send to an endpoint
UNREAD = 20.0  # seconds that a client has to read a reply
PATIENCE = 20  # seconds for what should come soon
FILES = 2 * 1_024 + 40  # open files that 1,024 workers may need
EXAMPLES = "examples/serve/"
BOTO3 = []  # the Python that has it


def together(functions):
    """Makes the calls at the same time. Returns what they return, or raises the first failure."""
    with ThreadPoolExecutor(len(functions)) as pool:
        return [it.result() for it in [pool.submit(it) for it in functions]]


def expect_between(what, seconds, least, most):
    if not least <= seconds <= most:
        raise Failure(f"{what} after {seconds:.2f} s, and {least:.2f} to {most:.2f} s are wanted")


def timed(call):
    began = time.monotonic()
    result = call()
    return result, time.monotonic() - began


def expect_sum(counts):
    """Created is the sum of the other four counts."""
    expect("Created of a DutyCounts", counts["Created"], sum(counts.values()) - counts["Created"])


def expect_ids(what, got, wanted):
    """Asks that these ids came, each once."""
    if sorted(got) != sorted(wanted):
        missing, more = sorted(set(wanted) - set(got)), sorted(set(got) - set(wanted))
        lacking = f"of {len(wanted)} ids {len(missing)} are missing {missing[:3]}"
        raise Failure(f"{what}: {lacking}, {len(got) - len(set(got))} came again, and {len(more)} are unknown {more[:3]}")


def until_delivered(client, created):
    end = time.monotonic() + PATIENCE
    while (counts := client.ask("DutyCounts"))["Pending"] and time.monotonic() < end:
        time.sleep(0.05)
    expect("DutyCounts", counts, {"Created": created, "Pending": 0, "Delivered": created, "DeadLettered": 0, "Dropped": 0})


# ---- Many clients


def twelve_clients():
    """Two are served at once. Each keeps its connection until all twelve were served."""
    served = threading.Barrier(12, timeout=PATIENCE)

    def one():
        with it.client(again=True, within=PATIENCE) as client:
            for _ in range(20):
                expect("DutyCounts", client.ask("DutyCounts")["Created"], 0)
            try:
                served.wait()
            except threading.BrokenBarrierError:
                raise Failure(f"not all of the twelve clients were served within {PATIENCE} s") from None

    with Served(3) as it:
        together([one] * 12)


def eight_clients():
    """All eight are served at once, and each puts its rule again and again, puts events, and looks."""
    rounds = 30
    started = threading.Barrier(8, timeout=PATIENCE)

    def one(number):
        ids, queue_name, source = [], f"q-{number}", f"shop.{number}"
        chance = random.Random(number)
        with it.client(again=True) as client:
            client.ask("CreateQueue", {"QueueName": queue_name})
            put_rule(client, f"r-{number}", source, QUEUE_ARN + queue_name)
            started.wait()
            for _ in range(rounds):
                pattern = json.dumps({"source": [source, f"none.{chance.random()}"]})
                client.ask("PutRule", {"Name": f"r-{number}", "EventPattern": pattern})
                ids += put_events(client, source, chance.randint(1, 10))
                rows = client.ask("PeekMessages", {"QueueName": queue_name, "Limit": 1_000})["Messages"]
                expect(f"the last number in {queue_name}", [row["Number"] for row in rows][-1:], [len(rows)] if rows else [])
                strangers = {json.loads(row["Body"])["id"] for row in rows} - set(ids)
                expect(f"the number of events of others in {queue_name}", len(strangers), 0)
                expect_sum(client.ask("DutyCounts"))
        return ids

    with Served(9) as it:
        ids = together([lambda number=number: one(number) for number in range(8)])
        all_ids = sum(ids, [])
        expect_ids("all replies", all_ids, [event_id(number) for number in range(1, len(all_ids) + 1)])
        with it.client() as client:
            until_delivered(client, len(all_ids))
            for number in range(8):
                rows = client.ask("PeekMessages", {"QueueName": f"q-{number}", "Limit": 1_000})["Messages"]
                expect_ids(f"queue q-{number}", [json.loads(row["Body"])["id"] for row in rows], ids[number])


def ids_after_the_last_known():
    """Eight clients share the last id that any of them got. The next id of each is above the one that was known before it asked."""
    rounds = 200
    lock, known = threading.Lock(), [event_id(0)]

    def one():
        with it.client(again=True) as client:
            for _ in range(rounds):
                with lock:
                    before = known[0]
                [got] = put_events(client, "shop.a", 1)
                if got <= before:
                    raise Failure(f"the id {got}, asked for when {before} was known")
                with lock:
                    known[0] = max(known[0], got)

    with Served(9) as it:
        together([one] * 8)
        expect("the last id", known[0], event_id(8 * rounds))


def fifteen_clients():
    """Sixteen workers serve fifteen at once: nobody waits, and no idle client is closed."""
    with Served(16, connections=1_000_000) as it:
        clients = [it.client() for _ in range(15)]
        for client in clients:
            client.ask("DutyCounts")
        time.sleep(1)
        expect("the clients that are served", [client.is_quiet() for client in clients], [True] * 15)
        for client in clients:
            client.close()


def any_number_of_workers():
    """Each of many clients puts a rule of its own name and events. Each gets the reply to its own request, and each id comes once. If
    nobody waits, no thread is left: the process ends once all connections have ended."""
    for workers, clients in ((1, 8), (2, 8), (16, 15), (16, 40), (64, 63), (1_024, 200)):
        waits = clients >= workers
        with Served(workers, connections=None if waits else clients) as it:

            def one(number):
                ids = []
                with it.client(within=PATIENCE, again=waits) as client:
                    name = f"r-{number}"
                    arn = client.ask("PutRule", {"Name": name, "EventPattern": '{"source":["none"]}'})["RuleArn"]
                    expect("the name in the reply to a PutRule", arn.rpartition("/")[2], name)
                    for count in range(1, 6):
                        ids += put_events(client, f"shop.{number}", count)
                return ids

            ids = sum(together([lambda number=number: one(number) for number in range(clients)]), [])
            expect_ids(f"with {workers} workers all replies", ids, [event_id(number) for number in range(1, 15 * clients + 1)])
            if not waits:
                output, status = it.over()
                expect("the status, and the events", (status, output.splitlines()[1].split()[:2]), (0, [b"events", b"%d" % (15 * clients)]))


def a_full_door():
    """1,024 workers serve 1,023 clients, all of them idle then. 20 new ones have their replies within 3 s. The clients have a process of
    their own, because of their files."""
    _, allowed = resource.getrlimit(resource.RLIMIT_NOFILE)
    if allowed != resource.RLIM_INFINITY and allowed < FILES:
        print(f"1,024 workers may need {FILES} open files, and {allowed} are allowed: a_full_door is skipped")
        return
    with Served(1_024, files=FILES) as it:
        words = ["prlimit", f"--nofile={FILES}:", sys.executable, "-B", __file__, "--crowd", str(it.port)]
        ran = subprocess.run(words, capture_output=True, text=True, timeout=75)
        expect("the clients' faults and their status", (ran.stderr, ran.returncode), ("", 0))
        expect_between("the last of the new clients has its reply", float(ran.stdout), 0, 3)
        with open(f"/proc/{it.ran.pid}/status", encoding="ascii") as lines:
            threads = next(int(line.split()[1]) for line in lines if line.startswith("Threads:"))
        expect(f"1,024 threads at least, of {threads}", threads >= 1_024, True)


def crowd(port):
    """1,023 clients that ask once and stay, and 20 new ones that stay too. Prints the longest time in which a new one had its reply."""
    clients = [Client(port) for _ in range(1_023)]
    for client in clients:
        client.ask("DutyCounts")

    def new():
        client = Client(port)
        clients.append(client)
        client.ask("DutyCounts")

    print(max(seconds for _, seconds in together([lambda: timed(new)] * 20)))
    for client in clients:
        client.close()


def few_files():
    """With 256 open files there are 108 workers. 107 clients are served at once, and no send fails for want of a file."""
    with Served(1_024, files=256, faults=b"ebusd: 256 open files are allowed: 108 workers\n") as it, Answering() as endpoint:
        clients = [it.client() for _ in range(107)]
        for client in clients:
            client.ask("DutyCounts")
        put_rule(clients[0], "r", "shop.a", endpoint.url, RetryPolicy={"MaximumRetryAttempts": 0})
        for client in clients[:20]:
            put_events(client, "shop.a", 10)
        for client in clients[1:]:
            client.close()
        until_delivered(clients[0], 200)
        clients[0].close()


def a_rule_of_another_connection():
    """A rule that one client puts holds for the events that another one puts after the reply."""
    with Served(3) as it, it.client() as one, it.client() as other:
        one.ask("CreateQueue", {"QueueName": "q"})
        put_rule(one, "r", "shop.a", QUEUE_ARN + "q")
        expect("the ids", put_events(other, "shop.a", 2), [event_id(1), event_id(2)])
        one.ask("DisableRule", {"Name": "r"})
        put_events(other, "shop.a", 1)
        until_delivered(other, 2)


def one_worker():
    """It serves one client at a time, closes it after 0.25 s although nobody waits, and then delivers."""
    with Served(1) as it:
        with it.client(again=True) as one:
            one.ask("CreateQueue", {"QueueName": "q"})
            put_rule(one, "r", "shop.a", QUEUE_ARN + "q")
            put_events(one, "shop.a", 10)
            rest, seconds = timed(lambda: one.rest(PATIENCE))
            expect("what comes after the last reply", rest, b"")
            expect_between("the idle client is closed", seconds, SHORT - 0.05, SHORT + LATE)
        time.sleep(AT_ONCE)
        with it.client() as other:
            expect("DutyCounts", other.ask("DutyCounts")["Delivered"], 10)


def only_127_0_0_1():
    with Served(2) as it:
        for address in ("127.0.0.2", "::1"):
            try:
                socket.create_connection((address, it.port), timeout=5).close()
            except OSError:
                continue
            raise Failure(f"something listens at {address}")


# ---- Clients that do not send


def idle_for_20_s():
    """A client that never sends, one after its reply, one inside a message, and one that asks in between, which stays."""
    with Served(5) as it:

        def never_sends():
            with it.client() as client:
                return client.rest(IDLE + 5)

        def after_its_reply():
            with it.client() as client:
                client.ask("DutyCounts")
                return client.rest(IDLE + 5)

        def inside_a_message():
            with it.client() as client:
                client.send(message("CreateQueue", b'{"QueueName":"q"}')[:-1])
                return client.rest(IDLE + 5)

        def asks_in_between():
            with it.client() as client:
                client.ask("DutyCounts")
                time.sleep(IDLE - 8)
                client.ask("DutyCounts")
                return client.rest(IDLE + 5)

        cases = [never_sends, after_its_reply, inside_a_message, asks_in_between]
        for case, (rest, seconds) in zip(cases, together([lambda it=it: timed(it) for it in cases])):
            expect(f"what is sent to a client that {case.__name__}", rest, b"")
            least = IDLE + (IDLE - 8 if case is asks_in_between else 0)
            expect_between(f"a client that {case.__name__} is closed", seconds, least - 0.05, least + LATE)


def idle_while_another_waits():
    """Of two idle clients one ends for a third one. Before that, nobody waits and both stay."""
    with Served(3) as it, it.client() as one, it.client() as other:
        idle = [one, other]
        for client in idle:
            client.ask("DutyCounts")
        time.sleep(1.5)
        expect("the idle clients that are served while nobody waits", [client.is_quiet() for client in idle], [True, True])
        with it.client() as third:
            _, seconds = timed(lambda: third.ask("DutyCounts"))
            expect_between("the client that waits is served", seconds, 0, SHORT + LATE)
            time.sleep(0.2)
            expect("the idle clients that stay", sum(client.is_quiet() for client in idle), 1)
            # The third client is busy, and nobody waits: the other one stays.
            for _ in range(20):
                third.ask("DutyCounts")
                time.sleep(0.05)
            left = [client for client in idle if client.is_quiet()]
            expect("the idle clients that stay while nobody waits", len(left), 1)
            left[0].ask("DutyCounts")


def the_one_idle_longest_ends():
    """Of three idle clients the one that asked first ends for a fourth one."""
    with Served(4) as it, it.client() as one, it.client() as two, it.client() as three:
        for client in (two, three, one):
            client.ask("DutyCounts")
            time.sleep(0.6)
        with it.client() as fourth:
            fourth.ask("DutyCounts")
            time.sleep(0.2)
            expect("the clients that stay", [client.is_quiet() for client in (one, two, three)], [True, False, True])


def slow_messages_end_for_others():
    """Of two clients inside a message the one whose message began first ends for a third one, 5 s after its first byte. Before that
    nobody waits, and it stays."""
    data = message("CreateQueue", b'{"QueueName":"q"}')
    with Served(3) as it, it.client() as one, it.client() as two:
        began = time.monotonic()
        two.send(data[:1])
        time.sleep(1)
        one.send(data[:1])
        time.sleep(0.5)
        with it.client() as third:
            third.ask("DutyCounts")
            expect_between("the third client is served", time.monotonic() - began, LONG - 0.05, LONG + LATE)
            expect("what is sent to the client that ended", two.rest(PATIENCE), b"")
            expect("the other one stays", one.is_quiet(), True)
            one.send(data[1:])
            expect("the status of its message", one.reply()[0], 200)


def a_reply_is_whole_while_another_waits():
    """A client that reads its reply late gets all of it while another one waits, and ends after it."""
    with Served(2) as it:
        with it.client() as client:
            client.ask("CreateQueue", {"QueueName": "q"})
            put_rule(client, "r", "shop.a", QUEUE_ARN + "q")
            for _ in range(100):
                put_events(client, "shop.a", 1, json.dumps({"text": "x" * 200_000}))
            until_delivered(client, 100)
        with it.client(within=PATIENCE) as client:
            client.send(message("PeekMessages", b'{"QueueName":"q","Limit":100}'))
            time.sleep(0.5)
            with it.client(within=PATIENCE) as waiting:
                waiting.send(message("DutyCounts", b"{}"))
                time.sleep(LONG + 1)
                expect("the waiting client has no reply", waiting.is_quiet(), True)
                status, text = client.reply()
                expect("the reply", (status, len(json.loads(text)["Messages"])), (200, 100))
                expect("what comes after it", client.rest(PATIENCE), b"")
                expect("the status of the waiting client's reply", waiting.reply()[0], 200)


def a_busy_client_stays():
    """A client that is never idle for 0.25 s stays while another waits, and is closed once it is idle."""
    for _ in range(20):
        rounds = []
        try:
            return busy_for_a_while(rounds)
        except Closed:
            # The server has no byte of it for at most the time of two rounds. A busy machine may have stopped either of them.
            if max(map(sum, itertools.pairwise([0.0, *rounds]))) < SHORT - 0.05:
                raise
    raise Failure("in twenty tries the machine was too slow to send a request every 0.25 s")


def busy_for_a_while(rounds):
    def ask_later():
        time.sleep(0.05)
        busy.ask("DutyCounts")

    with Served(2) as it, it.client() as busy:
        busy.ask("DutyCounts")
        with it.client() as waiting:
            waiting.send(message("DutyCounts", b"{}"))
            for _ in range(30):
                began = time.monotonic()
                try:
                    ask_later()
                finally:
                    rounds.append(time.monotonic() - began)
            expect("the waiting client has no reply", waiting.is_quiet(), True)
            rest, seconds = timed(lambda: busy.rest(PATIENCE))
            expect("what comes after the last reply", rest, b"")
            expect_between("the client that is idle now is closed", seconds, SHORT - 0.05, SHORT + LATE)
            expect("the status of the waiting client's reply", waiting.reply()[0], 200)


def an_unfinished_message_is_not_idle():
    """A client inside a message keeps its connection while two others wait, one after the other."""
    data = message("CreateQueue", b'{"QueueName":"q"}')
    with Served(3) as it, it.client() as inside, it.client() as idle:
        idle.ask("DutyCounts")
        inside.send(data[:-3])
        for _ in range(2):
            with it.client() as waiting:
                waiting.ask("DutyCounts")
                with it.client() as next_one:
                    next_one.ask("DutyCounts")
        expect("the idle client is served", idle.is_quiet(), False)
        inside.send(data[-3:])
        expect("the status of the message that was finished late", inside.reply()[0], 200)


def a_byte_a_second():
    """A message that is not whole 60 seconds after its first byte ends its connection."""
    data = message("CreateQueue", b'{"QueueName":"q"}')
    with Served(2) as it, it.client() as client:
        client.ask("DutyCounts")
        time.sleep(2)
        began = time.monotonic()
        try:
            for byte in data[:75]:
                client.send(bytes([byte]))
                time.sleep(1)
                if not client.is_quiet():
                    break
        except ConnectionError:
            pass
        expect_between("the connection is closed", time.monotonic() - began, UNFINISHED - 0.05, UNFINISHED + 1 + LATE)
        try:
            expect("what is sent to the client", client.rest(1), b"")
        except ConnectionError:
            pass


# ---- Ends of connections


def a_body_cut_off():
    """A message that its client ends early has no reply and no effect, and other clients are served."""
    with Served(2) as it:
        with it.client() as client:
            client.send(message("CreateQueue", b'{"QueueName":"one"}')[:-1])
            client.socket.shutdown(socket.SHUT_WR)
            expect("what is sent to the client", client.rest(PATIENCE), b"")
        with it.client() as client:
            client.send(message("CreateQueue", b'{"QueueName":"other"}')[:-1])
            client.socket.setsockopt(socket.SOL_SOCKET, socket.SO_LINGER, struct.pack("ii", 1, 0))
        with it.client() as client:
            client.send(message("CreateQueue", b'{"QueueName":"whole"}'))
            client.socket.shutdown(socket.SHUT_WR)
            expect("the status of a whole message", client.reply()[0], 200)
        with it.client() as client:
            for name in ("one", "other"):
                status, text = client.exchange("PeekMessages", {"QueueName": name})
                missing = f'{{"__type":"ResourceNotFoundException","message":"Queue {name} does not exist."}}'
                expect("the reply on the queue of the message", (status, text), (400, missing.encode()))
            client.ask("PeekMessages", {"QueueName": "whole"})


def connection_close():
    """The reply has the field too, the connection ends, and what came after the message is not answered."""
    counts = '{"Created":0,"Pending":0,"Delivered":0,"DeadLettered":0,"Dropped":0}'
    with Served(2) as it:
        for ask in (message("DutyCounts", b"{}", "Connection: close"), message("DutyCounts", b"{}").replace(b"/1.1", b"/1.0", 1)):
            with it.client() as client:
                client.send(ask + message("CreateQueue", b'{"QueueName":"q"}'))
                rest, seconds = timed(lambda: client.rest(PATIENCE))
                expect("the replies", rest, limits.reply("200 OK", counts, close=True))
                expect_between("the connection is closed", seconds, 0, AT_ONCE)
        with it.client() as client:
            expect("the status on a queue of an unanswered message", client.exchange("PeekMessages", {"QueueName": "q"})[0], 400)


def two_mib_before_it_reads():
    """A client that sends a body too long, and then reads, gets its 413."""
    with open("examples/body-too-large.replies", "rb") as file:
        wanted = file.read()
    size = 2 << 20
    with Served(2) as it:
        for _ in range(3):
            with it.client() as client:
                client.send(message("PutEvents", b"x" * size))
                expect("the reply", client.rest(PATIENCE), wanted)
        with it.client() as client:
            client.ask("DutyCounts")


def a_reply_that_is_not_read():
    """After 20 seconds its connection is given to the client that waits, also if its client reads a little all the time."""

    def nothing(_client):
        pass

    def a_little(client):
        try:
            while client.socket.recv(32_768):
                time.sleep(0.25)
        except OSError:
            pass

    def one(read):
        with Served(2) as it:
            with it.client() as client:
                client.ask("CreateQueue", {"QueueName": "q"})
                put_rule(client, "r", "shop.a", QUEUE_ARN + "q")
                for _ in range(100):
                    put_events(client, "shop.a", 1, json.dumps({"text": "x" * 200_000}))
                until_delivered(client, 100)
            with it.client() as client:
                client.send(message("PeekMessages", b'{"QueueName":"q","Limit":100}'))
                reader = threading.Thread(target=read, args=[client])
                reader.start()
                time.sleep(0.5)
                with it.client(within=UNREAD + 10) as waiting:
                    _, seconds = timed(lambda: waiting.ask("DutyCounts"))
                client.socket.shutdown(socket.SHUT_RDWR)
                reader.join()
            expect_between(f"the client that waits while {read.__name__} is read is served", seconds, UNREAD - 2, UNREAD + 2 * LATE)

    together([lambda: one(nothing), lambda: one(a_little)])


# ---- Deliveries


class Hanging:
    """An endpoint that takes connections and never answers."""

    def __init__(self):
        self.listener = socket.create_server((HOST, 0), backlog=128)
        self.url = f"http://{HOST}:{self.listener.getsockname()[1]}/"
        self.came = []
        self.thread = threading.Thread(target=self.take)
        self.thread.start()

    def take(self):
        try:
            while True:
                self.came.append(self.listener.accept()[0])
        except OSError:
            pass

    def __enter__(self):
        return self

    def __exit__(self, *_):
        self.listener.shutdown(socket.SHUT_RDWR)
        self.thread.join()
        self.listener.close()
        for connection in self.came:
            connection.close()


class Answering:
    """An endpoint that answers each request by a 200."""

    def __init__(self):
        class Answer(http.server.BaseHTTPRequestHandler):
            def do_POST(self):
                self.rfile.read(int(self.headers["Content-Length"]))
                time.sleep(0.1)
                self.send_response(200)
                self.send_header("Content-Length", "0")
                self.end_headers()

            def log_message(self, *_):
                pass

        class Server(http.server.ThreadingHTTPServer):
            request_queue_size = 512

        self.server = Server((HOST, 0), Answer)
        self.url = f"http://{HOST}:{self.server.server_address[1]}/"
        self.thread = threading.Thread(target=self.server.serve_forever)
        self.thread.start()

    def __enter__(self):
        return self

    def __exit__(self, *_):
        self.server.shutdown()
        self.thread.join()
        self.server.server_close()


def an_endpoint_that_never_answers():
    """Two clients are served while deliveries hang: the first at once, the second within 6 seconds."""
    with Served(3) as it, Hanging() as endpoint:
        with it.client() as client:
            put_rule(client, "r", "shop.a", endpoint.url)
            put_events(client, "shop.a", 10)
            put_events(client, "shop.a", 10)
        end = time.monotonic() + PATIENCE
        while not endpoint.came and time.monotonic() < end:
            time.sleep(0.02)
        expect("a delivery has begun", bool(endpoint.came), True)
        time.sleep(0.5)
        with it.client() as first:
            counts, seconds = timed(lambda: first.ask("DutyCounts"))
            expect("DutyCounts", (counts["Created"], counts["Pending"]), (20, 20))
            expect_between("the first client is served", seconds, 0, AT_ONCE)
            answered = threading.Event()

            def second():
                with it.client() as client:
                    try:
                        return timed(lambda: client.ask("DutyCounts"))[1]
                    finally:
                        answered.set()

            def meanwhile():
                longest = 0.0
                while not answered.is_set():
                    longest = max(longest, timed(lambda: first.ask("DutyCounts"))[1])
                    time.sleep(0.1)
                return longest

            seconds, longest = together([second, meanwhile])
            expect_between("the second client is served", seconds, 0, SEND + 1)
            expect_between("the first client's slowest reply comes", longest, 0, AT_ONCE)


# ---- Ends of processes


def a_port_in_use():
    def failed(port):
        reason = f"ebusd: port {port}: bind: Address already in use (os error 98)\n"
        return b"", reason.encode() + b"ebusd: door failed\n", 8

    with Served(2) as it, it.client() as client:
        expect("a second process at the port", run("serve", "--port", str(it.port), "--workers", "2"), failed(it.port))
        client.ask("DutyCounts")
    with socket.create_server((HOST, 0)) as other:
        port = str(other.getsockname()[1])
        expect("a process at another program's port", run("serve", "--port", port, "--workers", "2"), failed(port))


def ended_by_a_signal():
    """Nothing is kept after the process, and the next one has the port at once."""
    port = free_port()
    for by in (signal.SIGTERM, signal.SIGINT, signal.SIGTERM):
        with Served(3, port=port) as it, it.client() as client:
            client.ask("CreateQueue", {"QueueName": "q"})
            expect("the first id", put_events(client, "shop.a", 1), [event_id(1)])
            _, seconds = timed(lambda: it.end(by))
            expect_between(f"the process ends by {by.name}", seconds, 0, AT_ONCE)
            try:
                expect("what is sent to its client", client.rest(AT_ONCE), b"")
            except ConnectionError:
                pass


def bad_words():
    port = str(free_port())
    good = ["--port", port, "--workers", "2"]
    cases = [["--port", it, "--workers", "2"] for it in ("0", "65536", "09100", "+9100", "", "9100x", "-1", "99999999999999999999")]
    cases += [["--port", port, "--workers", it] for it in ("0", "1025", "02", "")]
    cases += [[*good, "--connections", it] for it in ("0", "1000001", "01", "")]
    cases += [[*good, *it] for it in (good[:2], good[2:], ["--connections", "1", "--connections", "1"], ["--now", "0"], ["x"])]
    cases += [[*good, "--journal", ""], ["--journal", "-x", *good], ["--prot", port], ["--port"], [*good, "--connections"]]
    for words in cases:
        output, faults, status = run("serve", *words)
        last = faults.splitlines()[-1:]
        expect(f"serve {' '.join(words)}", (output, last, status), (b"", [b"ebusd: bad arguments"], 2))
        if not faults.startswith(b"error: "):
            raise Failure(f"serve {' '.join(words)}: {faults[:200]!r} does not say why")


def options_in_any_order():
    """A connection ends the process, whatever the order of its options and the form of their values."""
    for order in itertools.permutations(["--port", "--workers", "--connections"]):
        for sign in (" ", "="):
            port = free_port()
            values = {"--port": port, "--workers": 2, "--connections": 1}
            words = " ".join(f"{it}{sign}{values[it]}" for it in order).split()
            with Served(port=port, words=words) as it:
                with it.client() as client:
                    client.ask("DutyCounts")
                expect(f"the status of serve {' '.join(words)}", it.over()[1], 0)


def workers_if_none_are_asked_for():
    """64, so that 63 clients are served at once."""
    with Served(words=[]) as it:
        clients = [it.client() for _ in range(63)]
        for client in clients:
            client.ask("DutyCounts")
        for client in clients:
            client.close()


def no_output():
    """If `listening N` cannot be written, nothing is served."""
    reads, writes = os.pipe()
    os.close(reads)
    with open("/dev/full", "wb") as full, open(writes, "wb") as unread:
        for output in full, unread:
            _, *rest = run("serve", "--port", str(free_port()), "--workers", "2", stdout=output)
            expect("the end", rest, [b"ebusd: output failed\n", 4])


SUMMARY = b"""records 5 entries 5 control 3
events 1 archived 0 replays 0
duties 1 pending 0 delivered 1 dead-lettered 0 dropped 0
messages 1
"""


def first_run(workers):
    """The first run of examples/ over the one connection that is given. Returns its replies."""
    with open("examples/first-run.http", "rb") as file:
        asked = file.read()
    with Served(workers, connections=1) as it:
        with it.client() as client:
            client.send(asked)
            client.socket.shutdown(socket.SHUT_WR)
            replies = client.rest(PATIENCE)
        expect("the output and the status", it.over(), (SUMMARY, 0))
    return replies


def first_run_by_one_worker():
    """The replies are those of `once`, but for the event's time."""
    with open("examples/first-run.replies", "rb") as file:
        wanted = file.read()
    shown = re.compile(rb'(\\"time\\":\\")[0-9]{4}-[0-9]{2}-[0-9]{2}T[0-9]{2}:[0-9]{2}:[0-9]{2}Z')
    expect("the replies", shown.sub(rb"\1", first_run(1)), shown.sub(rb"\1", wanted))


def first_run_by_two_workers():
    """The other worker may have made the delivery before the DeliverDue."""
    replies = first_run(2)
    expect("the replies with status 200", replies.count(b"HTTP/1.1 200 OK\r\n"), 6)


def connections_are_counted():
    """The third of two connections is not given, and the process ends once both have ended."""
    with Served(3, connections=2) as it:
        with it.client() as one, it.client() as other:
            one.ask("DutyCounts")
            other.ask("DutyCounts")
            time.sleep(1)
            expect("the process runs while two clients are connected", it.ran.poll(), None)
            one.ask("DutyCounts")
            other.ask("DutyCounts")
            third = it.client()
            third.send(message("DutyCounts", b"{}"))
            time.sleep(0.2)
            expect("the third client has no reply", third.is_quiet(), True)
        output, status = it.over()
        with third:
            try:
                expect("what is sent to the third client", third.rest(AT_ONCE), b"")
            except ConnectionError:
                pass
        expect("the last line and the status", (output.splitlines()[-1], status), (b"messages 0", 0))


# ---- Mixed requests


def settled(request, chance):
    """The request without what depends on the clock: each entry has a Time, an endpoint has no retry, and no template has the time."""
    members = request.value
    if members is NO_OBJECT or members is None:
        return request
    members = dict(members)
    if isinstance(members.get("Entries"), list):
        times = [it.get("Time") if isinstance(it, dict) else None for it in members["Entries"]]
        pairs = zip(members["Entries"], times)
        members["Entries"] = [{**it, "Time": Number("1700000000")} if isinstance(it, dict) and at is None else it for it, at in pairs]
    if isinstance(members.get("Targets"), list):
        once = {"RetryPolicy": {"MaximumRetryAttempts": 0}}
        members["Targets"] = [{**it, **once} if isinstance(it, dict) and it.get("Arn") in ENDPOINTS else it for it in members["Targets"]]
        members["Targets"] = [{**it, "InputTransformer": None} if shows_the_time(it) else it for it in members["Targets"]]
    if members == request.value:
        return request
    return request_of(request.action, members, chance, len(request.body) + 1_000, request.caller) or request


def shows_the_time(target):
    """Whether the target has a template whose text depends on when its event came."""
    try:
        make = inputs.of_transformer(target["InputTransformer"])
    except (Fault, LookupError, TypeError, AttributeError):
        return False
    return make({}, "", "then") != make({}, "", "now")


MODEL_NOW = 1_700_000_000
MADE_AT = re.compile(rb'"(CreationTime|ReplayStartTime|ReplayEndTime)":([0-9]{10})')


def mixed_exchanges():
    """Requests of all kinds, each with the model's reply; then what the model's archives keep, each event once for each of its archives, and
    how many replays were started."""
    router, chance = Router(MODEL_NOW), random.Random(SEED)

    def requests():
        for length in range(2, 20_001, 9):
            yield a_request(router, chance, chance.choice([length, 300, 1_000]))
        for make in (conditions, uses_of_queues):
            yield from make(router, chance)

    exchanges = []
    for request in requests():
        request = settled(request, chance)
        status, body = router.answer(request.method, request.action, request.caller, request.value)
        exchanges.append((request, status, body.encode()))
    return exchanges, sum(len(it.kept) for it in router.archives.values()), len(router.replays)


def mixed_requests_over_tcp():
    """The replies are the model's, with which mixed.py compares those of `once`. The one worker makes no delivery and steps no replay by itself
    while the client is served, so each reply follows from the requests before it, but for the times at which archives were created, and at
    which replays were started and ended."""
    exchanges, archived, replays = mixed_exchanges()
    refused = sum(status == 400 for _, status, _ in exchanges)
    if not len(exchanges) / 10 < refused < len(exchanges) * 9 / 10:
        raise Failure(f"{refused} of {len(exchanges)} requests are refused: the run is not mixed")
    asked, counts, made = queue.Queue(), {}, []

    def at_one_time(body):
        made.extend(int(at) for _, at in MADE_AT.findall(body))
        return MADE_AT.sub(rb'"\1":%d' % MODEL_NOW, body)

    for exchange in [*exchanges, None]:
        asked.put(exchange)
    # All is made before the client connects, because one worker closes a client that is idle for 0.25 s.
    messages = b"".join(mixed_message(exchange[0], number) for number, exchange in enumerate(exchanges))
    with Served(1, connections=1) as it, it.client(within=PATIENCE) as client:

        def send():
            client.send(messages)
            client.socket.shutdown(socket.SHUT_WR)

        began, first = time.monotonic(), int(time.time())
        together([send, lambda: compare(client.file, asked, counts, at_one_time)])
        if time.monotonic() - began > 55:
            raise Failure("the run took more than 55 s: a delivery may have become too old")
        if not first <= min(made) <= max(made) <= time.time():
            raise Failure(f"archives and replays were made at {min(made)} to {max(made)}, and the run began at {first}")
        output, status = it.over()
        expect("the status", status, 0)
        events = sum(body.count(b'"EventId"') for _, _, body in exchanges)
        expect("the summary's events", output.splitlines()[1], b"events %d archived %d replays %d" % (events, archived, replays))


# ---- Real clients


def script(*words):
    """What a script of examples/serve/ prints. Its status has to be 0."""
    ran = subprocess.run(words, capture_output=True, text=True, timeout=75)
    if ran.returncode or ran.stderr:
        raise Failure(f"{' '.join(words)} ends with status {ran.returncode}: {ran.stderr[-300:]!r}, after {ran.stdout[-300:]!r}")
    return ran.stdout


def expect_ten_events(name, printed):
    orders = re.findall(r"^received .*\border['\"]: ?([0-9]+)\}", printed, re.MULTILINE)
    expect(f"the orders that {name} received", orders, [str(it) for it in range(10)])


def real_clients():
    scripts = {"http_client.py": [sys.executable, "-B", EXAMPLES + "http_client.py"], "curl.sh": [EXAMPLES + "curl.sh"]}
    if BOTO3:
        scripts["sdk.py"] = [*BOTO3, "-B", EXAMPLES + "sdk.py"]
    with Served(8) as it:
        printed = together([lambda words=words: script(*words, str(it.port)) for words in scripts.values()])
        for name, text in zip(scripts, printed):
            expect_ten_events(name, text)
        with it.client() as client:
            until_delivered(client, 10 * len(scripts))


def the_documented_run():
    """The example clients of docs/OPERATING.md: twelve clients, boto3, and what curl prints then."""
    with Served(8) as it:
        printed = script(sys.executable, "-B", EXAMPLES + "clients.py", str(it.port)).splitlines()
        wanted = ["12 clients put 6000 events: ids 1 to 6000 came once each", "all were delivered to queue q without a DeliverDue"]
        expect("what clients.py prints", printed[:2], wanted)
        if not (len(printed) == 3 and printed[2].startswith("an idle client was served again ")):
            raise Failure(f"clients.py prints {printed[2:]}")
        count = 6_000
        if BOTO3:
            expect_ten_events("sdk.py", script(*BOTO3, "-B", EXAMPLES + "sdk.py", str(it.port)))
            count = 6_010
        words = ["curl", "-sS", "--noproxy", "*", "-H", "X-Amz-Target: RouterLocal.DutyCounts", "-d", "{}", f"http://127.0.0.1:{it.port}/"]
        wanted = f'{{"Created":{count},"Pending":0,"Delivered":{count},"DeadLettered":0,"Dropped":0}}'
        expect("what curl prints", script(*words), wanted)


def find_boto3():
    """The Python that has boto3: Debian's, which is installed if it is not there."""
    python = "/usr/bin/python3"
    has = ["sh", "-c", f"{python} -c 'import boto3'"]
    install, update = ["apt-get", "install", "-y", "python3-boto3"], ["apt-get", "update"]
    quiet = {"stdin": subprocess.DEVNULL, "stdout": subprocess.DEVNULL, "stderr": subprocess.DEVNULL}
    quiet["env"] = {**os.environ, "DEBIAN_FRONTEND": "noninteractive"}
    try:
        for words in ([], [install], [update, install]):
            for it in words:
                subprocess.run(it, timeout=180, **quiet)
            if subprocess.run(has, timeout=60, **quiet).returncode == 0:
                return [python]
    except (OSError, subprocess.SubprocessError):
        pass
    print("boto3 is not here, and Debian's python3-boto3 cannot be installed: sdk.py is skipped")
    return []


CASES = [
    twelve_clients,
    eight_clients,
    ids_after_the_last_known,
    fifteen_clients,
    any_number_of_workers,
    a_full_door,
    few_files,
    a_rule_of_another_connection,
    one_worker,
    only_127_0_0_1,
    idle_for_20_s,
    idle_while_another_waits,
    the_one_idle_longest_ends,
    slow_messages_end_for_others,
    a_reply_is_whole_while_another_waits,
    a_busy_client_stays,
    an_unfinished_message_is_not_idle,
    a_byte_a_second,
    a_body_cut_off,
    connection_close,
    two_mib_before_it_reads,
    a_reply_that_is_not_read,
    an_endpoint_that_never_answers,
    a_port_in_use,
    ended_by_a_signal,
    bad_words,
    options_in_any_order,
    workers_if_none_are_asked_for,
    no_output,
    first_run_by_one_worker,
    first_run_by_two_workers,
    connections_are_counted,
    mixed_requests_over_tcp,
    real_clients,
    the_documented_run,
]


def main():
    if sys.argv[1:2] == ["--crowd"]:
        crowd(int(sys.argv[2]))
        return 0
    only = os.environ.get("SERVE_CASES", "").split()
    cases = [(it.__name__, it) for it in CASES if not only or it.__name__ in only]
    if not cases:
        print("SERVE_CASES names no case\n0 passed, 1 failed")
        return 1
    COMMAND.extend(command_of(sys.argv[1:]))
    BOTO3.extend(find_boto3())
    return side_by_side(cases)


if __name__ == "__main__":
    sys.exit(main())
