#!/usr/bin/env python3
"""`ebusd serve --journal` under eight clients, killed 50 times and started again.

    kill.py 9100
    kill.py 9100 --kills 5 --program crates/ebusd/out/ebusd

The script makes a journal of its own and starts the program itself, with the port in its first word; without `--program` it is bin/ebusd.
Each client puts one event after the other, and keeps the id of each reply. About once a second the program gets SIGKILL, and is started again
on the same journal. A request that gets no reply is not made again: it may have been carried out, or not.

At the end each id that a reply had is in queue `q` once, as the event that the client put; each other event there was put by a request without
a reply, at most once; and the journal, read by a small reader that is no part of the program, has the same events. The status is 0 if it is so;
else it is 1, and one line says what differs.
"""
import argparse
import collections
import concurrent.futures
import http.client
import json
import random
import subprocess
import sys
import tempfile
import threading
import time
from pathlib import Path

HERE = Path(__file__).resolve().parent
sys.path[:0] = [str(HERE.parent / "serve"), str(HERE.parent.parent / ".ci" / "checks")]

from journal_file import read_batch, records  # noqa: E402
from shared import Refused, ask, connect, wait_for_deliveries, wait_for_router  # noqa: E402

CLIENTS = 8
PAUSE = 0.01  # seconds between two requests of a client
LIVES = 0.4, 1.2  # the shortest and the longest time in seconds from a start to its kill
PAGE = 1_000  # messages of one PeekMessages
QUEUE_ARN = "arn:aws:sqs:us-east-1:111122223333:q"
SETUP = [
    ("RouterLocal.CreateQueue", {"QueueName": "q"}),
    ("AWSEvents.PutRule", {"Name": "r", "EventPattern": '{"source":["shop.orders"]}'}),
    ("AWSEvents.PutTargets", {"Rule": "r", "Targets": [{"Id": "t", "Arn": QUEUE_ARN}]}),
]
NO_REPLY = (OSError, http.client.HTTPException)


class Server:
    """The program on one journal."""

    def __init__(self, command, port, journal):
        self.words = [*command, "serve", "--journal", str(journal), "--port", str(port), "--workers", str(CLIENTS + 2)]
        self.port, self.ran = port, None

    def start(self):
        self.ran = subprocess.Popen(self.words, stdin=subprocess.DEVNULL, stdout=subprocess.PIPE)
        line = self.ran.stdout.readline()
        if line != b"listening %d\n" % self.port:
            raise Refused(f"the program ends with status {self.ran.wait()} and prints {line!r}")

    def kill(self):
        self.ran.kill()
        self.ran.wait()
        self.ran.stdout.close()


class Clients:
    """What eight clients put, by a client's number and the order's: the ids that were replied, and the requests that got no reply."""

    def __init__(self, port):
        self.port, self.is_over = port, threading.Event()
        self.replied, self.unanswered = {}, set()

    def put_all(self, client):
        chance, connection, order = random.Random(client), None, 0
        while not self.is_over.is_set():
            key = client, order
            try:
                connection = connection or self.connected()
                if connection is None:
                    continue
                detail = json.dumps({"client": client, "order": order, "text": "x" * chance.randrange(600)})
                entries = [{"Source": "shop.orders", "DetailType": "Order", "Detail": detail}]
                order += 1
                self.unanswered.add(key)
                reply = ask(connection, "AWSEvents.PutEvents", {"Entries": entries})
                self.replied[key] = reply["Entries"][0]["EventId"]
                self.unanswered.discard(key)
            except NO_REPLY:
                connection = None
            time.sleep(PAUSE)

    def connected(self):
        """A connection to the program, or None while it does not listen."""
        made = connect(self.port)
        try:
            made.connect()
        except OSError:
            time.sleep(PAUSE)
            return None
        return made


def messages(port):
    """Reads and deletes all messages of the queue, a page after the other."""
    connection = connect(port)
    while page := ask(connection, "RouterLocal.PeekMessages", {"QueueName": "q", "Limit": PAGE})["Messages"]:
        yield from page
        ask(connection, "RouterLocal.DeleteMessages", {"QueueName": "q", "Through": page[-1]["Number"]})
    connection.close()


def once_each(what, events, clients):
    """Compares events, each a key and its id, with what was replied."""
    counts = collections.Counter(key for key, _ in events)
    found = dict(events)
    missing = [key for key in clients.replied if key not in found]
    if missing:
        raise Refused(f"{what} has not {len(missing)} replied ids, the first {clients.replied[missing[0]]}")
    again = [key for key, count in counts.items() if count > 1]
    if again:
        raise Refused(f"{what} has {len(again)} events more than once, the first {found[again[0]]}")
    others = [key for key in found if found[key] != clients.replied.get(key, found[key])]
    if others:
        raise Refused(f"{what} has another id than the reply's {len(others)} times, the first {found[others[0]]}")
    unknown = [key for key in found if key not in clients.replied and key not in clients.unanswered]
    if unknown:
        raise Refused(f"{what} has {len(unknown)} events that no client put, the first {found[unknown[0]]}")
    if len(set(found.values())) != len(found):
        raise Refused(f"in {what} two events have one id")


def event_of(text):
    """The client and the order of an event's text, and its id."""
    event = json.loads(text)
    return (event["detail"]["client"], event["detail"]["order"]), event["id"]


def accepted_in(journal):
    """The events that a journal's records have, in their order."""
    for _, payload in records(journal.read_bytes()):
        if payload is not None:
            yield from (event_of(it[5]) for it in read_batch(payload)[1] if it[0] == 14)


def run(port, kills, command, folder):
    journal = Path(folder) / "J"
    server, clients, chance = Server(command, port, journal), Clients(port), random.Random()
    server.start()
    wait_for_router(port)
    first = connect(port)
    for action, members in SETUP:
        ask(first, action, members)
    first.close()
    with concurrent.futures.ThreadPoolExecutor(CLIENTS) as pool:
        made = [pool.submit(clients.put_all, it) for it in range(CLIENTS)]
        try:
            for _ in range(kills):
                time.sleep(chance.uniform(*LIVES))
                server.kill()
                server.start()
            time.sleep(LIVES[0])
        finally:
            clients.is_over.set()
        for it in made:
            it.result()
    counts = wait_for_deliveries(port)
    found = [event_of(it["Body"]) for it in messages(port)]
    server.kill()
    print(f"killed {kills} times: {len(clients.replied)} events were replied, {len(clients.unanswered)} requests had no reply")
    once_each("queue q", found, clients)
    accepted = list(accepted_in(journal))
    once_each("the journal", accepted, clients)
    if accepted != sorted(accepted, key=lambda it: it[1]) or {key for key, _ in accepted} != {key for key, _ in found}:
        raise Refused("the journal and queue q have other events, or the ids are not in the journal's order")
    if counts["Delivered"] != len(found) or counts["Created"] != len(found):
        raise Refused(f"DutyCounts shows {counts}, and {len(found)} delivered are expected")
    print(f"no replied id is missing, and each came once: {len(found)} in queue q and in the journal")


def main():
    words = argparse.ArgumentParser(prog="kill.py")
    words.add_argument("port", type=int)
    words.add_argument("--kills", type=int, default=50)
    words.add_argument("--program", nargs="+", default=[str(HERE.parent.parent / "bin" / "ebusd")])
    given = words.parse_args()
    with tempfile.TemporaryDirectory() as folder:
        try:
            run(given.port, given.kills, given.program, folder)
        except (Refused, *NO_REPLY) as fault:
            sys.exit(f"kill.py: {fault or type(fault).__name__}")


if __name__ == "__main__":
    main()
