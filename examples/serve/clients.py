#!/usr/bin/env python3
"""Twelve keep-alive clients of Python's http.client put 500 events each, while another client is idle.

    clients.py 9100        the events go to queue `q`
    clients.py 9100 a b    they go to both of these queues

The router has to be new, because its event ids begin at 1 and the script makes the queues. The script waits until the port
answers, and then until nothing is pending. It makes no DeliverDue. The status is 0 if all is as printed; else it is 1, and one
line says what differs.

The idle client makes the queues and the rule, and then waits while the others put events. If a client waits for a connection, the
router closes one that was idle for 0.25 s. http.client shows this as an exception of the next request, and a new connection is
made for it. A busy connection is never closed.
"""
import concurrent.futures
import json
import sys
import time

from shared import FAULTS, Refused, ask, connect, wait_for_deliveries, wait_for_router

CLIENTS, EVENTS, ENTRIES = 12, 500, 10  # ENTRIES of one PutEvents
PAUSE = 0.01  # seconds between two requests of a client, so that clients overlap
PAGE = 1_000  # messages of one PeekMessages
QUEUE_ARN = "arn:aws:sqs:us-east-1:111122223333:"


class Client:
    """A keep-alive connection. If the router closed it since the last reply, it is made again, and `closed` counts that."""

    def __init__(self, port):
        self.connection, self.closed = connect(port), 0

    def ask(self, action, members=None):
        try:
            return ask(self.connection, action, members)
        except ConnectionError:
            # The router ends an idle connection before it reads the next request. If a reply had been lost instead, this
            # would put events twice, and their ids would show it.
            self.connection.close()
            self.closed += 1
            return ask(self.connection, action, members)


def set_up(client, queues):
    for name in queues:
        client.ask("RouterLocal.CreateQueue", {"QueueName": name})
    client.ask("AWSEvents.PutRule", {"Name": "orders", "EventPattern": '{"source":["shop.orders"]}'})
    targets = [{"Id": f"queue-{at}", "Arn": QUEUE_ARN + name} for at, name in enumerate(queues)]
    reply = client.ask("AWSEvents.PutTargets", {"Rule": "orders", "Targets": targets})
    if reply["FailedEntryCount"]:
        raise Refused(f"AWSEvents.PutTargets fails: {reply['FailedEntries']}")


def put_all(port, client_number):
    """Puts one client's events. Returns the id of each, by the client's number and the order's."""
    client, ids = Client(port), {}
    for first in range(0, EVENTS, ENTRIES):
        orders = range(first, min(first + ENTRIES, EVENTS))
        details = [json.dumps({"client": client_number, "order": it}) for it in orders]
        entries = [{"Source": "shop.orders", "DetailType": "Order", "Detail": it} for it in details]
        reply = client.ask("AWSEvents.PutEvents", {"Entries": entries})
        if reply["FailedEntryCount"]:
            raise Refused(f"AWSEvents.PutEvents fails: {reply}")
        ids.update({(client_number, it): made["EventId"] for it, made in zip(orders, reply["Entries"])})
        time.sleep(PAUSE)
    client.connection.close()
    return ids


def messages(client, name):
    """Reads and deletes all messages of a queue, a page after the other."""
    while page := client.ask("RouterLocal.PeekMessages", {"QueueName": name, "Limit": PAGE})["Messages"]:
        yield from page
        client.ask("RouterLocal.DeleteMessages", {"QueueName": name, "Through": page[-1]["Number"]})


def compare_ids(what, got):
    wanted = [f"00000000-0000-8000-8000-{it:012x}" for it in range(1, CLIENTS * EVENTS + 1)]
    if sorted(got) != wanted:
        missing, more = sorted(set(wanted) - set(got)), sorted(set(got) - set(wanted))
        first = f", the first missing one {missing[0]}" if missing else ""
        raise Refused(f"{what} has {len(got)} ids, {len(set(got))} different ones{first}; {len(more)} are past 6000")


def run(port, queues):
    wait_for_router(port)
    idle = Client(port)
    set_up(idle, queues)
    since = time.monotonic()
    with concurrent.futures.ThreadPoolExecutor(CLIENTS) as pool:
        ids = {key: made for part in pool.map(put_all, [port] * CLIENTS, range(CLIENTS)) for key, made in part.items()}
    compare_ids("all replies together", list(ids.values()))
    print(f"{CLIENTS} clients put {len(ids)} events: ids 1 to {len(ids)} came once each")

    seconds = time.monotonic() - since
    idle.ask("RouterLocal.DutyCounts")
    how = "over the same connection"
    if idle.closed:
        how = "over a new connection, because the router had closed the idle one while another client waited"
    counts = wait_for_deliveries(port)
    all_of_them = len(ids) * len(queues)
    if counts != {"Created": all_of_them, "Pending": 0, "Delivered": all_of_them, "DeadLettered": 0, "Dropped": 0}:
        raise Refused(f"DutyCounts shows {counts}, and {all_of_them} delivered are expected")
    for name in queues:
        events = [json.loads(it["Body"]) for it in messages(idle, name)]
        compare_ids(f"queue {name}", [it["id"] for it in events])
        if {(it["detail"]["client"], it["detail"]["order"]): it["id"] for it in events} != ids:
            raise Refused(f"in queue {name} an event has not the id that its client got")
        print(f"all were delivered to queue {name} without a DeliverDue")
    print(f"an idle client was served again after {seconds:.1f} s, {how}")


def main():
    words = sys.argv[1:]
    if not words or not words[0].isdigit():
        sys.exit("clients.py: the words are a port, and then names of queues")
    try:
        run(int(words[0]), words[1:] or ["q"])
    except FAULTS as fault:
        sys.exit(f"clients.py: {fault or type(fault).__name__}")


if __name__ == "__main__":
    main()
