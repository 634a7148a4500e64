#!/usr/bin/env python3
"""Delivers to endpoints, which are examples/endpoints/answer.py on free ports, and compares what is counted, what the endpoints
print, and the dead letters, with what is written here.

The cases are made side by side. The longest takes 62 seconds, almost all of them asleep: the least age that a retry policy can
have is 60 seconds. What takes longer to happen is tested elsewhere: the 153 attempts of the default policy by `rows.py` for the
model, and in Rust for the program; and a queue cannot be deleted while a delivery names it, so no run has QUEUE_NOT_FOUND.

A word names another program to run. The last line is `N passed, M failed`.
"""
import json
import os
import random
import socket
import subprocess
import sys
import threading
import time

from mixed import Failure
from sessions import Session, answered, attributes, command_of, counts, expect, side_by_side

ANSWER = ["examples/endpoints/answer.py"]
RETRY = ["examples/endpoints/retry.sh"]
DELIVERY = "examples/endpoints/delivery.http"
NOW = 1_700_000_000
PATIENCE = 20  # seconds for what should come at once, or after a retry or two
AGE = 60
BY_RETRIES, BY_AGE = "MaximumRetryAttempts", "MaximumEventAgeInSeconds"
COMMAND = []  # the program to run


class Endpoint:
    """answer.py with these codes. It is ended with the case."""

    def __init__(self, *codes, port=0):
        words = [sys.executable, *ANSWER, str(port), *map(str, codes), "--seconds", "120"]
        self.ran = subprocess.Popen(words, stdout=subprocess.PIPE, stderr=subprocess.PIPE, text=True)
        line = self.ran.stdout.readline()
        if not line.startswith("listening on 127.0.0.1:"):
            raise Failure(f"answer.py says {line!r} and {self.ran.stderr.read()!r}")
        self.port = int(line.rsplit(":", 1)[1])
        self.url = f"http://127.0.0.1:{self.port}/x"
        self.lines = []
        self.reader = threading.Thread(target=lambda: self.lines.extend(self.ran.stdout))
        self.reader.start()

    def __enter__(self):
        return self

    def __exit__(self, *_):
        self.ran.kill()
        self.ran.wait()
        self.reader.join()
        self.ran.stdout.close()
        self.ran.stderr.close()

    def expect(self, *exchanges):
        """Asks that it printed these exchanges and no other, each a text and a code."""
        self.wait(len(exchanges))
        expect("the endpoint's print", "".join(self.lines).strip("\n"), "\n\n".join(self.printed(*it) for it in exchanges))

    def wait(self, count):
        """Waits for that number of answers."""
        end = time.monotonic() + PATIENCE
        while sum(it.startswith("answered ") for it in self.lines) < count and time.monotonic() < end:
            time.sleep(0.02)

    def printed(self, text, code):
        fields = f"Host: 127.0.0.1:{self.port}\nContent-Type: application/json\nContent-Length: {len(text.encode())}\nConnection: close\n"
        return f"POST /x HTTP/1.1\n{fields}\n{text}\nanswered {code}"


def event_text(number, detail_type="b", source="shop.a", time="2023-11-14T22:13:20Z"):
    return (
        f'{{"version":"0","id":"00000000-0000-8000-8000-{number:012x}","detail-type":"{detail_type}","source":"{source}",'
        f'"account":"111122223333","time":"{time}","region":"us-east-1","resources":[],"detail":{{}}}}'
    )


def session(now=None):
    made = Session(COMMAND, now)
    made.ask("CreateQueue", {"QueueName": "d"})
    return made


def deliver(it, ended, seconds=PATIENCE):
    """Asks for what is due until that number of deliveries has ended, and returns the sums of what was counted."""
    sums = counts(0)
    end = time.monotonic() + seconds
    while sums["Delivered"] + sums["DeadLettered"] + sums["Dropped"] < ended and time.monotonic() < end:
        for key, count in it.ask("DeliverDue").items():
            sums[key] += count
        time.sleep(0.1)
    return sums


# ---- By one reading of the clock


def without_retries():
    """A dead letter with all six attributes; and a delivery that is dropped."""
    with Endpoint(503) as endpoint, session(NOW) as it:
        it.put_rule("r", [("t", endpoint.url, {BY_RETRIES: 0})])
        it.put_event()
        expect("DeliverDue", it.ask("DeliverDue"), counts(1, dead_lettered=1))
        letter = {"Number": 1, "Body": event_text(1), "Attributes": answered(endpoint.url, 503, BY_RETRIES, 0)}
        got = it.messages()
        expect("PeekMessages", got, [letter])
        expect("the order of the attributes", list(got[0]["Attributes"]), list(letter["Attributes"]))
        target = {"Id": "t", "Arn": endpoint.url, "RetryPolicy": {BY_RETRIES: 0}}
        it.ask("PutTargets", {"Rule": "r", "Targets": [target]})
        it.put_event()
        expect("DeliverDue", it.ask("DeliverDue"), counts(1, dropped=1))
        expect("PeekMessages", it.messages(), [letter])
        expect("DutyCounts", it.ask("DutyCounts"), {"Created": 2, "Pending": 0, "Delivered": 0, "DeadLettered": 1, "Dropped": 1})
        endpoint.expect((event_text(1), 503), (event_text(2), 503))


DELIVERED = [200, 201, 204, 299]
ENDED = [101, 103, 300, 301, 400, 401, 404, 408, 410, 413, 425, 499, 600]
RETRIED = [409, 429, 500, 502, 503, 504, 599]


def each_code():
    """Which codes deliver, which end a delivery at once, and after which it stays pending."""
    codes = DELIVERED + ENDED + RETRIED
    with Endpoint(*codes) as endpoint, session(NOW) as it:
        for first in range(0, len(codes), 4):
            it.put_rule(f"r{first:02}", [(str(place), endpoint.url, {}) for place in range(min(4, len(codes) - first))])
        it.put_event()
        expect("DeliverDue", it.ask("DeliverDue", {"Budget": 3}), counts(3, delivered=3))
        wanted = counts(len(codes) - 3, delivered=len(DELIVERED) - 3, dead_lettered=len(ENDED))
        expect("DeliverDue", it.ask("DeliverDue"), wanted)
        expect("DeliverDue", it.ask("DeliverDue"), counts(0))
        got = [(it["Body"], it["Attributes"]) for it in it.messages()]
        rules = [f"r{codes.index(it) // 4 * 4:02}" for it in ENDED]
        expect("PeekMessages", got, [(event_text(1), answered(endpoint.url, it, "", 0, rule)) for it, rule in zip(ENDED, rules)])
        wanted = {"Created": len(codes), "Pending": len(RETRIED), "Delivered": len(DELIVERED), "DeadLettered": len(ENDED), "Dropped": 0}
        expect("DutyCounts", it.ask("DutyCounts"), wanted)
        endpoint.expect(*((event_text(1), it) for it in codes))


def the_documented_run():
    """The first run with an endpoint of docs/OPERATING.md, byte for byte, at another port of four digits."""
    queue = "arn:aws:sqs:us-east-1:111122223333:d"
    bodies = [
        f'{{"QueueArn":"{queue}"}}',
        '{"RuleArn":"arn:aws:events:us-east-1:111122223333:rule/r"}',
        '{"FailedEntryCount":0,"FailedEntries":[]}',
        '{"FailedEntryCount":0,"Entries":[{"EventId":"00000000-0000-8000-8000-000000000001"}]}',
        '{"Attempts":1,"Delivered":1,"DeadLettered":0,"Dropped":0}',
    ]
    head = "HTTP/1.1 200 OK\r\nContent-Type: application/x-amz-json-1.1\r\nContent-Length: {}\r\n\r\n"
    wanted = "".join(head.format(len(it)) + it for it in bodies).encode()
    with a_four_digit_endpoint(200) as endpoint:
        with open(DELIVERY, "rb") as file:
            asked = file.read().replace(b":9000/", b":%d/" % endpoint.port)
        ran = subprocess.run([*COMMAND, "once", "--now", str(NOW)], input=asked, capture_output=True, timeout=60)
        expect("the replies", (ran.stdout, ran.stderr, ran.returncode), (wanted, b"", 0))
        text = event_text(1, "Order", "shop.orders").replace('"detail":{}', '"detail":{"total":12.50}')
        endpoint.expect((text, 200))


def a_four_digit_endpoint(*codes):
    for port in random.sample(range(2_000, 9_000), 50):
        try:
            return Endpoint(*codes, port=port)
        except Failure:
            continue
    raise Failure("50 ports of four digits are taken")


# ---- By the system's clock


def two_codes(codes, wanted, letters):
    with Endpoint(*codes) as endpoint, session() as it:
        it.put_rule("r", [("t", endpoint.url, {})])
        it.put_event()
        expect("the sums of DeliverDue", deliver(it, 1), wanted)
        got = it.messages()
        expect("PeekMessages", [it["Attributes"] for it in got], [answered(endpoint.url, *letter) for letter in letters])
        ended = {key: wanted[key] for key in ("Delivered", "DeadLettered", "Dropped")}
        expect("DutyCounts", it.ask("DutyCounts"), {"Created": 1, "Pending": 0, **ended})
        texts = [event_text(1, time=json.loads(line)["time"]) for line in endpoint.lines if line.startswith("{")]
        expect("the texts of both requests", len(set(texts)), 1)
        endpoint.expect(*((texts[0], code) for code in codes))


def a_retry_is_delivered():
    two_codes([429, 200], counts(2, delivered=1), [])


def a_retry_ends_it():
    two_codes([409, 404], counts(2, dead_lettered=1), [(404, "", 1)])


def a_failed_send_then_200():
    """Nobody listens at first."""
    with session() as it:
        with socket.socket() as reserved:
            reserved.bind(("127.0.0.1", 0))
            port = reserved.getsockname()[1]
            it.put_rule("r", [("t", f"http://127.0.0.1:{port}/x", {})])
            it.put_event()
            expect("DeliverDue", it.ask("DeliverDue", {"Budget": 1}), counts(1))
        with Endpoint(200, port=port):
            expect("the sums of DeliverDue", deliver(it, 1), counts(1, delivered=1))
        expect("DutyCounts", it.ask("DutyCounts"), {"Created": 1, "Pending": 0, "Delivered": 1, "DeadLettered": 0, "Dropped": 0})


def two_retries():
    """The script of docs/OPERATING.md."""
    with Endpoint(503) as endpoint:
        environment = {**os.environ, "EBUSD": COMMAND[0]}
        ran = subprocess.run([*RETRY, str(endpoint.port)], env=environment, capture_output=True, text=True, timeout=120)
        expect("the status of retry.sh", (ran.returncode, ran.stderr), (0, ""))
        lines = ran.stdout.splitlines()
        expect("the sums of retry.sh", lines[-2:-1], ["in all 3 attempts, 0 delivered, 1 dead-lettered, 0 dropped"])
        letter = json.loads(lines[-1])["Messages"][0]
        expect("the message of retry.sh", letter["Attributes"], answered(endpoint.url, 503, BY_RETRIES, 2))
        endpoint.expect(*[(letter["Body"], 503)] * 3)


def delays_grow():
    """With an age of 60 seconds there are six attempts, after 0, 1, 3, 7, 15 and 31 seconds, none of them early; a seventh would be too late."""
    with Endpoint(503) as endpoint, session() as it:
        it.put_rule("r", [("t", endpoint.url, {BY_AGE: AGE})])
        it.put_event()
        made, ended, end = [], 0, time.monotonic() + AGE
        while not ended and time.monotonic() < end:
            before = int(time.time())
            got = it.ask("DeliverDue")
            made += [(before, int(time.time()))] * got["Attempts"]
            ended += got["DeadLettered"]
            time.sleep(0.1)
        expect("the numbers of attempts and of dead letters", (len(made), ended), (6, 1))
        gaps = [after - before for (before, _), (_, after) in zip(made, made[1:])]
        if any(gap < wanted for gap, wanted in zip(gaps, (1, 2, 4, 8, 16))) or not 31 <= made[-1][1] - made[0][0] < 40:
            raise Failure(f"the six attempts were {gaps} s apart, and 1, 2, 4, 8 and 16 s are wanted")
        expect("PeekMessages", [it["Attributes"] for it in it.messages()], [answered(endpoint.url, 503, BY_AGE, 5)])


def a_step_too_late():
    """One delivery is attempted, another is not. After 61 seconds both are too old, and nothing is sent."""
    with Endpoint(503, 200) as endpoint, session() as it:
        it.put_rule("r", [("1", endpoint.url, {BY_AGE: AGE}), ("2", endpoint.url, {BY_AGE: AGE})])
        it.put_event()
        accepted = time.time()
        expect("DeliverDue", it.ask("DeliverDue", {"Budget": 1}), counts(1))
        while int(time.time()) <= int(accepted) + AGE:
            time.sleep(0.1)
        expect("DeliverDue", it.ask("DeliverDue"), counts(2, dead_lettered=2))
        wanted = [
            attributes(endpoint.url, "NO_ATTEMPT", "No attempt was made.", BY_AGE, "0"),
            answered(endpoint.url, 503, BY_AGE, 0),
        ]
        got = it.messages()
        expect("PeekMessages", [it["Attributes"] for it in got], wanted)
        endpoint.expect((got[1]["Body"], 503))


def a_retry_in_order():
    """A retry that is due at a second comes after a delivery of the second before, and before one made at it."""
    for _ in range(5):
        kinds, seconds = kinds_in_order()
        if seconds == [0, 0, 1]:
            expect("the order of what is sent", kinds, ["a", "b", "a", "c"])
            return
    raise Failure("in five tries the machine was too slow to make two events in one second, and one in the next")


def kinds_in_order():
    """The kinds of event as they were sent, and the second in which each was made, from the first one's."""
    with Endpoint(503, 200) as endpoint, session() as it:
        it.put_rule("r", [("t", endpoint.url, {})])
        time.sleep(1 - time.time() % 1)
        it.put_event("a")
        expect("DeliverDue", it.ask("DeliverDue", {"Budget": 1}), counts(1))
        it.put_event("b")
        time.sleep(1 - time.time() % 1)
        it.put_event("c")
        expect("the sums of DeliverDue", deliver(it, 3), counts(3, delivered=3))
        endpoint.wait(4)
        events = [json.loads(line) for line in endpoint.lines if line.startswith("{")]
    times = dict((event["detail-type"], int(event["time"][17:19])) for event in events)
    return [event["detail-type"] for event in events], [(times[kind] - times["a"]) % 60 for kind in "abc"]


CASES = [
    without_retries,
    each_code,
    the_documented_run,
    a_retry_is_delivered,
    a_retry_ends_it,
    a_failed_send_then_200,
    two_retries,
    delays_grow,
    a_step_too_late,
    a_retry_in_order,
]


def main():
    COMMAND.extend(command_of(sys.argv[1:]))
    return side_by_side([(it.__name__, it) for it in CASES])


if __name__ == "__main__":
    sys.exit(main())
