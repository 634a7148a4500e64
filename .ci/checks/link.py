#!/usr/bin/env python3
"""Delivers to servers that answer in many ways, each in a run of its own, and compares what is recorded with what is written
here: a code, or no answer. In each case there is one attempt, whose failure becomes a dead letter.

The cases are made side by side, and the whole takes about 10 seconds. A word names another program to run. The last line is
`N passed, M failed`.
"""
import socket
import struct
import sys
import threading
import time

from limits import TEXT_LIMIT, event_of_length
from mixed import Failure
from router import QUEUE_ARN
from sessions import Session, command_of, counts, expect, side_by_side

NOW = 1_700_000_000
LIMIT = 5.0  # seconds that a send may take
LATE = 8.0  # seconds in which one that took them has to be recorded
SOON = 4.0  # seconds in which one that need not wait has to be recorded
HEADS_LIMIT = 16_384
MOST_FIELDS = 256
NO_ANSWER = "NO_ANSWER"
DELIVERED = "delivered"
COMMAND = []  # the program to run


def small_event():
    """The entry of an event, and its text."""
    text = (
        '{"version":"0","id":"00000000-0000-8000-8000-000000000001","detail-type":"b","source":"shop.a",'
        '"account":"111122223333","time":"2023-11-14T22:13:20Z","region":"us-east-1","resources":[],"detail":{}}'
    )
    return {"Source": "shop.a", "DetailType": "b", "Detail": "{}"}, text


def largest_event():
    """The same of an event whose text has as many bytes as one may have."""
    source, kind, text = event_of_length(TEXT_LIMIT)
    return {"Source": source, "DetailType": kind, "Detail": "{}"}, text


# ---- What a server does with a connection


class Peer:
    """A connection of the server. `over` is set once the delivery is recorded."""

    def __init__(self, connection, over):
        self.connection, self.over = connection, over
        connection.settimeout(20)
        self.got = b""

    def read_head(self):
        while b"\r\n\r\n" not in self.got:
            self.read()

    def read_all(self):
        """Reads one request."""
        self.read_head()
        head, body = self.got.split(b"\r\n\r\n", 1)
        length = int(head.split(b"Content-Length: ")[1].split(b"\r\n")[0])
        pieces, missing = [self.got], length - len(body)
        while missing > 0:
            piece = self.connection.recv(1 << 20)
            if not piece:
                break
            pieces.append(piece)
            missing -= len(piece)
        self.got = b"".join(pieces)

    def read(self):
        piece = self.connection.recv(65_536)
        if not piece:
            raise OSError("the connection ended")
        self.got += piece

    def send(self, data):
        self.connection.sendall(data)

    def hold(self, seconds=20):
        """Leaves the connection open."""
        self.over.wait(seconds)


def head(line, *fields):
    return "\r\n".join([f"HTTP/1.1 {line}", *fields, "", ""]).encode()


def replies(*pieces, pause=0.0):
    """Reads the request, sends these bytes, each after a pause, and closes."""

    def serve(peer):
        peer.read_all()
        for piece in pieces:
            peer.hold(pause) if pause else None
            peer.send(piece)

    return serve


def replies_and_holds(*pieces):
    """The same, but leaves the connection open."""

    def serve(peer):
        replies(*pieces)(peer)
        peer.hold()

    return serve


def refuses_unread(closes):
    """Answers 413 after the head, and reads no byte of the text."""

    def serve(peer):
        while b"\r\n\r\n" not in peer.got:
            peer.got += peer.connection.recv(1)
        peer.send(head("413 Payload Too Large", "Connection: close"))
        if not closes:
            peer.hold()

    return serve


def closes_at_once(_peer):
    pass


def resets_at_once(peer):
    peer.connection.setsockopt(socket.SOL_SOCKET, socket.SO_LINGER, struct.pack("ii", 1, 0))


def bytes_of_length(length, front=b""):
    """A final head which has, with the bytes before it, that number of bytes."""
    bare = head("200 OK", "X: ")
    return front + head("200 OK", "X: " + "x" * (length - len(front) - len(bare)))


def fields(count):
    return head("200 OK", *(f"X-{it}: x" for it in range(count)))


CONTINUE, HINTS = head("100 Continue"), head("103 Early Hints", "Link: </a>; rel=preload")
OK = head("200 OK", "Content-Length: 0")


class Case:
    """What the server does, what is recorded, and in how many seconds; the event, the endpoint's text with a `%d` for its port, and
    what its request begins with."""

    def __init__(self, serve, wanted, seconds=(0.0, SOON), event=small_event, url="http://127.0.0.1:%d/x", host="127.0.0.1", target="/x", at="127.0.0.1"):
        self.serve, self.wanted, self.seconds, self.event = serve, wanted, seconds, event
        self.url, self.host, self.target, self.at = url, host, target, at


WAITS = (LIMIT, LATE)
CASES = {
    "200": Case(replies(OK), DELIVERED),
    "299": Case(replies(head("299")), DELIVERED),
    "200 by HTTP/1.0": Case(replies(b"HTTP/1.0 200 OK\r\n\r\n"), DELIVERED),
    "503": Case(replies(head("503 Service Unavailable", "Retry-After: 1", "Content-Length: 0")), "STATUS_503"),
    "101": Case(replies_and_holds(head("101 Switching Protocols", "Upgrade: h2c")), "STATUS_101"),
    "200 whose text does not come": Case(replies_and_holds(head("200 OK", "Content-Length: 1000000000")), DELIVERED),
    "200 in chunks that do not end": Case(replies_and_holds(head("200 OK", "Transfer-Encoding: chunked"), b"5\r\nhello\r\n"), DELIVERED),
    "200 in two pieces": Case(replies(OK[:20], OK[20:], pause=0.3), DELIVERED),
    "garbage": Case(replies(b"SSH-2.0-OpenSSH_9.2\r\n\r\n"), NO_ANSWER),
    "garbage, left open": Case(replies_and_holds(b"\x00\x01\x02\x03\x04\x05\x06\x07\x08\r\n\r\n"), NO_ANSWER),
    "closed at once": Case(closes_at_once, NO_ANSWER),
    "reset at once": Case(resets_at_once, NO_ANSWER),
    "closed without a reply": Case(replies(), NO_ANSWER),
    "closed in the head": Case(replies(b"HTTP/1.1 200 OK\r\nContent-"), NO_ANSWER),
    "103, then 200": Case(replies(HINTS, OK), DELIVERED),
    "103 and 200 at once": Case(replies(HINTS + OK), DELIVERED),
    "103 and a part of 200, then its rest": Case(
        replies(b"HTTP/1.1 103 Early Hints\r\n\r\nHTTP/1.1 2", b"00 OK\r\nContent-Length: 2\r\n\r\nok", pause=0.3),
        DELIVERED,
        url="http://localhost:%d/x?a=1",
        host="localhost",
        target="/x?a=1",
    ),
    "100, 103, 103, then 503": Case(replies(CONTINUE, HINTS, HINTS, head("503 Service Unavailable")), "STATUS_503"),
    "103, then closed": Case(replies(HINTS), "STATUS_103"),
    "103, then silence": Case(replies_and_holds(HINTS), "STATUS_103", WAITS),
    "a head of 16,384 bytes": Case(replies(bytes_of_length(HEADS_LIMIT)), DELIVERED),
    "a head of 16,385 bytes": Case(replies(bytes_of_length(HEADS_LIMIT + 1)), NO_ANSWER),
    "heads of 16,384 bytes": Case(replies(bytes_of_length(HEADS_LIMIT, HINTS)), DELIVERED),
    "heads of 16,385 bytes": Case(replies(bytes_of_length(HEADS_LIMIT + 1, HINTS)), NO_ANSWER),
    "256 fields": Case(replies(fields(MOST_FIELDS)), DELIVERED),
    "257 fields": Case(replies(fields(MOST_FIELDS + 1)), NO_ANSWER),
    "413 before the text is read": Case(refuses_unread(closes=False), "STATUS_413", event=largest_event),
    "413, closed before the text is read": Case(refuses_unread(closes=True), "STATUS_413", event=largest_event),
    "a text of 1,048,576 bytes": Case(replies(OK), DELIVERED, event=largest_event),
    "200 after 2 seconds": Case(replies(OK, pause=2), DELIVERED, (2.0, LIMIT)),
    "200 after 7 seconds": Case(replies(OK, pause=7), NO_ANSWER, WAITS),
    "silence": Case(replies_and_holds(), NO_ANSWER, WAITS),
    "a byte a second": Case(replies(*(bytes([it]) for it in OK[:20]), pause=1), NO_ANSWER, WAITS),
    "localhost": Case(replies(OK), DELIVERED, url="http://localhost:%d/a?b=c&d", host="localhost", target="/a?b=c&d"),
    "localhost by ::1": Case(replies(OK), DELIVERED, url="http://localhost:%d/x", host="localhost", at="::1"),
    "an address spelled in another way": Case(replies(OK), DELIVERED, url="HTTP:\\\\127.1:%d", target="/"),
    "blanks and an empty query": Case(replies(OK), DELIVERED, url=" http://@127.0.0.1:%d/a b/../c d? ", target="/c%20d?"),
}
# An attempt that gets a redirection makes no other one.
REDIRECTED = "301"
NOBODY = "nobody there"


# ---- A case


def unheard():
    """A socket with a port of 127.0.0.1 at which nobody listens while it is open."""
    made = socket.socket()
    made.bind(("127.0.0.1", 0))
    return made, made.getsockname()[1]


class Server:
    """Serves each connection in turn. At the port of a server at ::1 nobody listens on 127.0.0.1."""

    def __init__(self, serve, at="127.0.0.1"):
        family, self.reserved, port = socket.AF_INET, None, 0
        if at == "::1":
            family = socket.AF_INET6
            self.reserved, port = unheard()
        self.listener = socket.create_server((at, port), family=family)
        self.port = self.listener.getsockname()[1]
        self.serve, self.over, self.requests = serve, threading.Event(), []
        self.thread = threading.Thread(target=self.run)
        self.thread.start()

    def run(self):
        while True:
            try:
                connection, _ = self.listener.accept()
            except OSError:
                return
            with connection:
                peer = Peer(connection, self.over)
                try:
                    self.serve(peer)
                except OSError:
                    pass
                self.requests.append(peer.got)

    def __enter__(self):
        return self

    def __exit__(self, *_):
        self.over.set()
        self.listener.shutdown(socket.SHUT_RDWR)
        self.thread.join()
        self.listener.close()
        if self.reserved:
            self.reserved.close()


def outcome(url, entry):
    """What is recorded of an event's one attempt to an endpoint, and the seconds that the DeliverDue took."""
    with Session(COMMAND, NOW) as it:
        it.ask("CreateQueue", {"QueueName": "d"})
        it.ask("PutRule", {"Name": "r", "EventPattern": '{"account":["111122223333"]}'})
        target = {"Id": "t", "Arn": url, "RetryPolicy": {"MaximumRetryAttempts": 0}, "DeadLetterConfig": {"Arn": QUEUE_ARN + "d"}}
        expect("PutTargets", it.ask("PutTargets", {"Rule": "r", "Targets": [target]}), {"FailedEntryCount": 0, "FailedEntries": []})
        expect("PutEvents", it.ask("PutEvents", {"Entries": [entry]})["FailedEntryCount"], 0)
        began = time.monotonic()
        reply = it.ask("DeliverDue")
        seconds = time.monotonic() - began
        letters = it.messages()
    if not letters:
        expect("DeliverDue", reply, counts(1, delivered=1))
        return DELIVERED, seconds
    expect("DeliverDue", reply, counts(1, dead_lettered=1))
    return letters[0]["Attributes"]["ERROR_CODE"], seconds


def expect_outcome(case, url, entry):
    recorded, seconds = outcome(url, entry)
    expect("the outcome", recorded, case.wanted)
    least, most = case.seconds
    if not least <= seconds <= most:
        raise Failure(f"DeliverDue took {seconds:.2f} s, and {least} to {most} s are wanted")


def make(case):
    entry, text = case.event()
    with Server(case.serve, case.at) as server:
        expect_outcome(case, case.url % server.port, entry)
    expect("the number of requests", len(server.requests), 1)
    if case.wanted == DELIVERED:
        fields = f"Host: {case.host}:{server.port}\r\nContent-Type: application/json\r\nContent-Length: {len(text.encode())}\r\nConnection: close\r\n"
        wanted = f"POST {case.target} HTTP/1.1\r\n{fields}\r\n{text}".encode()
        if server.requests[0] != wanted:
            at = next((it for it, pair in enumerate(zip(server.requests[0], wanted)) if pair[0] != pair[1]), "the end")
            raise Failure(f"the request is {server.requests[0][:300]!r} .., and differs at {at} from {wanted[:300]!r} ..")


def redirected():
    with Server(replies(OK)) as other:
        location = f"Location: http://127.0.0.1:{other.port}/x"
        make(Case(replies(head("301 Moved Permanently", location, "Content-Length: 0")), "STATUS_301"))
    expect("the requests after the redirection", other.requests, [])


def nobody_there():
    reserved, port = unheard()
    with reserved:
        expect_outcome(Case(None, NO_ANSWER), f"http://127.0.0.1:{port}/x", small_event()[0])


def has_ipv6():
    try:
        socket.create_server(("::1", 0), family=socket.AF_INET6).close()
    except OSError:
        return False
    return True


def main():
    COMMAND.extend(command_of(sys.argv[1:]))
    cases = [(name, lambda it=it: make(it)) for name, it in CASES.items() if it.at == "127.0.0.1" or has_ipv6()]
    return side_by_side([*cases, (REDIRECTED, redirected), (NOBODY, nobody_there)])


if __name__ == "__main__":
    sys.exit(main())
