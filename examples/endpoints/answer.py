#!/usr/bin/env python3
"""An HTTP endpoint that prints each request that it gets, and answers with the codes given.

    answer.py 9000 503 503 200     answers 503, then 503, then 200 for ever

It listens on 127.0.0.1 alone, at the port given, or at a free one if that is 0. It ends after an hour, or earlier after the number of
requests of --requests or the seconds of --seconds. A connection that has not sent a whole request after 5 seconds, or
that ends before, is closed without an answer and counts as none.
"""
import argparse
import http
import socket
import sys
import time

PATIENCE = 5  # seconds that a connection has for its request


def read_request(connection):
    """The head and the body of the request. Raises OSError if it does not come whole."""
    end = time.monotonic() + PATIENCE
    got = b""

    def more():
        connection.settimeout(max(end - time.monotonic(), 0.001))
        piece = connection.recv(65_536)
        if not piece:
            raise OSError("the connection ended")
        return piece

    while b"\r\n\r\n" not in got:
        got += more()
    head, body = got.split(b"\r\n\r\n", 1)
    lengths = [value for name, _, value in (it.partition(b":") for it in head.split(b"\r\n")[1:]) if name.lower() == b"content-length"]
    length = int(lengths[0]) if lengths else 0
    while len(body) < length:
        body += more()
    return head, body


def reply(code):
    phrase = http.HTTPStatus(code).phrase if code in list(http.HTTPStatus) else ""
    return f"HTTP/1.1 {code} {phrase}\r\nConnection: close\r\n\r\n".encode()


def a_code(word):
    code = int(word)
    if not 100 <= code <= 999:
        raise ValueError
    return code


def say(text):
    print(text, flush=True)


def serve(listener, codes, requests, end):
    """Answers until the time is over or that number of requests was answered."""
    number = 0
    while number < requests and time.monotonic() < end:
        listener.settimeout(max(end - time.monotonic(), 0.001))
        try:
            connection, _ = listener.accept()
        except TimeoutError:
            return
        with connection:
            try:
                head, body = read_request(connection)
                code = codes[min(number, len(codes) - 1)]
                connection.sendall(reply(code))
            except (OSError, ValueError) as fault:
                say(f"a connection without a request: {fault}\n")
                continue
        number += 1
        lines = head.decode(errors="replace").replace("\r\n", "\n")
        say(f"{lines}\n\n{body.decode(errors='replace')}\nanswered {code}\n")


def main():
    words = argparse.ArgumentParser(description="Prints each request that it gets, and answers with the codes given.")
    words.add_argument("port", type=int, help="the port on 127.0.0.1; 0 takes a free one")
    words.add_argument("code", type=a_code, nargs="+", help="the codes of the answers, in order; the last one is repeated")
    words.add_argument("--requests", type=int, default=1_000_000, help="end after this number of requests")
    words.add_argument("--seconds", type=float, default=3_600, help="end after this number of seconds (3600)")
    given = words.parse_args()
    end = time.monotonic() + given.seconds
    try:
        listener = socket.create_server(("127.0.0.1", given.port))
    except (OSError, OverflowError) as fault:
        print(f"answer.py: port {given.port}: {fault}", file=sys.stderr)
        return 1
    with listener:
        say(f"listening on 127.0.0.1:{listener.getsockname()[1]}\n")
        serve(listener, given.code, given.requests, end)
    return 0


if __name__ == "__main__":
    try:
        sys.exit(main())
    except KeyboardInterrupt:
        sys.exit(130)
