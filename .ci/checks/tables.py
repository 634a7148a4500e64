#!/usr/bin/env python3
r"""Makes the requests of examples/tables/*.rows, and compares each reply with its row. A word names another program to run.

A file is about one crate. A line `# ..` is a comment. A line `== NAME, N rows` begins a table: a run of `once` of its own, whose rows
are requests in turn. A row is `OPERATION|BODY|WANTED`. The operation is the whole value of X-Amz-Target; `-` leaves the field out. The
body is what lies between the first `|` and the last. Wanted is one of these:

    nothing              the message and its members are not refused
    {..}                 the body of a reply with status 200
    KIND TEXT            a refusal of this kind (ValidationException, BadHead ..) with this message, and the status of its kind
    TEXT                 a refusal with this message

Other lines of a table, each about the rows after it but for the last:

    @caller N            the field x-caller-account; without N there is none
    @now N               the reading of the clock, before the first row
    @endpoint CODE..     before the first row: `<endpoint>` is the URL of an endpoint that answers with these codes in turn
    + OPERATION|BODY     a request that is no row of the table, and has a reply with status 200
    = R C E P            the numbers of records, of changes of the configuration, of events and of pending deliveries after the rows before it,
                         by the last lines of `serve` with one worker, which is sent the same requests in one connection

A row of bytes is `KIND|BYTES|WANTED`, and a run of its own, after the requests of its table that are no rows. Its kind is one of these:

    message              one message, after which another one is answered
    last                 one message whose reply closes the connection, so that another one is not answered
    refused              without their last byte the bytes end inside a message; with it they are refused, also if a message follows
    refused within       the same, but they may be refused before the last byte
    part                 the bytes end inside a message; nothing is wanted
    between              the bytes end between messages; nothing is wanted
    cut                  a message that comes once for each of its bytes, in two pieces of which the second begins there
    pieces N             a message that comes three times, each time in pieces of N bytes, and CR LF after it as one more piece

A line `== NAME, N rows of KIND` begins a table of a kind of table_kinds.py, which says what its rows are.

A piece is written once the program has read the one before. `<TEXT*N>` in a body or in bytes is TEXT n times; `\r`, `\n` and `\xHH` in
bytes are one byte. The last line is `N passed, M failed`.
"""
import array
import contextlib
import fcntl
import json
import re
import subprocess
import sys
import tempfile
import termios
import threading
import time
from concurrent.futures import ThreadPoolExecutor
from pathlib import Path

import serving
from endpoints import Endpoint
from sessions import command_of
from table_kinds import KINDS

TABLES = Path("examples/tables")
NOW = 1_700_000_000
SECONDS = 240  # that a run may take
HEAD = re.compile(r"== ([a-z0-9_]+), (\d+) rows?(?: of ([a-z ]+))?")
OF_BYTES = re.compile(r"message|last|refused( within)?|part|between|cut|pieces \d+")
REPEATED = re.compile(r"<([^<>*]+)\*(\d+)>")
ESCAPE = re.compile(rb"\\(r|n|x[0-9a-f]{2})")
KIND = re.compile(r"((?:[A-Z][a-z]+){2,}) (.*)")
STATUS_OF = {"NotPost": 405, "LengthRequired": 411, "TooLarge": 413, "HeadTooLarge": 431, "NoMemory": 503}
OF_THE_MESSAGE = re.compile(
    r"Member \S+ is (not valid|required)\.|The body is not a JSON object\.|Unknown operation\.|Only the owner may call this\.|"
    r"(Event pattern|Policy) is not valid\. .*"
)
ANOTHER = b"POST / HTTP/1.1\r\nHost: a\r\nX-Amz-Target: RouterLocal.DutyCounts\r\nContent-Length: 0\r\n\r\n"
INSIDE = (9, b"ebusd: input ended inside a message\n")
REFUSED = (11, b"ebusd: message refused\n")
DONE = (0, b"")
COMMAND = []  # the program to run


class Wrong(Exception):
    """Why a row fails."""


class Reply:
    def __init__(self, status, body, closes):
        self.status, self.body, self.closes = status, body, closes

    def expect(self, wanted):
        refusal = json.loads(self.body) if self.status != 200 else {}
        kind, message = refusal.get("__type"), refusal.get("message")
        if wanted is None or wanted.startswith("{"):
            is_wanted = self.status == 200 and (wanted is None or self.body == wanted)
        elif not wanted:
            is_wanted = not OF_THE_MESSAGE.fullmatch(message or "")
        elif found := KIND.fullmatch(wanted):
            is_wanted = (kind, message) == found.groups() and self.status == STATUS_OF.get(kind, 400)
        else:
            is_wanted = message == wanted and self.status == STATUS_OF.get(kind, 400)
        if not is_wanted:
            raise Wrong(f"status {self.status}, {self.body}")


def repeated(text):
    return REPEATED.sub(lambda it: it[1] * int(it[2]), text)


def bytes_of(text):
    return ESCAPE.sub(lambda it: {b"r": b"\r", b"n": b"\n"}.get(it[1]) or bytes([int(it[1][1:], 16)]), text.encode())


def wait_until_read(ran):
    """Waits until the program has read what was written, or has ended."""
    left = array.array("i", [1])
    while left[0] and ran.poll() is None:
        fcntl.ioctl(ran.stdin, termios.FIONREAD, left)
        time.sleep(0.0002 if left[0] else 0)


def run(now, pieces, end=DONE):
    """The replies to an input of these pieces, in a run that has to end so."""
    with tempfile.TemporaryFile() as written, tempfile.TemporaryFile() as faults:
        words = [*COMMAND, "once", "--now", str(now)]
        with subprocess.Popen(words, stdin=subprocess.PIPE, stdout=written, stderr=faults, bufsize=0) as ran:
            timer = threading.Timer(SECONDS, ran.kill)
            timer.start()
            with contextlib.suppress(BrokenPipeError):
                for piece in pieces:
                    while piece:
                        piece = piece[ran.stdin.write(piece) :]
                    wait_until_read(ran)
            ran.stdin.close()
            status = ran.wait()
            timer.cancel()
        written.seek(0), faults.seek(0)
        replies, ended = list(replies_in(written.read())), (status, faults.read())
    if ended != end:
        raise Wrong(f"the run ended with {ended} after {len(replies)} replies")
    return replies


def replies_in(rest):
    while rest:
        head, _, rest = rest.partition(b"\r\n\r\n")
        length = int(re.search(rb"(?i)\r\ncontent-length: (\d+)", head)[1])
        yield Reply(int(head.split(b" ")[1]), rest[:length].decode(), b"\r\nConnection: close" in head)
        rest = rest[length:]


class Table:
    def __init__(self, file, name, count, kind):
        self.file, self.name, self.count, self.rows = file, name, int(count), 0
        self.kind = KINDS[kind]() if kind else None
        self.now, self.caller, self.codes = NOW, None, []
        self.requests = []  # the text of a line, the request, and what is wanted; None for a request that is no row
        self.of_bytes = []  # the text of a line, its kind, the bytes, and what is wanted
        self.numbers = []  # the number of requests before a line of numbers, and the numbers

    def add(self, line):
        if line.startswith("@caller"):
            self.caller = line[7:].strip() or None
        elif line.startswith("@now "):
            self.now = int(line[5:])
        elif line.startswith("@endpoint "):
            self.codes = line.split()[1:]
        elif line.startswith("= "):
            self.numbers.append((len(self.requests), line[2:].split()))
        elif self.kind and not line.startswith("+ "):
            asked = list(self.kind.requests(repeated(line)))
            self.requests += [(line, request, wanted) for *request, wanted in asked]
            self.rows += any(wanted is not None for *_, wanted in asked)
        else:
            is_row = not line.startswith("+ ")
            self.rows += is_row
            first, _, rest = line.removeprefix("+ ").partition("|")
            body, _, wanted = rest.rpartition("|") if is_row else (rest, "", None)
            body = repeated(body)
            if OF_BYTES.fullmatch(first):
                self.of_bytes.append((line, first, bytes_of(body), wanted))
            else:
                self.requests.append((line, (first, self.caller, body), wanted if is_row else None))

    def messages(self, url, of=None):
        """The messages of the first requests, or of all of them."""
        for _, (operation, caller, body), _ in self.requests[:of]:
            fields = "" if operation == "-" else f"X-Amz-Target: {operation}\r\n"
            fields += "" if caller is None else f"x-caller-account: {caller}\r\n"
            body = body.replace("<endpoint>", url).encode()
            yield f"POST / HTTP/1.1\r\nHost: localhost\r\n{fields}Content-Length: {len(body)}\r\n\r\n".encode() + body

    @contextlib.contextmanager
    def endpoint(self):
        """The URL of a new endpoint, or nothing if the table has none."""
        if self.codes:
            with Endpoint(*self.codes) as endpoint:
                yield endpoint.url
        else:
            yield ""

    def checked(self):
        """For each row, line of numbers and other request, why it fails, or nothing."""
        if self.rows != self.count or not self.rows:
            yield f"it has {self.rows} rows, and {self.count} are wanted"
        with self.endpoint() as url:
            yield from self.why("its requests", self.check_requests, url)
            for line, kind, given, wanted in self.of_bytes:
                yield from self.why(line, self.check_bytes, kind, given, wanted)
        for of, wanted in self.numbers:
            yield from self.why(f"the numbers after {self.requests[of - 1][0]}", self.check_numbers, of, wanted)

    def why(self, what, check, *words):
        try:
            yield from check(*words) or [""]
        except (Wrong, serving.Failure, OSError, subprocess.SubprocessError, ValueError, TypeError) as fault:
            yield f"{what}: {fault!r}"

    def check_requests(self, url):
        replies = run(self.now, [b"".join(self.messages(url))])
        if len(replies) != len(self.requests):
            raise Wrong(f"{len(replies)} replies to {len(self.requests)} requests")
        for (line, _, wanted), reply in zip(self.requests, replies):
            yield from self.why(line[:200], reply.expect, wanted and wanted.replace("<endpoint>", url))

    def check_bytes(self, kind, given, wanted):
        before = list(self.messages(""))

        def expect(count, pieces, end=DONE):
            replies = run(self.now, [*before, *pieces], end)[len(before) :]
            if len(replies) != count:
                raise Wrong(f"{len(replies)} replies, and {count} are wanted")
            return replies

        if kind == "message":
            first, another = expect(2, [given + ANOTHER])
            first.expect(wanted)
            another.expect(None)
            closes = [first.closes] != [False]
        elif kind in ("part", "between"):
            expect(0, [given], INSIDE if kind == "part" else DONE)
            closes = wanted != ""
        elif kind == "cut":
            replies = expect(len(given), [it for at in range(len(given)) for it in (given[:at], given[at:])])
            closes = any(it.closes or it.expect(wanted) for it in replies)
        elif kind.startswith("pieces "):
            size = int(kind[7:])
            pieces = [*(given[at : at + size] for at in range(0, len(given), size)), b"\r\n"]
            closes = any(it.closes or it.expect(wanted) for it in expect(3, pieces * 3))
        else:
            if kind == "refused":
                expect(0, [given[:-1]], INSIDE if given[1:] else DONE)
            ended = DONE if kind == "last" else REFUSED
            replies = [expect(1, [given + after], ended)[0] for after in (b"", ANOTHER)]
            closes = any(not it.closes or it.expect(wanted) for it in replies)
        if closes:
            raise Wrong("its reply closes the connection, or does not, or nothing is wanted of it")

    def check_numbers(self, of, wanted):
        with self.endpoint() as url, serving.Served(workers=1, connections=1) as served:
            with served.client() as client:
                client.send(b"".join(self.messages(url, of)))
                client.socket.shutdown(serving.socket.SHUT_WR)
                count = len(list(replies_in(client.file.read())))
            lines, status = served.over()
        found = re.match(rb"records (\d+) entries \d+ control (\d+)\nevents (\d+) .*\nduties \d+ pending (\d+) ", lines)
        numbers = [it.decode() for it in found.groups()] if found else []
        if (numbers, count, status) != (wanted, of, 0):
            raise Wrong(f"{' '.join(numbers)} after {count} replies, status {status}")


def tables_in(file):
    found = []
    for line in file.read_text(encoding="utf-8").splitlines():
        if line.startswith("== "):
            head = HEAD.fullmatch(line)
            if not head:
                raise SystemExit(f"{file.name}: a table begins with `== NAME, N rows`, not with `{line}`")
            found.append(Table(file.name, *head.groups()))
        elif line and not line.startswith("# "):
            if not found:
                raise SystemExit(f"{file.name}: a row before the first table: {line}")
            found[-1].add(line)
    return found


def main():
    COMMAND.extend(command_of(sys.argv[1:]))
    serving.COMMAND.extend(COMMAND)
    passed = failed = 0
    files = sorted(TABLES.glob("*.rows"))
    found = [tables_in(file) for file in files]
    tables = [table for tables in found for table in tables]
    with ThreadPoolExecutor(4) as pool:
        for table, reasons in zip(tables, pool.map(lambda it: list(it.checked()), tables)):
            for why in reasons:
                passed, failed = passed + (not why), failed + bool(why)
                if why:
                    print(f"{table.file}, {table.name}: {why}")
    if not all(found) or not found:
        print("tables: a file of examples/tables has no table")
        failed += 1
    print(f"{passed} passed, {failed} failed")
    return 1 if failed else 0


if __name__ == "__main__":
    sys.exit(main())
