"""Runs of the program with a journal, the stored runs with their messages, and what the checks of journals share."""
import os
import re
import shutil
import subprocess
import sys
import tempfile
import time
from concurrent.futures import ProcessPoolExecutor
from pathlib import Path

import router
from crash_images import Call
from journal_file import CLOSED, FIRST_GATE, HEADER, LONG, OPEN, checked, found_in, record
from journal_router import RecordingRouter
from mixed import Failure
from model import ENDPOINTS
from rows import value_of
from sessions import command_of

EXAMPLES, JOURNALS = Path("examples"), Path("examples/journal")
NOW = 1_700_000_000
SECONDS = 20  # that a process may take
SHOWN = 20  # failures that have a line
COMMAND = []  # the program to run
LIBRARY = []  # the path of the library that is loaded before it
PHRASES = {200: "OK", 400: "Bad Request", 500: "Internal Server Error"}
IO_ERROR = "Input/output error (os error 5)"
NO_ROOM = "No space left on device (os error 28)"


# ---- Processes


def run(words, asked=b"", **disk):
    """What a process writes to both streams, and its status. `disk` has what the library does."""
    env = {**os.environ, **{f"DISK_{key.upper()}": str(value) for key, value in disk.items()}}
    if disk:
        env["LD_PRELOAD"] = LIBRARY[0]
    ran = subprocess.run([*COMMAND, *map(str, words)], input=asked, capture_output=True, timeout=SECONDS, check=False, env=env)
    return ran.stdout, ran.stderr, ran.returncode


def once(path, asked, now=NOW, **disk):
    return run(["once", "--journal", path, "--now", now], asked, **disk)


def check(path, **disk):
    output, faults, status = run(["check", "--journal", path], **disk)
    return status, output, faults


def disk_failed(path, *reasons):
    """What a process writes to standard error after calls of its disk failed."""
    return "".join([*(f"ebusd: journal {path}: {it}\n" for it in reasons), "ebusd: disk failed\n"]).encode()


class Room:
    """A folder for the files of one task, in memory if there is such a place."""

    def __enter__(self):
        place = "/dev/shm" if os.access("/dev/shm", os.W_OK) else None
        self.path = Path(tempfile.mkdtemp(dir=place, prefix="ebusd-journal-"))
        return self.path

    def __exit__(self, *_):
        shutil.rmtree(self.path, ignore_errors=True)


class Cases:
    """Counts what holds, and keeps what does not."""

    def __init__(self):
        self.passed, self.failures = 0, []

    def meets(self, name, found, wanted):
        if found == wanted:
            self.passed += 1
        else:
            found, wanted = str(found), str(wanted)
            begin = max(len(os.path.commonprefix([found, wanted])) - 60, 0)
            self.failures.append(f"{name}: {found[begin : begin + 300]}, and {wanted[begin : begin + 300]} is wanted")

    def finds(self, name, path, file, **disk):
        """`check` says of these bytes what the model says, and does not change them."""
        path.write_bytes(file)
        self.meets(name, check(path, **disk), checked(file))
        self.meets(f"{name}, the file afterwards", path.read_bytes() == file, True)

    def crashes(self, name, path, file, images):
        """`check` finds in these images the batches that are on the disk for sure, or those that a read gives."""
        allowed = {records_of(it) for it in (file.durable, file.now)}
        for number, image in enumerate(images):
            self.finds(f"{name}, image {number}", path, image)
            self.meets(f"{name}, image {number}, its batches", records_of(image) in allowed, True)


def records_of(file):
    """How many records the model finds in a file, or why it is refused."""
    tables, why = found_in(file)
    return why or tables.records


def build_library(folder):
    """Builds disk_calls.c with the first C compiler that is here."""
    compiler = next((it for it in ("gcc", "clang", "cc") if shutil.which(it)), None)
    if compiler is None:
        raise Failure("there is no C compiler for disk_calls.c")
    path = os.path.join(folder, "disk_calls.so")
    subprocess.run([compiler, "-O2", "-shared", "-fPIC", "-pthread", "-o", path, ".ci/checks/disk_calls.c"], check=True)
    return path


# ---- Messages and replies


class Message:
    """A message of a run's input: its bytes, with what is before its head."""

    def __init__(self, text, head, body):
        lines = head.decode("latin-1").split("\r\n")
        fields = {name.lower(): value.strip() for name, _, value in (line.partition(":") for line in lines[1:])}
        self.text, self.method, self.body = text, lines[0].partition(" ")[0], body
        self.action, self.caller = fields.get("x-amz-target"), fields.get("x-caller-account")

    def answered_by(self, model):
        value = value_of(self.body.decode(errors="replace")) if self.body else {}
        return model.answer(self.method, self.action, self.caller, value)


def messages(text):
    """The whole messages that a text begins with."""
    at, found = 0, []
    while head := re.compile(rb"(?:\r\n)*((?:[^\r\n]+\r\n)+)\r\n").match(text, at):
        length = re.search(rb"(?i)\r\ncontent-length: *([0-9]+)", head[1])
        end = head.end() + int(length[1] if length else 0)
        if end > len(text):
            break
        found.append(Message(text[at:end], head[1], text[head.end() : end]))
        at = end
    return found


def replies_to(asked, text):
    """The bytes of each reply to these messages, up to one that closes, and whether one does."""
    found, at = [], 0
    for it in asked:
        end = text.find(b"\r\n\r\n", at)
        if end < 0:
            break
        head = text[at:end]
        length = int(re.search(rb"\r\nContent-Length: ([0-9]+)", head)[1])
        after = end + 4 + (0 if it.method == "HEAD" else length)
        found.append(text[at:after])
        at = after
        if b"\r\nConnection: close" in head:
            return found, True
    return found, False


def message(action, body):
    full = next(it for it in router.CALLS if it.endswith("." + action))
    return f"POST / HTTP/1.1\r\nHost: a\r\nX-Amz-Target: {full}\r\nContent-Length: {len(body)}\r\n\r\n{body}".encode()


def reply(status, body):
    head = f"HTTP/1.1 {status} {PHRASES[status]}\r\nContent-Type: application/x-amz-json-1.1\r\nContent-Length: {len(body)}\r\n\r\n"
    return (head + body).encode()


# ---- Stored runs


class StoredRun:
    """A stored run of `once --now`, its messages that get a reply and leave the session open, and one that closes it."""

    def __init__(self, name):
        path = EXAMPLES / f"{name}.http"
        self.name, self.asked = name, path.read_bytes()
        self.now = int(path.with_suffix(".words").read_text().split()[2])
        self.replies, self.faults = (path.with_suffix(it).read_bytes() for it in (".replies", ".faults"))
        self.status = int(path.with_suffix(".status").read_text())
        asked = messages(self.asked)
        self.parts, closes = replies_to(asked, self.replies)
        self.messages = asked[: len(self.parts) - closes]
        # The message that asks to close, if it is carried out.
        self.closing = asked[len(self.parts) - 1 : len(self.parts)] if closes and self.parts[-1].startswith(b"HTTP/1.1 200 ") else []
        self.parts = self.parts[: len(self.messages)]

    def model(self):
        """The model after the run, and how many batches there were after each of these messages."""
        model, counts = RecordingRouter(self.now), []
        for it in self.messages:
            it.answered_by(model)
            counts.append(len(model.payloads))
        for it in self.closing:
            it.answered_by(model)
        return model, counts


def stored_runs():
    """The names of the stored runs of `once --now`."""
    for path in sorted(EXAMPLES.glob("*.http")):
        if re.fullmatch(rb"once\n--now\n(0|[1-9][0-9]*)\n", path.with_suffix(".words").read_bytes()):
            yield path.stem


def calls_of(payloads):
    """The calls that a disk gets while these batches are appended, one after the other, to a file that is new."""

    def wrote(at, data):
        return [Call("w", at, len(data), data), Call("s", 0, 0, b"")]

    gate, calls = FIRST_GATE, [Call("s", 0, 0, b""), *wrote(0, HEADER + CLOSED)]
    for it in payloads:
        calls += wrote(gate + 1, LONG.put(len(it)) + it + CLOSED) + wrote(gate, OPEN)
        gate += len(record(it))
    return calls


# ---- All tasks of a check


def timed(function, arguments):
    began = time.monotonic()
    try:
        cases = function(*arguments)
    except Exception as fault:
        cases = Cases()
        cases.failures.append(str(fault) if isinstance(fault, Failure) else repr(fault))
    return cases, time.monotonic() - began


def begin(words):
    """Sets the program to run, which the words may name."""
    router.ENDPOINTS += ENDPOINTS
    COMMAND.extend(os.path.abspath(it) if os.path.exists(it) else it for it in command_of(words))


def make(tasks, more=0):
    """Makes tasks, each a name, a function and its arguments, as many at once as there are processors, and some more. Prints what fails, and
    returns the status."""
    passed, failures = 0, []
    with tempfile.TemporaryDirectory() as folder:
        LIBRARY.append(build_library(folder))
        with ProcessPoolExecutor((os.cpu_count() or 1) + more) as pool:
            made = [(name, pool.submit(timed, function, arguments)) for name, function, arguments in tasks]
            for name, it in made:
                cases, seconds = it.result()
                passed += cases.passed
                failures += [f"{name}: {line}" for line in cases.failures]
                if os.environ.get("JOURNAL_TIMES"):
                    print(f"{name}: {cases.passed} in {seconds:.1f} s", file=sys.stderr)
    for line in failures[:SHOWN]:
        print(line)
    if len(failures) > SHOWN:
        print(f"and {len(failures) - SHOWN} more")
    print(f"{passed} passed, {len(failures)} failed")
    return 1 if failures else 0
