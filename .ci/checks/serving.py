"""A process of `ebusd serve`, and a client of it over a socket. For serve.py."""
import json
import random
import select
import signal
import socket
import subprocess
import threading

from mixed import Failure, read_reply
from router import CALLS
from sessions import expect

HOST = "127.0.0.1"
SECONDS = 110  # that a process may take
END_WITHIN = 10  # seconds in which a process has to end
REPLY_WITHIN = 15  # seconds in which a reply has to come, if a case says nothing else
PORTS = range(12_000, 32_000)  # outside the ports that the system gives to connections
TRIES = 5
COMMAND = []  # the program to run, and what comes before it
taken = set()  # ports of this check


def free_port():
    """A port at which nobody listens, and that no other case of this check has."""
    for port in random.sample(PORTS, 200):
        with socket.socket() as it:
            try:
                it.bind((HOST, port))
            except OSError:
                continue
        if port not in taken:
            taken.add(port)
            return port
    raise Failure("200 ports are taken")


def run(*words, stdout=subprocess.PIPE):
    """What a process that ends by itself writes to both streams, and its status."""
    ran = subprocess.run([*COMMAND, *words], stdin=subprocess.DEVNULL, stdout=stdout, stderr=subprocess.PIPE, timeout=20)
    return ran.stdout, ran.stderr, ran.returncode


class Served:
    """A process that serves. It is ended with the case by SIGTERM. Standard error has to be these lines. `words` are in place of its options,
    and if they are given with a port, of all of them. `env` is added to its environment."""

    def __init__(self, workers=3, connections=None, port=None, files=None, faults=b"", words=None, journal=None, env=None):
        self.faults = faults
        more = [] if connections is None else ["--connections", str(connections)]
        more += [] if journal is None else ["--journal", str(journal)]
        options = ["--workers", str(workers), *more] if words is None else words
        for _ in range(1 if port else TRIES):
            self.port = port or free_port()
            words = ["serve", *options] if port and words else ["serve", *options, "--port", str(self.port)]
            pipes = {"stdin": subprocess.DEVNULL, "stdout": subprocess.PIPE, "stderr": subprocess.PIPE}
            few = ["prlimit", f"--nofile={files}:"] if files else []
            added = [f"{key}={value}" for key, value in (env or {}).items()]
            self.ran = subprocess.Popen([*few, "env", "--default-signal=INT,TERM", *added, *COMMAND, *words], **pipes)
            self.timer = threading.Timer(SECONDS, self.ran.kill)
            self.timer.start()
            line = self.ran.stdout.readline()
            if line:
                expect("the first line of the output", line, b"listening %d\n" % self.port)
                return
            status, faults = self.ran.wait(), self.ran.stderr.read()
            self.timer.cancel()
            if status != 8:
                break
        raise Failure(f"{' '.join(words)} ends with status {status} and {faults[:200]!r}")

    def __enter__(self):
        return self

    def __exit__(self, fault, *_):
        try:
            if not fault:
                self.end()
        finally:
            self.ran.kill()
            self.ran.wait()
            self.timer.cancel()

    def end(self, by=signal.SIGTERM):
        """Ends the process by a signal."""
        if self.ran.poll() is None:
            self.ran.send_signal(by)
            _, status = self.over()
            expect(f"the status after {by.name}", status, -by)

    def over(self, within=END_WITHIN):
        """What the process wrote after its first line, and its status. It has to end within these seconds."""
        try:
            status = self.ran.wait(within)
        except subprocess.TimeoutExpired:
            raise Failure(f"the process has not ended within {within} s") from None
        self.timer.cancel()
        expect("standard error", self.ran.stderr.read(), self.faults)
        return self.ran.stdout.read(), status

    def client(self, **words):
        return Client(self.port, **words)


def message(action, body, *fields):
    full = next(it for it in CALLS if it.endswith("." + action))
    more = "".join(f"{it}\r\n" for it in fields)
    return f"POST / HTTP/1.1\r\nHost: a\r\nX-Amz-Target: {full}\r\n{more}Content-Length: {len(body)}\r\n\r\n".encode() + body


class Client:
    """A connection. With `again`, it is made once more if the server closed it before a reply, as an SDK does."""

    def __init__(self, port, within=REPLY_WITHIN, again=False):
        self.port, self.within, self.again = port, within, again
        self.connect()

    def connect(self):
        self.socket = socket.create_connection((HOST, self.port), timeout=self.within)
        self.file = self.socket.makefile("rb")

    def __enter__(self):
        return self

    def __exit__(self, *_):
        self.close()

    def close(self):
        self.file.close()
        self.socket.close()

    def send(self, data):
        self.socket.sendall(data)

    def reply(self, what="a request"):
        """The status and the body of the next reply."""
        try:
            reply = read_reply(self.file, "POST")
        except TimeoutError:
            raise Failure(f"{what} has no reply after {self.within} s") from None
        except ConnectionError as fault:
            raise Closed(f"{what} has no reply: {fault}") from None
        if reply is None:
            raise Closed(f"{what} has no reply: the connection ended")
        return reply

    def exchange(self, action, members=None):
        """The status and the body of the reply to a request."""
        data = message(action, json.dumps(members or {}).encode())
        try:
            try:
                self.send(data)
            except ConnectionError as fault:
                raise Closed(f"{action} cannot be sent: {fault}") from None
            return self.reply(action)
        except Closed:
            if not self.again:
                raise
        self.close()
        self.connect()
        self.send(data)
        return self.reply(action)

    def ask(self, action, members=None):
        """The value of the reply to a request that succeeds."""
        status, text = self.exchange(action, members)
        if status != 200:
            raise Failure(f"{action} gets {status} {text[:200]!r}")
        return json.loads(text)

    def rest(self, seconds):
        """The bytes until the connection ends, or a failure if it does not end within the seconds."""
        self.socket.settimeout(seconds)
        try:
            return self.file.read()
        except TimeoutError:
            raise Failure(f"the connection is open after {seconds} s") from None

    def is_quiet(self):
        """Whether the server has neither sent a byte that is not read yet nor ended the connection."""
        return not select.select([self.socket], [], [], 0)[0]


class Closed(Failure):
    """A connection that ended before a reply."""


def event_id(number):
    return f"00000000-0000-8000-8000-{number:012x}"


def put_rule(client, name, source, arn, **members):
    """A rule on the default bus with one target."""
    client.ask("PutRule", {"Name": name, "EventPattern": json.dumps({"source": [source]})})
    reply = client.ask("PutTargets", {"Rule": name, "Targets": [{"Id": "t", "Arn": arn, **members}]})
    expect("PutTargets", reply, {"FailedEntryCount": 0, "FailedEntries": []})


def put_events(client, source, count, detail="{}"):
    """The ids of that number of new events."""
    reply = client.ask("PutEvents", {"Entries": [{"Source": source, "DetailType": "b", "Detail": detail}] * count})
    expect("the failed entries", reply["FailedEntryCount"], 0)
    return [it["EventId"] for it in reply["Entries"]]
