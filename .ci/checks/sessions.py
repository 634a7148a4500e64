"""One run of `ebusd once` that is asked one request after the other, and what the checks of deliveries share."""
import json
import multiprocessing
import os
import subprocess
import threading

from mixed import EBUSD, PROGRAM, Failure, read_reply
from router import CALLS, EVENTS_ARN, QUEUE_ARN

SECONDS = 150  # that a run may take


def command_of(words):
    """The program to run: the words, or else the built program."""
    if words:
        return words
    subprocess.run([EBUSD, "once", "--now", "0"], stdin=subprocess.DEVNULL, check=True)
    return [PROGRAM if os.access(PROGRAM, os.X_OK) else EBUSD]


class Session:
    """A run, by the system's clock or with `--now`. At the end its status has to be 0, and standard error empty."""

    def __init__(self, command, now=None):
        words = [] if now is None else ["--now", str(now)]
        self.ran = subprocess.Popen([*command, "once", *words], stdin=subprocess.PIPE, stdout=subprocess.PIPE, stderr=subprocess.PIPE)
        self.timer = threading.Timer(SECONDS, self.ran.kill)
        self.timer.start()

    def __enter__(self):
        return self

    def __exit__(self, fault, *_):
        try:
            self.ran.stdin.close()
        except BrokenPipeError:
            pass
        if fault:
            self.ran.kill()
        faults = self.ran.stderr.read()
        status = self.ran.wait()
        self.timer.cancel()
        if not fault and (status or faults):
            raise Failure(f"the exit status is {status}, and standard error has {faults[:200]!r}")

    def ask(self, action, members=None):
        """The value of the reply's body to a request that succeeds."""
        body = json.dumps(members or {}).encode()
        full = next(it for it in CALLS if it.endswith("." + action))
        head = f"POST / HTTP/1.1\r\nHost: a\r\nX-Amz-Target: {full}\r\nContent-Length: {len(body)}\r\n\r\n"
        try:
            self.ran.stdin.write(head.encode() + body)
            self.ran.stdin.flush()
        except BrokenPipeError:
            raise Failure(f"the run ended before {action}") from None
        reply = read_reply(self.ran.stdout, "POST")
        if reply is None:
            raise Failure(f"{action} has no reply")
        status, text = reply
        if status != 200:
            raise Failure(f"{action} gets {status} {text[:200]!r}")
        return json.loads(text)

    def put_rule(self, name, targets, source="shop.a"):
        """A rule with targets, each its id, its ARN and the members of its retry policy. Dead letters go to queue `d`."""
        self.ask("PutRule", {"Name": name, "EventPattern": json.dumps({"source": [source]})})
        rows = [
            {"Id": it, "Arn": arn, "RetryPolicy": policy, "DeadLetterConfig": {"Arn": QUEUE_ARN + "d"}} for it, arn, policy in targets
        ]
        expect("PutTargets", self.ask("PutTargets", {"Rule": name, "Targets": rows}), {"FailedEntryCount": 0, "FailedEntries": []})

    def put_event(self, detail_type="b", source="shop.a"):
        """Makes an event with an empty detail, and returns its id."""
        entry = {"Source": source, "DetailType": detail_type, "Detail": "{}"}
        return self.ask("PutEvents", {"Entries": [entry]})["Entries"][0]["EventId"]

    def messages(self, limit=100):
        """The messages of queue `d`."""
        return self.ask("PeekMessages", {"QueueName": "d", "Limit": limit})["Messages"]


def expect(what, got, wanted):
    if got != wanted:
        raise Failure(f"{what}: {got!r}, and {wanted!r} is wanted")


def counts(attempts, delivered=0, dead_lettered=0, dropped=0):
    """The reply to a DeliverDue."""
    return {"Attempts": attempts, "Delivered": delivered, "DeadLettered": dead_lettered, "Dropped": dropped}


def attributes(arn, code, message, condition, retries, rule="r"):
    """The attributes of a dead letter."""
    return {
        "RULE_ARN": f"{EVENTS_ARN}rule/{rule}",
        "TARGET_ARN": arn,
        "ERROR_CODE": code,
        "ERROR_MESSAGE": message,
        "EXHAUSTED_RETRY_CONDITION": condition,
        "RETRY_ATTEMPTS": retries,
    }


def answered(arn, code, condition, retries, rule="r"):
    """The attributes of a dead letter whose last attempt was answered with a code."""
    return attributes(arn, f"STATUS_{code}", f"Target answered {code}.", condition, str(retries), rule)


def side_by_side(cases):
    """Makes the cases, a name and a function each, at the same time, each in a process of its own: threads of one would wait for each
    other's Python. Prints each failure, and returns the status."""
    fork = multiprocessing.get_context("fork")

    def make(case, answer):
        try:
            case()
            answer.send(None)
        except Exception as fault:
            answer.send(str(fault) if isinstance(fault, Failure) else repr(fault))

    running = []
    for name, case in cases:
        fault, answer = fork.Pipe(duplex=False)
        process = fork.Process(target=make, args=(case, answer))
        process.start()
        answer.close()
        running.append((name, process, fault))
    failed = 0
    for name, process, fault in running:
        try:
            said = fault.recv()
        except EOFError:
            said = "its process ended without a result"
        process.join()
        if said is not None:
            failed += 1
            print(f"{name}: {said}")
    print(f"{len(cases) - failed} passed, {failed} failed")
    return 1 if failed else 0
