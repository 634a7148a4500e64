#!/usr/bin/env python3
"""Runs bin/ebusd at its limits, with inputs too large to be stored, and compares each reply with what is written here.

A text that is one byte too long for its target is dropped, or becomes an empty dead letter, and one at the limit is delivered
whole; entries of 262,144 bytes together are accepted, a body of 1,048,576 bytes is read, and larger ones are refused; a session serves
1,048,576 requests and no more; if the system gives no memory the status is 7. A run that fails has a line. The last
line is `N passed, M failed`.
"""
import json
import resource
import subprocess
import sys
import threading

EBUSD = ["bin/ebusd", "once", "--now", "1700000000"]
PROGRAM = ["crates/ebusd/out/ebusd", *EBUSD[1:]]
SECONDS = 300
TEXT_LIMIT = 1_048_576
REQUEST_LIMIT = 1_048_576
BODY_LIMIT = 1_048_576
ENTRIES_LIMIT = 262_144
QUEUE = "arn:aws:sqs:us-east-1:111122223333:q"
# The event's text but its source and its detail type.
ENVELOPE = (
    '{"version":"0","id":"00000000-0000-8000-8000-000000000001","detail-type":"%s","source":"%s","account":"111122223333",'
    '"time":"2023-11-14T22:13:20Z","region":"us-east-1","resources":[],"detail":{}}'
)


def message(action, body, last=False):
    close = "Connection: close\r\n" if last else ""
    return f"POST / HTTP/1.1\r\nHost: a\r\nX-Amz-Target: {action}\r\n{close}Content-Length: {len(body)}\r\n\r\n{body}".encode()


def reply(status, body, close=False):
    field = "Connection: close\r\n" if close else ""
    head = f"HTTP/1.1 {status}\r\nContent-Type: application/x-amz-json-1.1\r\nContent-Length: {len(body)}\r\n{field}\r\n"
    return (head + body).encode()


def run(pieces, command=EBUSD, memory=None):
    """What the program writes to both streams, and its status, for the pieces as its input."""
    limit = None if memory is None else lambda: resource.setrlimit(resource.RLIMIT_AS, (memory, memory))
    ran = subprocess.Popen(command, stdin=subprocess.PIPE, stdout=subprocess.PIPE, stderr=subprocess.PIPE, preexec_fn=limit)
    timer = threading.Timer(SECONDS, ran.kill)
    timer.start()

    def write():
        try:
            for piece in pieces:
                ran.stdin.write(piece)
            ran.stdin.close()
        except BrokenPipeError:
            pass

    writer = threading.Thread(target=write)
    writer.start()
    output = ran.stdout.read()
    faults = ran.stderr.read()
    writer.join()
    timer.cancel()
    return output, faults, ran.wait()


def event_of_length(wanted):
    """The source and the detail type of an event whose text has this number of bytes, and that text."""
    letters = wanted - len(ENVELOPE % ("k", ""))
    kind = "k" + "k" * (letters % 6)
    source = "\x01" * (letters // 6)
    text = ENVELOPE % (kind, "\\u0001" * len(source))
    assert len(text) == wanted and len(source) + len(kind) + 2 <= 262_144
    return source, kind, text


def text_of_length(wanted, target='{"Id":"t","Arn":"%s"}' % QUEUE):
    """The requests that publish an event whose text has this number of bytes, their replies, and that text."""
    source, kind, text = event_of_length(wanted)
    entries = '{"Entries":[{"Source":%s,"DetailType":"%s","Detail":"{}"}]}' % (json.dumps(source), kind)
    assert len(entries) <= 1_048_576
    pattern = json.dumps(json.dumps({"detail-type": [kind]}, separators=(",", ":")))
    asked = [
        message("RouterLocal.CreateQueue", '{"QueueName":"q"}'),
        message("AWSEvents.PutRule", '{"Name":"r","EventPattern":%s}' % pattern),
        message("AWSEvents.PutTargets", '{"Rule":"r","Targets":[%s]}' % target),
        message("AWSEvents.PutEvents", entries),
        message("RouterLocal.DeliverDue", "{}"),
        message("RouterLocal.PeekMessages", '{"QueueName":"q"}'),
    ]
    replies = [
        reply("200 OK", '{"QueueArn":"%s"}' % QUEUE),
        reply("200 OK", '{"RuleArn":"arn:aws:events:us-east-1:111122223333:rule/r"}'),
        reply("200 OK", '{"FailedEntryCount":0,"FailedEntries":[]}'),
        reply("200 OK", '{"FailedEntryCount":0,"Entries":[{"EventId":"00000000-0000-8000-8000-000000000001"}]}'),
    ]
    return asked, replies, text


def a_text_at_the_limit_is_delivered():
    asked, replies, text = text_of_length(TEXT_LIMIT)
    body = text.replace("\\", "\\\\").replace('"', '\\"')
    replies += [
        reply("200 OK", '{"Attempts":1,"Delivered":1,"DeadLettered":0,"Dropped":0}'),
        reply("200 OK", '{"Messages":[{"Number":1,"Body":"%s","Attributes":{}}]}' % body),
    ]
    return run(asked), (b"".join(replies), b"", 0)


def a_text_past_the_limit_is_dropped_at_its_making():
    asked, replies, _text = text_of_length(TEXT_LIMIT + 1)
    replies += [
        reply("200 OK", '{"Attempts":0,"Delivered":0,"DeadLettered":0,"Dropped":0}'),
        reply("200 OK", '{"Messages":[]}'),
    ]
    return run(asked), (b"".join(replies), b"", 0)


def a_text_past_the_limit_is_an_empty_dead_letter():
    target = '{"Id":"t","Arn":"http://127.0.0.1:1/","DeadLetterConfig":{"Arn":"%s"}}' % QUEUE
    asked, replies, _text = text_of_length(TEXT_LIMIT + 1, target)
    attributes = (
        '{"RULE_ARN":"arn:aws:events:us-east-1:111122223333:rule/r","TARGET_ARN":"http://127.0.0.1:1/","ERROR_CODE":"TEXT_TOO_LONG",'
        '"ERROR_MESSAGE":"The text is over 1048576 bytes.","EXHAUSTED_RETRY_CONDITION":"","RETRY_ATTEMPTS":"0"}'
    )
    replies += [
        reply("200 OK", '{"Attempts":0,"Delivered":0,"DeadLettered":0,"Dropped":0}'),
        reply("200 OK", '{"Messages":[{"Number":1,"Body":"{}","Attributes":%s}]}' % attributes),
        reply("200 OK", '{"Created":1,"Pending":0,"Delivered":0,"DeadLettered":1,"Dropped":0}'),
    ]
    return run([*asked, message("RouterLocal.DutyCounts", "{}")]), (b"".join(replies), b"", 0)


def entries_have_their_limit_together():
    """The size of an entry without time and resources is that of its source, detail type and detail: here one byte, one byte, and the rest."""
    asked = []
    for size in (ENTRIES_LIMIT, ENTRIES_LIMIT + 1):
        detail = json.dumps('{"a":"%s"}' % ("x" * (size - 10)))
        asked.append(message("AWSEvents.PutEvents", '{"Entries":[{"Source":"k","DetailType":"d","Detail":%s}]}' % detail))
    replies = [
        reply("200 OK", '{"FailedEntryCount":0,"Entries":[{"EventId":"00000000-0000-8000-8000-000000000001"}]}'),
        reply("400 Bad Request", '{"__type":"ValidationException","message":"The request is over 262144 bytes."}'),
    ]
    return run(asked), (b"".join(replies), b"", 0)


def a_body_has_its_limit():
    asked = [message("RouterLocal.DutyCounts", "{%s}" % (" " * (size - 2))) for size in (BODY_LIMIT, BODY_LIMIT + 1)]
    replies = [
        reply("200 OK", '{"Created":0,"Pending":0,"Delivered":0,"DeadLettered":0,"Dropped":0}'),
        reply("413 Payload Too Large", '{"__type":"TooLarge","message":"The body is over 1048576 bytes."}', close=True),
    ]
    return run(asked), (b"".join(replies), b"ebusd: message refused\n", 11)


def a_session_ends_after_its_last_request():
    one = message("RouterLocal.Nothing", "")
    block = 4096
    pieces = (one * block for _ in range(REQUEST_LIMIT // block + 1))
    unknown = '{"__type":"UnknownOperationException","message":"Unknown operation."}'
    replies = reply("400 Bad Request", unknown) * (REQUEST_LIMIT - 1) + reply("400 Bad Request", unknown, close=True)
    return run(pieces), (replies, b"ebusd: request limit reached\n", 10)


def least_memory():
    """The least address space, in steps of 64 KiB, in which the program reads an empty input to its end."""
    low, high = 0, 1 << 30
    while high - low > 1 << 16:
        middle = (low + high) // 2
        try:
            is_enough = run([], PROGRAM, middle)[2] == 0
        except (OSError, subprocess.SubprocessError):
            is_enough = False
        low, high = (low, middle) if is_enough else (middle, high)
    return high


def out_of_memory_the_status_is_7():
    entries = '{"Entries":[{"Source":"%s"}]}' % ("x" * 1_000_000)
    asked = [message("RouterLocal.Nothing", ""), message("AWSEvents.PutEvents", entries)]
    unknown = '{"__type":"UnknownOperationException","message":"Unknown operation."}'
    refused = '{"__type":"NoMemory","message":"Out of memory."}'
    replies = reply("400 Bad Request", unknown) + reply("503 Service Unavailable", refused, close=True)
    return run(asked, PROGRAM, least_memory() + (1 << 18)), (replies, b"ebusd: out of memory\n", 7)


def first_difference(got, wanted):
    return next((at for at, pair in enumerate(zip(got, wanted)) if pair[0] != pair[1]), min(len(got), len(wanted)))


def main():
    passed = failed = 0
    subprocess.run(EBUSD, stdin=subprocess.DEVNULL, stdout=subprocess.DEVNULL, check=True)
    for case in (
        a_text_at_the_limit_is_delivered,
        a_text_past_the_limit_is_dropped_at_its_making,
        a_text_past_the_limit_is_an_empty_dead_letter,
        entries_have_their_limit_together,
        a_body_has_its_limit,
        a_session_ends_after_its_last_request,
        out_of_memory_the_status_is_7,
    ):
        got, wanted = case()
        whys = []
        for stream, one, other in zip(("standard output", "standard error"), got, wanted):
            if one != other:
                at = first_difference(one, other)
                whys.append(f"{stream} has {len(one)} bytes, {len(other)} are wanted, and they differ at {at}: {one[at:at + 80]!r}")
        if got[2] != wanted[2]:
            whys.append(f"the status is {got[2]}, {wanted[2]} is wanted")
        if whys:
            print(f"{case.__name__}: {'; '.join(whys)}")
            failed += 1
        else:
            passed += 1
    print(f"{passed} passed, {failed} failed")
    return 1 if failed else 0


if __name__ == "__main__":
    sys.exit(main())
