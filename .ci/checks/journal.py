#!/usr/bin/env python3
"""Runs `once` and `serve` with `--journal`, and compares replies, journals, standard error and statuses with a model.

The model of the requests and their journal is `journal_router.py`. `disk_calls.c`, loaded before the program, notes what it does with its disk
and makes calls fail; `crash_images.py` makes from these calls the files that a crash may leave.

- Each stored run of `once`, whole and cut into two processes at each message, gives the same replies, and the model's journal byte for byte.
  So does a run of mixed requests (`mixed_requests.py`), some 4,000 of all actions, whole and cut at a few of them; and one of 2,000 that is cut
  at each fiftieth, with a clock that goes on from part to part by up to 30 days, and sometimes back.
- No reply is written before the batches of its request are on the disk for sure.
- What a crash may leave of the first run has the acknowledged batches, or also those of one append, and a further run goes on from there.
- If a call of the disk fails, or the disk is full, replies, standard error, status and what a crash may leave are as they have to be. With room
  again a further run goes on. Steps of a replay that were made before stay.
- A copy of the journal that is made meanwhile has what was replied before, and so has the journal of a run that is killed.
- A file that is no journal, is damaged or is in use is refused, and not changed.
- Archives of later runs retain what their days say, and the days of an update count from its moment. A replay repeats what was retained at its
  start.
- `serve` ends after a disk fault. examples/journal/kill.py runs meanwhile.

A word names another program to run. A case that fails has a line. The last line is `N passed, M failed`.
"""
import io
import random
import re
import shutil
import subprocess
import sys
import time
from concurrent.futures import ThreadPoolExecutor
from pathlib import Path

import mixed
from crash_images import File, calls_in, moments
from journal_file import HEADER, batch_bytes, checked, journal, records
from journal_router import RecordingRouter
from journal_runs import COMMAND, IO_ERROR, JOURNALS, LIBRARY, NO_ROOM, NOW, SECONDS, Cases, Room, StoredRun
from journal_runs import begin, calls_of, check, disk_failed, make, message, once, records_of, reply, run, stored_runs
from mixed_requests import a_request
from router import DAY, QUEUE_ARN
from serving import COMMAND as SERVED
from serving import Served, free_port

SEED = 33
PARTS = 4
SERVE_KILLS = 50
READINGS = [0, 1_900_000_000]  # of mixed requests
OVER_DAYS, PART = 2_000, 50  # requests by a clock that goes on, and how many are between two of its readings
GOES_ON = [0, 1, 3_600, DAY // 2, DAY - 1, DAY, DAY + 1, 30 * DAY - 1, 30 * DAY, -1, -DAY]  # seconds
LENGTHS, LONG_LENGTHS = range(2, 20_001, 60), [32_767, 262_144]  # bytes of their bodies
CUTS = 4
FAILED = (500, '{"__type":"InternalFailure","message":"The journal failed."}')
ONE_EVENT = '{"Entries":[{"Source":"shop.orders","DetailType":"Order","Detail":"{\\"text\\":\\"%s\\"}"}]}' % ("x" * 900)
COPIED, COPIES = 2_000, 10  # events that are put while copies are made, and the number of copies
SMALL_EVENT = '{"Entries":[{"Source":"shop.orders","DetailType":"Order","Detail":"{}"}]}'
KILLS, LIVES = 20, (0.01, 0.08)  # runs that are killed, and the shortest and the longest time in seconds from a start to its kill
MORE = message("CreateQueue", '{"QueueName":"more"}')
MORE_REPLY = reply(200, f'{{"QueueArn":"{QUEUE_ARN}more"}}')
MORE_BATCH = batch_bytes(NOW, [(9, "more")])
REFUSED = [
    ["once", "--journal", "a", "--journal", "b"],
    ["once", "--journal", ""],
    ["once", "--journal", "-x"],
    ["once", "--journal"],
    ["serve", "--journal", "a", "--journal", "b"],
    ["serve", "--journal", ""],
    ["serve", "--journal", "-x"],
    ["serve", "--journal"],
]


def journal_with_more(payloads):
    """The journal of these batches after a further run that makes a queue."""
    return journal([*payloads, MORE_BATCH])


def payloads_of(file):
    return [it for _, it in records(file) if it is not None] if len(file) > len(HEADER) + 1 else []


# ---- Stored runs, whole and cut


def cut_run(name):
    cases, stored = Cases(), StoredRun(name)
    model, counts = stored.model()
    wanted = stored.replies, stored.faults, stored.status
    with Room() as room:
        whole, notes, in_bits, two = room / "J", room / "calls", room / "bits", room / "two"
        cases.meets("whole", once(whole, stored.asked, stored.now, calls=notes), wanted)
        file, calls = whole.read_bytes(), calls_in(notes)
        cases.meets("the journal", difference(file, model.journal), None)
        cases.meets("check", check(whole), checked(model.journal))
        cases.meets("the calls of the disk", steps(calls), steps(calls_of(model.payloads)))
        acknowledged(cases, stored, counts, calls)
        cases.meets("in bits", once(in_bits, stored.asked, stored.now, bits=1), wanted)
        cases.meets("the journal in bits", in_bits.read_bytes() == file, True)
        cases.meets("check in bits", check(in_bits, bits=1), checked(file))
        at = 0
        for number in range(len(stored.messages) + 1):
            at += len(stored.messages[number - 1].text) if number else 0
            first, second = (once(two, it, stored.now) for it in (stored.asked[:at], stored.asked[at:]))
            cut = f"cut after message {number}"
            cases.meets(cut, (first[0] + second[0], *first[1:], *second[1:]), (stored.replies, b"", 0, *wanted[1:]))
            cases.meets(f"{cut}, the journal", two.read_bytes() == file, True)
            two.unlink()
    return cases


def difference(found, wanted):
    """Where two files differ, or None."""
    if found == wanted:
        return None
    at = next((it for it, pair in enumerate(zip(found, wanted)) if pair[0] != pair[1]), min(len(found), len(wanted)))
    return f"at byte {at} it has {found[at : at + 60]!r}, and the model {wanted[at : at + 60]!r}"


def steps(calls):
    """Writes and syncs of data, each with its place, its bytes and its result."""
    return [(it.kind, it.at, it.data, it.result) for it in calls if it.kind in "ws"]


def acknowledged(cases, stored, counts, calls):
    """Each reply is written only when the batches of its request, and no more, are on the disk for sure."""
    ends = []
    for it in stored.parts:
        ends.append(len(it) + (ends[-1] if ends else 0))
    written = 0
    for call, file in moments(calls):
        if call and call.kind == "r":
            number = next((it for it, end in enumerate(ends) if written < end), None)
            if number is not None:
                found = len(payloads_of(file.durable))
                cases.meets(f"batches on the disk at reply {number + 1}", (found, file.open_places), (counts[number], []))
            written += call.result


def two_halves():
    """The two runs of examples/journal on one file, what README.md says that `check` prints then, and a run by an earlier clock."""
    cases = Cases()
    said = re.search(r"^bin/ebusd check --journal J\n((?:#> .*\n)+)", Path("README.md").read_text(), re.MULTILINE)[1]
    with Room() as room:
        path, output = room / "J", b""
        for name, size in (("setup", 189), ("event", 832)):
            more, *ended = once(path, (JOURNALS / f"{name}.http").read_bytes())
            output += more
            cases.meets(f"{name}.http, the end and the file's size", (ended, path.stat().st_size), ([b"", 0], size))
        cases.meets("the replies", output, StoredRun("first-run").replies)
        file = (JOURNALS / "first-run.journal").read_bytes()
        cases.meets("the file", path.read_bytes(), file)
        cases.meets("check, by README.md", check(path), (0, said.replace("#> ", "").encode(), b""))
        cases.meets("then more, by an earlier clock", once(path, MORE, NOW - 1), (MORE_REPLY, b"", 0))
        cases.meets("then more, the file", path.read_bytes(), journal_with_more(payloads_of(file)))
    return cases


def copies():
    """Copies that are made while a run appends: each has what was replied before it began, and nothing that was not asked."""
    cases = Cases()
    with Room() as room:
        path, copy = room / "J", room / "copy"
        asked = (JOURNALS / "setup.http").read_bytes() + message("PutEvents", ONE_EVENT) * COPIED
        words = [*COMMAND, "once", "--journal", str(path), "--now", str(NOW)]
        with subprocess.Popen(words, stdin=subprocess.PIPE, stdout=subprocess.PIPE) as ran, ThreadPoolExecutor(1) as other:
            other.submit(lambda: (ran.stdin.write(asked), ran.stdin.close()))
            replies, made = 0, []
            while more := ran.stdout.read1():
                replies += more.count(b"HTTP/1.1 200 OK\r\n")
                if replies * COPIES > len(made) * COPIED:
                    shutil.copyfile(path, copy)
                    made.append((replies - 1, payloads_of(copy.read_bytes()), check(copy)))  # the last reply may be cut
            cases.meets("the end", ran.wait(SECONDS), 0)
        payloads = payloads_of(path.read_bytes())
        cases.meets("the batches", len(payloads), COPIED + 3)
        for number, (least, found, (status, output, _)) in enumerate(made):
            cases.meets(f"copy {number} has what was replied", least <= len(found) and found == payloads[: len(found)], True)
            cases.meets(f"copy {number}, check", (status, output.split()[:2]), (0, [b"records", str(len(found)).encode()]))
    return cases


def killed():
    """Runs that are killed while they append to one journal: each event that was replied is in it once."""
    cases, chance = Cases(), random.Random(SEED)
    with Room() as room:
        path, asked, output = room / "J", room / "asked", room / "output"
        once(path, (JOURNALS / "setup.http").read_bytes())
        asked.write_bytes(message("PutEvents", SMALL_EVENT) * COPIED)
        words = [*COMMAND, "once", "--journal", str(path), "--now", str(NOW)]
        replied = []
        for _ in range(KILLS):
            with asked.open("rb") as stdin, output.open("wb") as stdout, subprocess.Popen(words, stdin=stdin, stdout=stdout) as ran:
                time.sleep(chance.uniform(*LIVES))
                ran.kill()
            replied += re.findall(rb'"EventId":"([0-9a-f-]{36})"', output.read_bytes())
        payloads = payloads_of(path.read_bytes())
        found = [re.search(rb'"id":"([0-9a-f-]{36})"', it)[1] for it in payloads[3:]]
        cases.meets("some events are replied", len(replied) > 0, True)
        cases.meets("replied events that are not there", sorted({*replied} - {*found}), [])
        cases.meets("each is there once, in order", (found == sorted({*found}), replied == sorted({*replied})), (True, True))
        status, counted, _ = check(path)
        cases.meets("check", (status, counted.split()[:2]), (0, [b"records", str(len(payloads)).encode()]))
    return cases


# ---- Mixed requests


def mixed_requests(reading):
    """Requests of all actions, accepted and refused, at one reading of the clock."""
    cases, model, chance = Cases(), RecordingRouter(reading), random.Random(f"{SEED} {reading}")
    mixed.LENGTHS, mixed.LONG_LENGTHS = LENGTHS, LONG_LENGTHS
    asked, wanted = [], []
    for number, it in enumerate(mixed.requests_of(model, chance)):
        status, body = model.answer(it.method, it.action, it.caller, it.value)
        asked.append((it.method, mixed.message(it, number)))
        wanted.append((status, body.encode()))
    with Room() as room:
        for cut in [0, *chance.sample(range(len(asked)), CUTS)]:
            path, name = room / f"J{cut}", f"cut after message {cut}"
            output = b""
            for part in (asked[:cut], asked[cut:]):
                more, *ended = once(path, b"".join(text for _, text in part), reading)
                output += more
                cases.meets(f"{name}, the end", ended, [b"", 0])
            cases.meets(f"{name}, the replies", first_difference(output, asked, wanted), None)
            cases.meets(f"{name}, the journal", difference(path.read_bytes(), model.journal), None)
        cases.meets("check", check(path), checked(model.journal))
    return cases


def mixed_requests_over_days(began):
    """Requests of all actions, in parts that are a process each. The clock of a part has gone on, or back, from that of the part before."""
    cases, model, chance = Cases(), RecordingRouter(began), random.Random(f"{SEED} by days {began}")
    parts, drops = [], 0  # drops: how often an archive does not retain all that it kept, as a part begins
    for number in range(OVER_DAYS):
        if number % PART == 0:
            model.reading = max(model.reading + chance.choice(GOES_ON), 0)
            parts.append((model.reading, [], []))
            drops += sum(len(it.retained(model.moment)) < len(it.kept) for it in model.archives.values())
        it = a_request(model, chance, chance.choice(LENGTHS[:100]))
        status, body = model.answer(it.method, it.action, it.caller, it.value)
        _, asked, wanted = parts[-1]
        asked.append((it.method, mixed.message(it, number)))
        wanted.append((status, body.encode()))
    cases.meets("archives drop events", drops > 10, True)
    with Room() as room:
        path = room / "J"
        for number, (reading, asked, wanted) in enumerate(parts):
            output, *ended = once(path, b"".join(text for _, text in asked), reading)
            cases.meets(f"part {number} at {reading}, the end", ended, [b"", 0])
            cases.meets(f"part {number} at {reading}, the replies", first_difference(output, asked, wanted), None)
        cases.meets("the journal", difference(path.read_bytes(), model.journal), None)
        cases.meets("check", check(path), checked(model.journal))
    return cases


def first_difference(output, asked, wanted):
    """The first reply that is another one than the model's, or None."""
    output = io.BytesIO(output)
    for number, ((method, text), right) in enumerate(zip(asked, wanted), 1):
        if (found := mixed.read_reply(output, method)) != right:
            return f"reply {number} to {text[:300]!r} is {str(found)[:300]}, and {str(right)[:300]} is wanted"
    return output.read() or None


# ---- Crashes of the first run


def crashes(part):
    """What a crash may leave, by the calls that were made."""
    cases, stored = Cases(), StoredRun("first-run")
    with Room() as room:
        once(room / "J", stored.asked, calls=room / "calls")
        for number, (call, file) in enumerate(moments(calls_in(room / "calls"))):
            if not call or call.kind != "r":
                cases.crashes(f"after call {number}", room / "image", file, file.images()[part::PARTS])
    return cases


def goes_on(part):
    """`once` opens an image, finds its batches, and appends to it."""
    cases, chance = Cases(), random.Random(SEED)
    stored = StoredRun("first-run")
    with Room() as room:
        once(room / "J", stored.asked, calls=room / "calls")
        images = [it for call, file in moments(calls_in(room / "calls")) if not call or call.kind != "r" for it in file.images(chance, 30)]
        path = room / "image"
        for number, image in list(enumerate(images))[part::PARTS]:
            path.write_bytes(image)
            payloads = payloads_of(image)
            name = f"image {number} with {len(payloads)} batches"
            cases.meets(name, once(path, MORE), (MORE_REPLY, b"", 0))
            found, wanted = path.read_bytes(), journal_with_more(payloads)
            # What was behind the closed gate stays, if it is not overwritten.
            cases.meets(f"{name}, the file", difference(found, wanted + image[len(wanted) :]), None)
            cases.meets(f"{name}, check", check(path), checked(wanted))
    return cases


# ---- The first run with calls that fail

# The replies of the first run from the one whose batch, with this number, is not appended.
ZEROS = (200, '{"Attempts":0,"Delivered":0,"DeadLettered":0,"Dropped":0}')
EMPTY = (200, '{"Messages":[]}')
NO_RULE = (400, '{"__type":"ResourceNotFoundException","message":"Rule r does not exist."}')
NO_QUEUE = (400, '{"__type":"ResourceNotFoundException","message":"Queue q does not exist."}')
AFTER = {
    1: [FAILED, FAILED, NO_RULE, FAILED, ZEROS, NO_QUEUE],
    2: [FAILED, NO_RULE, FAILED, ZEROS, EMPTY],
    3: [FAILED, FAILED, ZEROS, EMPTY],
    4: [FAILED, ZEROS, EMPTY],
    5: [FAILED, EMPTY],
}


def replies_after(failed):
    return b"".join(StoredRun("first-run").parts[: failed - 1]) + b"".join(reply(*it) for it in AFTER[failed])


def failing_calls(kind, name):
    """Each write, or each sync, of each append of the first run fails; and then each crash."""
    cases = Cases()
    asked = StoredRun("first-run").asked
    with Room() as room:
        once(room / "J", asked, calls=room / "calls")
        count = sum(it.kind == kind for it in calls_in(room / "calls"))
        for number in range(10):
            failed, half = number // 2 + 1, number % 2
            path, notes = room / f"J{number}", room / f"calls{number}"
            what = f"{name} {half + 1} of append {failed} fails"
            found = once(path, asked, fails=f"{kind} {count - 9 + number}", calls=notes)
            cases.meets(what, found, (replies_after(failed), disk_failed(path, f"{name}: {IO_ERROR}"), 5))
            calls, file = calls_in(notes), File()
            last = max((at for at, it in enumerate(calls) if it.result < 0), default=0)
            cases.meets(f"{what}, calls after it", {it.kind for it in calls[last + 1 :]}, {"r"})
            for it in calls:
                file.make(it)
            cases.meets(f"{what}, the file", path.read_bytes() == file.now, True)
            images = file.images(None if failed == 3 else random.Random(number), 100)
            most = failed if (kind, half) == ("s", 1) else failed - 1
            cases.meets(f"{what}, batches after a crash", {records_of(it) for it in images}, {failed - 1, most})
            cases.crashes(what, room / "image", file, images)
    return cases


def steps_that_fail():
    """A call of the disk fails in the second of three steps of a replay. The first one stays; while the replay is running, a further step is
    refused, and the next run goes on with it. Once it has ended there is no step to refuse."""
    cases, stored, arn = Cases(), StoredRun("archive-and-replay"), "arn:aws:events:us-east-1:111122223333:"
    front = b"".join(it.text for it in stored.messages[:4])  # a queue, a rule with a target, and an archive
    event, start, steps = (stored.messages[it].text for it in (4, 6, 7))
    more = steps + message("DescribeReplay", '{"ReplayName":"p"}') + steps + message("CancelReplay", '{"ReplayName":"p"}') + message("DutyCounts", "{}")
    described = f'{{"ReplayName":"p","ReplayArn":"{arn}replay/p","State":"RUNNING","EventSourceArn":"{arn}archive/a",'
    times = ("EventStartTime", "EventEndTime", "EventLastReplayedTime", "ReplayStartTime")
    described += f'"Destination":{{"Arn":"{arn}event-bus/default"}}' + "".join(f',"{it}":{NOW}' for it in times) + "}"
    counts = '{"Created":4,"Pending":4,"Delivered":0,"DeadLettered":0,"Dropped":0}'
    wanted = b"".join(reply(*it) for it in (FAILED, (200, described), FAILED, FAILED, (200, counts)))
    with Room() as room:
        for fails, call, kept in (("w 20", "pwrite", 9), ("w 21", "pwrite", 9), ("s 21", "fdatasync", 9), ("s 22", "fdatasync", 10)):
            path = room / fails
            output, *ended = once(path, front + event * 3 + start + more, fails=fails)
            cases.meets(f"{fails} fails, the replies", output[-len(wanted) :], wanted)
            cases.meets(f"{fails} fails, the end", ended, [disk_failed(path, f"{call}: {IO_ERROR}"), 5])
            cases.meets(f"{fails} fails, the records", records_of(path.read_bytes()), kept)
            cases.meets(f"{fails} fails, the next run", once(path, steps), (reply(200, f'{{"Steps":{11 - kept}}}'), b"", 0))
        asked = b"".join(it.text for it in stored.messages[:9]) + steps
        output = once(room / "ended", asked, fails="w 18")[0]  # the replay has ended, and its delivery is not recorded
        cases.meets("no step to refuse", output, b"".join(stored.parts[:8]) + reply(*FAILED) + reply(200, '{"Steps":0}'))
    return cases



def opening_faults():
    """Calls that fail while a file is opened: nothing is replied, and a journal keeps what it has."""
    cases = Cases()
    asked, file = StoredRun("first-run").asked, (JOURNALS / "first-run.journal").read_bytes()
    both = [("f 1", "fsync"), ("f 2", "fsync of its folder"), ("s 1", "fdatasync")]
    with Room() as room:
        path = room / "J"
        for fails, call in [*both, ("w 1", "pwrite"), ("s 2", "fdatasync")]:
            cases.meets(f"{fails} of a new file", once(path, asked, fails=fails), (b"", disk_failed(path, f"{call}: {IO_ERROR}"), 5))
            cases.meets(f"{fails} of a new file, check", check(path), checked(b""))
            cases.meets(f"{fails} of a new file, then more", once(path, MORE), (MORE_REPLY, b"", 0))
            path.unlink()
        path.write_bytes(file)
        for fails, call in both:
            cases.meets(f"{fails} of a journal", once(path, asked, fails=fails), (b"", disk_failed(path, f"{call}: {IO_ERROR}"), 5))
            cases.meets(f"{fails} of a journal, the file", path.read_bytes() == file, True)
    return cases


def full_disk(part):
    """The first run with room for each number of bytes. With more room a further run goes on."""
    cases = Cases()
    stored, file = StoredRun("first-run"), (JOURNALS / "first-run.journal").read_bytes()
    ends = [place + 1 for place, _ in records(file)]  # bytes of the file at first, and after each append
    with Room() as room:
        path = room / "J"
        for size in range(part, len(file) + 1, PARTS):
            found, name = once(path, stored.asked, room=size), f"room for {size} bytes"
            count = sum(end <= size for end in ends)
            if size == len(file):
                wanted = stored.replies, b"", 0
            else:
                wanted = replies_after(count) if count else b"", disk_failed(path, f"pwrite: {NO_ROOM}"), 5
            cases.meets(name, found, wanted)
            payloads = payloads_of(file)[: max(count - 1, 0)]
            cases.meets(f"{name}, check", check(path), checked(journal(payloads)))
            cases.meets(f"{name}, then more", once(path, MORE), (MORE_REPLY, b"", 0))
            cases.meets(f"{name}, then more, check", check(path), checked(journal_with_more(payloads)))
            path.unlink()
    return cases


def full_file_system():
    """The same on a small file system, if this process may mount one."""
    cases = Cases()
    with Room() as room:
        place = room / "small"
        place.mkdir()
        mount = ["mount", "-t", "tmpfs", "-o", "size=64k", "tmpfs", str(place)]
        if not shutil.which("mount") or subprocess.run(mount, capture_output=True, check=False).returncode:
            print("journal: no file system can be mounted here, so only disk_calls.c makes room end")
            return cases
        try:
            path, filler = place / "J", place / "filler"
            filler.write_bytes(bytes(16_384))
            event = message("PutEvents", ONE_EVENT)
            asked = (JOURNALS / "setup.http").read_bytes() + event * 40 + message("PeekMessages", '{"QueueName":"q"}')
            output, faults, status = once(path, asked)
            lines = [int(it) for it in re.findall(rb"HTTP/1\.1 (\d+) ", output)]
            good = lines.count(200) - 4
            cases.meets("the end", (faults, status), (disk_failed(path, f"pwrite: {NO_ROOM}"), 5))
            cases.meets("the replies", lines, [200] * (3 + good) + [500] * (40 - good) + [200])
            cases.meets("some events have room, and some have none", 0 < good < 40, True)
            file = path.read_bytes()
            cases.meets("the records", records_of(file), 3 + good)
            cases.meets("check", check(path), checked(file))
            filler.unlink()
            cases.meets("with room again", once(path, event)[1:], (b"", 0))
            cases.meets("with room again, the records", records_of(path.read_bytes()), 4 + good)
        finally:
            subprocess.run(["umount", str(place)], check=True)
    return cases


# ---- Opening


def refused_files():
    """Files of examples/journal that are refused, by `once` and `serve`; and files that another process has, or that cannot be opened."""
    cases = Cases()
    with Room() as room:
        for row in (JOURNALS / "files.rows").read_text().splitlines():
            name, text, found = row.split("|")
            if found.isdigit():
                continue
            path = room / name
            path.write_bytes(bytes.fromhex(text))
            wanted = b"", f"ebusd: {found}\n".encode(), 6
            cases.meets(f"{name}, once", once(path, MORE), wanted)
            cases.meets(f"{name}, serve", served(path), wanted)
            cases.meets(f"{name}, the file", path.read_bytes().hex(), text)
        made = room / "made"
        cases.meets("once without input", once(made, b""), (b"", b"", 0))
        cases.meets("the file that it makes", (made.read_bytes(), made.stat().st_mode & 0o777), (HEADER + b"\0", 0o600))
        cannot = [(room, "not a regular file"), (room / "none" / "J", "open: No such file or directory (os error 2)")]
        for path, why in cannot:
            cases.meets(f"{path}, once", once(path, MORE), (b"", disk_failed(path, why), 5))
            cases.meets(f"{path}, serve", served(path), (b"", disk_failed(path, why), 5))
        words = [*COMMAND, "once", "--journal", str(made)]
        with subprocess.Popen(words, stdin=subprocess.PIPE, stdout=subprocess.PIPE) as ran:
            ran.stdin.write(message("DutyCounts", "{}"))
            ran.stdin.flush()
            ran.stdout.readline()
            refused = disk_failed(made, "another process has it")
            cases.meets("in use, once", once(made, MORE), (b"", refused, 5))
            cases.meets("in use, serve", served(made), (b"", refused, 5))
            cases.meets("in use, check", check(made), (5, b"", refused))
            ran.stdin.close()
            ran.stdout.read()
            cases.meets("the run that uses it", ran.wait(SECONDS), 0)
        cases.meets("in use no more", once(made, MORE), (MORE_REPLY, b"", 0))
        words = [*COMMAND, "once", "--journal=-x", "--now", str(NOW)]
        ran = subprocess.run(words, input=MORE, stdout=subprocess.PIPE, cwd=room, check=False, timeout=SECONDS)
        cases.meets("--journal=-x", (ran.stdout, ran.returncode, (room / "-x").read_bytes()), (MORE_REPLY, 0, journal_with_more([])))
    for words in REFUSED:
        output, faults, status = run(words)
        cases.meets(" ".join(words), (output, faults.endswith(b"ebusd: bad arguments\n"), status), (b"", True, 2))
    cases.meets("files that refused words make", [it for it in ("a", "b", "-x") if Path(it).exists()], [])
    return cases


def served(path):
    return run(["serve", "--journal", path, "--port", free_port()])


def sends_that_fail():
    """Deliveries of a journal that no send can make: their attempts fail, and are recorded."""
    cases = Cases()
    row = next(it for it in (JOURNALS / "files.rows").read_text().splitlines() if it.startswith("deliveries-that-no-send-can-make|"))
    with Room() as room:
        path = room / "J"
        path.write_bytes(bytes.fromhex(row.split("|")[1]))
        output, *ended = once(path, message("DeliverDue", "{}") + message("DutyCounts", "{}"))
        cases.meets("the end", ended, [b"", 0])
        counts = [b'{"Attempts":3,"Delivered":1,"DeadLettered":0,"Dropped":0}', b'{"Created":3,"Pending":2,"Delivered":1,"DeadLettered":0,"Dropped":0}']
        cases.meets("the replies", re.findall(rb"\{[^{}]*\}", output), counts)
        cases.meets("check", check(path), checked(path.read_bytes()))
    return cases


def days_of_archives():
    """An archive of one day keeps an event of 1000 up to 87399. More days that come by then keep it, and later ones do not bring it back."""
    cases = Cases()
    source = "arn:aws:events:us-east-1:111122223333:event-bus/default"
    created = message("CreateArchive", f'{{"ArchiveName":"a","EventSourceArn":"{source}","RetentionDays":1}}') + message("PutEvents", SMALL_EVENT)
    forever, described = message("UpdateArchive", '{"ArchiveName":"a","RetentionDays":0}'), message("DescribeArchive", '{"ArchiveName":"a"}')

    def counted(path, asked, now):
        output, *ended = once(path, asked, now)
        cases.meets(f"the end at {now}", ended, [b"", 0])
        return [int(it) for it in re.findall(rb'"EventCount":([0-9]+)', output)]

    with Room() as room:
        path, late = room / "J", room / "late"
        cases.meets("a day, at 1000", counted(path, created + described, 1000), [1])
        cases.meets("a day, at 87399", counted(path, described, 87_399), [1])
        cases.meets("a day, at 87400", counted(path, described, 87_400), [0])
        cases.meets("check, which goes by the last batch", check(path), checked(path.read_bytes()))
        cases.meets("check counts the event", b"\nevents 1 archived 1 replays 0\n" in check(path)[1], True)
        shutil.copyfile(path, late)
        cases.meets("forever from 87399 on", counted(path, described + forever + described, 87_399), [1, 1])
        cases.meets("forever, at 1000000", counted(path, described, 1_000_000), [1])
        cases.meets("check after it", check(path), checked(path.read_bytes()))
        cases.meets("forever from 87400 on", counted(late, described + forever + described, 87_400), [0, 0])
        cases.meets("check after it, too late", check(late), checked(late.read_bytes()))
        cases.meets("check counts none", b"\nevents 1 archived 0 replays 0\n" in check(late)[1], True)
        cases.meets("a day again, at 87401", counted(late, message("UpdateArchive", '{"ArchiveName":"a","RetentionDays":1}') + described, 87_401), [0])
    return cases


def a_replay_over_days():
    """A replay repeats what its archive of one day retained at its start, also what has expired since; the archive does not retain it again."""
    cases, arn = Cases(), "arn:aws:events:us-east-1:111122223333:"
    created = message("CreateArchive", f'{{"ArchiveName":"a","EventSourceArn":"{arn}event-bus/default","RetentionDays":1}}')
    span = f'"EventSourceArn":"{arn}archive/a","EventStartTime":5000,"EventEndTime":6000'
    started = message("StartReplay", f'{{"ReplayName":"p",{span},"Destination":{{"Arn":"{arn}event-bus/default"}}}}')
    of_it = message("DescribeArchive", '{"ArchiveName":"a"}') + message("DescribeReplay", '{"ReplayName":"p"}')
    ended = message("CancelReplay", '{"ReplayName":"p"}')

    def event(at):
        return message("PutEvents", SMALL_EVENT.replace("}]}", f',"Time":{at}}}]}}'))

    with Room() as room:
        path = room / "J"

        def shown(asked, now):
            output, *left = once(path, asked, now)
            cases.meets(f"the end at {now}", left, [b"", 0])
            of_replies = r'"(?:State|EventCount|EventLastReplayedTime|Steps|message)":("[^"]*"|[0-9]+)'
            return [it.strip('"') for it in re.findall(of_replies, output.decode())]

        for now, asked in ((1_000, created + event(5_000)), (2_000, event(5_000)), (50_000, event(6_000) + event(6_001))):
            shown(asked, now)
        cases.meets("the start", shown(started, 87_400), ["RUNNING"])
        found = shown(message("StepReplays", '{"Budget":1}') + of_it + ended + ended, 88_400)
        cases.meets("a step and the end", found, ["1", "ENABLED", "2", "RUNNING", "5000", "CANCELLED", "Replay p is not running."])
        batches = (87_400, (16, "p", "a", 5_000, 6_000, None)), (88_400, (17, "p", 2, [])), (88_400, (18, "p"))
        cases.meets("the batches", payloads_of(path.read_bytes())[-3:], [batch_bytes(now, [it]) for now, it in batches])
        cases.meets("check", check(path), checked(path.read_bytes()))
        cases.meets("check counts the events", b"\nevents 4 archived 2 replays 1\n" in check(path)[1], True)
    return cases


# ---- serve


def serve_ends():
    """After a disk fault `serve` ends its connections, and then itself, with status 5. Started again, it has what was acknowledged."""
    cases = Cases()
    with Room() as room:
        path = room / "J"
        env = {"LD_PRELOAD": LIBRARY[0], "DISK_ROOM": "400"}
        with Served(workers=3, faults=disk_failed(path, f"pwrite: {NO_ROOM}"), journal=path, env=env) as it:
            with it.client() as idle, it.client() as client:
                cases.meets("an idle client's request", idle.exchange("DutyCounts")[0], 200)
                status, made = 200, 0
                while status == 200:
                    status, body = client.exchange("CreateQueue", {"QueueName": f"q{made}"})
                    made += status == 200
                cases.meets("a request without room", (made > 0, status, body.decode()), (True, *FAILED))
                cases.meets("its session ends", client.rest(5), b"")
                cases.meets("the idle session ends, within 5 seconds", idle.rest(5), b"")
            cases.meets("the end", it.over(60), (b"", 5))
        counted = checked(path.read_bytes())
        cases.meets("check", check(path), counted)
        cases.meets("the records", records_of(path.read_bytes()), made)
        with Served(workers=3, journal=path) as it, it.client() as client:
            cases.meets("again, a queue that exists", client.exchange("CreateQueue", {"QueueName": "q0"})[0], 400)
            cases.meets("again, a new queue", client.exchange("CreateQueue", {"QueueName": f"q{made}"})[0], 200)
            cases.meets("again, check meanwhile", check(path)[0], 5)
        cases.meets("again, the records", records_of(path.read_bytes()), made + 1)
    return cases


def serve_killed():
    """examples/journal/kill.py, by the built program."""
    cases = Cases()
    words = [str(JOURNALS / "kill.py"), str(free_port()), "--kills", str(SERVE_KILLS), "--program", *COMMAND]
    ran = subprocess.run([sys.executable, *words], capture_output=True, timeout=115, check=False)
    cases.meets("the end", (ran.returncode, ran.stderr), (0, b""))
    cases.meets("the lines", b"no replied id is missing, and each came once" in ran.stdout, True)
    return cases


def tasks():
    """The longest first: kill.py and `serve` sleep most of the time."""
    yield "kill.py", serve_killed, []
    yield "serve", serve_ends, []
    for part in range(PARTS):
        yield "crashes of the first run", crashes, [part]
        yield "a full disk", full_disk, [part]
        yield "images that go on", goes_on, [part]
    for kind, name in (("w", "pwrite"), ("s", "fdatasync")):
        yield f"failing {name}", failing_calls, [kind, name]
    for reading in READINGS:
        yield f"mixed requests at {reading}", mixed_requests, [reading]
        yield f"mixed requests over days from {reading} on", mixed_requests_over_days, [reading]
    for name in stored_runs():
        yield name, cut_run, [name]
    for task in (two_halves, copies, killed, steps_that_fail, opening_faults, full_file_system, refused_files, sends_that_fail):
        yield task.__name__, task, []
    for task in (days_of_archives, a_replay_over_days):
        yield task.__name__, task, []


if __name__ == "__main__":
    begin(sys.argv[1:])
    SERVED.extend(COMMAND)
    sys.exit(make(tasks(), 2))
