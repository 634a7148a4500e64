#!/usr/bin/env python3
"""Times `ebusd` with a journal, and prints two tables.

    bench/journal.py [PROGRAM [OLDER]]

Run at the top of the repository. PROGRAM is a built program; without it bin/ebusd builds the one that is measured. OLDER is another program,
without a journal: then both are timed without one, and take turns. The journals that `check` reads are made here, by the model of the file in
.ci/checks/journal_file.py: events of 827 bytes with one delivery each, 1,857 bytes with its attempt. Files are in the folder that TMPDIR names,
or in /tmp; its file system is printed. gcc builds bench/appends.c, which makes the same four calls for an append as the program, and
bench/http_load.c, the client of `serve`. Takes some minutes, 4 GB of disk and 3 GB of memory.
Outside the gate: nothing depends on a time.
"""
import datetime
import os
import platform
import random
import subprocess
import sys
import tempfile
import time
from concurrent.futures import ProcessPoolExecutor

sys.path.insert(0, ".ci/checks")  # for the model alone: two of its modules have names that are here too
from journal_file import batch_bytes, journal, record  # noqa: E402

del sys.path[0]
from once import A_CALL, EBUSD, PROGRAM, SETUP, WORDS, message, row, table  # noqa: E402
from once import run as run_once  # noqa: E402
from serve import Router, entry, load, put, shown, status_of  # noqa: E402

NOW = 1_700_000_000
COUNTS = [100_000, 1_000_000]
WINDOWS = [1, 64, 1_024]  # places by which attempts are out of order
EVENT_BYTES = 827
WRITTEN = 100_000  # events of the run whose memory is compared
ONE_CLIENT = 3_000  # requests of one client
CLIENTS = [1, 8, 32]
REQUESTS = 20_000  # of all clients
PIECES = 3
ROUNDS, ROUND_EVENTS, FIRST = 10, 50_000, 4  # rounds without a journal, of which the first ones fill the heaps
MIB = 2**20
QUEUE = "arn:aws:sqs:us-east-1:111122223333:q"
RULE = "arn:aws:events:us-east-1:111122223333:rule/r"


# ---- Journals that are made here


def configuration():
    pattern = '{"source":["shop.orders"]}'
    changes = [(9, "q"), (3, "default", "r", pattern, 1), (6, "default", "r", [("t", QUEUE, (0,), None, None)])]
    return [batch_bytes(NOW, [it]) for it in changes]


def event_text():
    shown = '{"version":"0","id":"00000000-0000-8000-8000-000000000001","detail-type":"Order","source":"shop.orders","account":"111122223333",'
    shown += '"time":"2023-11-14T22:13:20Z","region":"us-east-1","resources":[],"detail":{"text":"%s"}}'
    return shown % ("x" * (EVENT_BYTES - len(shown) + 2))


def event_records():
    """A function from an event's number to the record of its batch."""
    text = event_text()
    delivery = (RULE, "t", QUEUE, text, 185, 86_400, None, 0)
    made = record(batch_bytes(NOW, [(14, 1, "default", 3, NOW, text, [], [delivery])]))
    number = 9 + 8 + 2 + 1  # the place of the number
    front, *pieces = made[number + 8 :].split(b"8000-000000000001")
    before, (second, third) = made[:number], pieces

    def event(at):
        name = b"8000-%012x" % at
        return b"".join((before, at.to_bytes(8, "big"), front, name, second, name, third))

    return event


def attempt(number):
    return record(batch_bytes(NOW, [(15, number, (0, 0))]))


def out_of_order(count, window):
    """The numbers up to `count`, each at most that many places away from its own."""
    chance = random.Random(window)
    for first in range(1, count + 1, window):
        part = list(range(first, min(first + window, count + 1)))
        chance.shuffle(part)
        yield from part


def made(path, count, window):
    """Writes a journal of events with their attempts: each after its event, or, with a window, all of them after all events."""
    event, one = event_records(), attempt(1)
    at = one.index((1).to_bytes(8, "big"), 20)
    front, back = one[:at], one[at + 8 :]
    with open(path, "wb", buffering=MIB) as file:
        file.write(journal(configuration())[:-1])
        if window is None:
            for number in range(1, count + 1):
                file.write(event(number) + front + number.to_bytes(8, "big") + back)
        else:
            for number in range(1, count + 1):
                file.write(event(number))
            for number in out_of_order(count, window):
                file.write(front + number.to_bytes(8, "big") + back)
        file.write(b"\0")
    return os.path.getsize(path)


def checked(command, path, count):
    """The seconds, those of the processor, and the peak memory in bytes of `check` on such a journal."""
    began = time.perf_counter()
    ran = subprocess.Popen([command, "check", "--journal", path], stdout=subprocess.PIPE)
    output = ran.stdout.read()
    _, status, usage = os.wait4(ran.pid, 0)
    ran.returncode = os.waitstatus_to_exitcode(status)
    seconds = time.perf_counter() - began
    wanted = f"records {2 * count + 3} entries {2 * count + 3} control 3\nevents {count} archived 0 replays 0\n"
    wanted += f"duties {count} pending 0 delivered {count} dead-lettered 0 dropped 0\nmessages {count}\n"
    if (ran.returncode, output.decode()) != (0, wanted):
        sys.exit(f"check ends with status {ran.returncode} and prints {output!r}")
    return seconds, usage.ru_utime + usage.ru_stime, 1_024 * usage.ru_maxrss


def openings(command, folder):
    """The table of `check`. Returns the bytes a second of each row, by the clock and by the processor's time."""
    table("`check` of", "bytes", "seconds", "of the processor", "MB a second", "peak memory, MB")
    path, rates = os.path.join(folder, "J"), {}
    for name, count, window in [(f"{count:,} delivered events", count, None) for count in COUNTS] + [
        (f"{COUNTS[-1]:,} pending, attempts out of order by up to {it:,}", COUNTS[-1], it) for it in WINDOWS
    ]:
        size = made(path, count, window)
        best = min(checked(command, path, count) for _ in range(PIECES if count == COUNTS[0] else 1))
        rates[count, window] = size / best[0], size / best[1]
        row(name, f"{size:,}", f"{best[0]:.2f}", f"{best[1]:.2f}", f"{size / best[0] / 1e6:.0f}", f"{best[2] / 1e6:.0f}")
        os.unlink(path)
    return rates


# ---- Runs that write


def with_journal(path):
    """The words of `once` with this journal: those of the script once.py, and one more option."""
    return [*WORDS, "--journal", path]


def timed(command, path, text, wanted):
    """The seconds until that number of replies has come, and the peak memory in bytes."""
    words = WORDS[:]
    WORDS[:] = with_journal(path) if path else words
    try:
        seconds, _, peak, _ = run_once(text, wanted, command)
    finally:
        WORDS[:] = words
    return seconds, 1_024 * peak


def setup():
    return b"".join(message(*it) for it in SETUP)


def written(command, path):
    """The peak memory of a run that makes and delivers events."""
    rounds = -(-WRITTEN // A_CALL) + 1
    text = setup() + put_827() * WRITTEN + message("RouterLocal.DeliverDue", {}) * rounds
    return timed(command, path, text, 3 + WRITTEN + rounds)[1]


def writing_run(command, folder):
    """The peak memory of a run that makes and delivers events, and of `check` on its journal. The system counts as a process's peak also what its
    parent had when it was started, so the large text of the first one is made in a process of its own."""
    path = os.path.join(folder, "J")
    with ProcessPoolExecutor(1) as other:
        peak = other.submit(written, command, path).result()
    *_, check_peak = checked(command, path, WRITTEN)
    os.unlink(path)
    return peak, check_peak


def put_827():
    return message("AWSEvents.PutEvents", {"Entries": [entry(EVENT_BYTES)]})


def one_client(command, folder):
    """Requests a second of `once --journal`, and appends a second of the C program, each the best of a few pieces that take turns."""
    path, size, rates = os.path.join(folder, "J"), len(event_records()(1)) - 9, ([], [])
    for _ in range(PIECES):
        seconds, _ = timed(command, path, setup() + put_827() * ONE_CLIENT, 3 + ONE_CLIENT)
        rates[0].append((3 + ONE_CLIENT) / seconds)
        os.unlink(path)
        ran = subprocess.run([os.path.join(folder, "appends"), path, str(ONE_CLIENT), str(size)], stdout=subprocess.PIPE, check=True)
        rates[1].append(ONE_CLIENT / float(ran.stdout))
        os.unlink(path)
    return max(rates[0]), max(rates[1])


class JournalRouter(Router):
    """A process of `ebusd serve --journal`."""

    def __init__(self, command, workers, path):
        self.path = path
        super().__init__(command, workers)

    def words(self, command, workers):
        return [*super().words(command, workers), "--journal", self.path]


def served(command, folder):
    table("`serve --journal`, clients", "requests a second", "median, us", "99 of 100, us", "longest, us")
    for clients in CLIENTS:
        path = os.path.join(folder, "J")
        with JournalRouter(command, clients + 1, path) as it:
            it.set_up()
            rate, times = max(load(folder, it.port, clients, REQUESTS // 20 * min(clients, 8), put(1)) for _ in range(PIECES))
        row(clients, f"{rate:,.0f}", *(f"{it:,.0f}" for it in times))
        os.unlink(path)


def without(command, older):
    """Requests a second of both programs without a journal: of `once`, and of `serve` with 8 clients."""
    text, found = setup() + put_827() * 20_000, {}
    for kind in ("once", "serve"):
        for _ in range(PIECES):
            for it in (command, older):
                if kind == "once":
                    rate = 20_003 / timed(it, None, text, 20_003)[0]
                else:
                    with Router(it, 16) as router, tempfile.TemporaryDirectory() as folder:
                        build(folder, "http_load")
                        rate, _ = load(folder, router.set_up().port, 8, REQUESTS, put(1))
                found[kind, it] = max(rate, found.get((kind, it), 0))
    return found


def flat_memory(command, folder):
    """The bytes that `serve` without a journal has resident more after rounds of events that are delivered and deleted."""
    with Router(command, 8) as it:
        it.set_up()
        resident = []
        for _ in range(FIRST + ROUNDS):
            load(folder, it.port, 4, ROUND_EVENTS // 10, put(10))
            it.settle()
            resident.append(1_024 * status_of(it.ran.pid, "VmRSS"))
    return resident[-1] - resident[FIRST - 1]


def build(folder, name):
    subprocess.run(["gcc", "-O2", "-pthread", "-o", os.path.join(folder, name), f"bench/{name}.c"], check=True)


def file_system(folder):
    ran = subprocess.run(["stat", "-f", "-c", "%T", folder], stdout=subprocess.PIPE, check=False)
    return ran.stdout.decode().strip() or "an unknown file system"


def main():
    command = sys.argv[1] if len(sys.argv) > 1 else PROGRAM
    if command == PROGRAM and subprocess.run([EBUSD, *WORDS], stdin=subprocess.DEVNULL, check=False).returncode:
        sys.exit(f"{EBUSD} does not end with status 0 on empty input")
    with tempfile.TemporaryDirectory() as folder:
        load_now = os.getloadavg()[0]
        print(f"{datetime.date.today()}, {os.cpu_count()} processors, load {load_now:.1f}, {platform.machine()}, {file_system(folder)}, {' '.join(sys.argv)}")
        for name in ("appends", "http_load"):
            build(folder, name)
        rates = openings(command, folder)
        served(command, folder)
        few, many = (rates[it, None][0] for it in COUNTS)
        table("measured", "result", "target", "met")
        shown("`check`, delivered events", f"{few / 1e6:.0f} and {many / 1e6:.0f} MB/s", "200 MB/s; in proportion", min(few, many) >= 2e8 and many >= 0.8 * few)
        for window, least in ((64, 0.6), (1_024, 0.1)):
            ratio = rates[COUNTS[-1], window][1] / rates[COUNTS[-1], None][1]
            what = f"attempts out of order by up to {window:,}, by the processor's time"
            shown(what, f"{ratio:.2f} of that", f"at least {least}", ratio >= least)
        writing, reading = writing_run(command, folder)
        most = writing + len(event_records()(1)) + 8 * MIB
        shown("peak memory of `check`", f"{reading / 1e6:.0f} MB", f"that of the writing run, a record, 8 MiB: {most / 1e6:.0f} MB", reading <= most)
        own, base = one_client(command, folder)
        shown("`once --journal`, one client, to the C program", f"{own / base:.2f} ({own:,.0f} to {base:,.0f} a second)", "at least 0.9", own >= 0.9 * base)
        more = flat_memory(command, folder)
        what = f"bytes more without a journal, after {ROUNDS * ROUND_EVENTS:,} events delivered and deleted"
        shown(what, f"{more:,}", "below 1 each", more < ROUNDS * ROUND_EVENTS)
        if len(sys.argv) > 2:
            found = without(command, sys.argv[2])
            for kind in ("once", "serve"):
                now, before = (found[kind, it] for it in (command, sys.argv[2]))
                shown(f"`{kind}` without a journal, to {sys.argv[2]}", f"{now / before:.2f}", "at least 0.95", now >= 0.95 * before)


if __name__ == "__main__":
    main()
