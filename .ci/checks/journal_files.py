#!/usr/bin/env python3
"""Compares what `ebusd check` says of files with what a model says, `journal_file.py`. No file is changed.

- The files of examples/journal, which were worked by hand. Each is also read by calls that are interrupted and take seven bytes at most.
- The first run's journal, cut at each byte, and with each bit flipped. Damage is never found at an earlier record than the changed one.
- What crashes may leave of a journal: all images of the first run by `crash_images.py`, and some of each moment of the other stored runs. The
  model `journal_router.py` says which batches they append. Each image has the batches that are on the disk for sure, or also those of one append.
- Files that are made, locked, or cannot be opened; calls that fail; and words that are refused.

A word names another program to run. A case that fails has a line. The last line is `N passed, M failed`.
"""
import fcntl
import os
import random
import re
import subprocess
import sys
import tempfile
from pathlib import Path

from crash_images import moments
from journal_file import checked, found_in, records
from journal_runs import COMMAND, IO_ERROR, JOURNALS, SECONDS, Cases, Room, StoredRun, begin, calls_of, check, disk_failed, make, records_of
from journal_runs import run, stored_runs

SEED = 33
PARTS = 8
FEW = 4  # images of one moment of a long run
REFUSED = [
    ["check"],
    ["check", "--journal"],
    ["check", "--journal", ""],
    ["check", "--journal", "-x"],
    ["check", "--journal", "a", "--journal", "a"],
    ["check", "--journal", "a", "--now", "1"],
    ["drill", "--seed", "1", "--events", "1", "--journal", "a"],
]


def rows():
    """The rows of examples/journal: the name of a file, its bytes in hex, and how many records it has, or why it is refused."""
    cases = Cases()
    with Room() as room:
        for row in (JOURNALS / "files.rows").read_text().splitlines():
            name, text, found = row.split("|")
            file = bytes.fromhex(text)
            cases.meets(f"{name}, by the model", str(records_of(file)), found)
            cases.finds(name, room / name, file)
            cases.finds(f"{name}, in bits", room / name, file, bits=1)
    return cases


def first_run():
    """The first run's journal is the one that is stored, and the model's."""
    cases = Cases()
    file = (JOURNALS / "first-run.journal").read_bytes()
    cases.meets("the first run's journal by the model", StoredRun("first-run").model()[0].journal, file)
    with Room() as room:
        cases.finds("the first run's journal", room / "J", file)
        cases.finds("the first run's journal, in bits", room / "J", file, bits=1)
    return cases


def changed_files(part):
    """A journal cut at each byte, and with each bit flipped."""
    cases = Cases()
    file = (JOURNALS / "first-run.journal").read_bytes()
    files = [(f"cut to {length} bytes", file[:length], None) for length in range(len(file) + 1)]
    for at in range(len(file)):
        for bit in range(8):
            files.append((f"bit {bit} of byte {at} flipped", file[:at] + bytes([file[at] ^ 1 << bit]) + file[at + 1 :], at))
    places = [place for place, _ in records(file)]
    with Room() as room:
        for name, it, at in files[part::PARTS]:
            cases.finds(name, room / "J", it)
            if at is not None:
                own = sum(place <= at for place in places)
                found = re.search(r"record ([0-9]+)", found_in(it)[1] or "")
                cases.meets(f"{name}, the record by the model", found is None or int(found[1]) >= own, True)
    return cases


def crashes(name, part=0, parts=1):
    """All images of the first run, and some of each moment of another one."""
    cases, chance = Cases(), None if name == "first-run" else random.Random(f"{SEED} {name}")
    model, _ = StoredRun(name).model()
    with Room() as room:
        for number, (_, file) in enumerate(moments(calls_of(model.payloads))):
            cases.crashes(f"after call {number}", room / "J", file, file.images(chance, FEW)[part::parts])
    return cases


def opened():
    """Files that are made, locked or cannot be opened."""
    cases, empty = Cases(), checked(b"")
    file = (JOURNALS / "first-run.journal").read_bytes()
    with Room() as room:
        missing, held = room / "missing", room / "held"
        cases.meets("a missing file", check(missing), empty)
        cases.meets("a missing file is made", (missing.stat().st_size, missing.stat().st_mode & 0o777), (0, 0o600))
        words = [*COMMAND, "check", "--journal", "J"]
        ran = subprocess.run(words, stdin=subprocess.DEVNULL, stdout=subprocess.PIPE, cwd=room, check=False, timeout=SECONDS)
        cases.meets("a path without a folder", (ran.returncode, ran.stdout, (room / "J").read_bytes()), (*empty[:2], b""))
        held.write_bytes(file)
        for path, why in [
            (room, "not a regular file"),
            (Path("/dev/null"), "not a regular file"),
            (room / "none" / "journal", "open: No such file or directory (os error 2)"),
            (held / "journal", "stat: Not a directory (os error 20)"),
        ]:
            cases.meets(f"{path}", check(path), (5, b"", disk_failed(path, why)))
        with held.open("rb") as it:
            fcntl.flock(it, fcntl.LOCK_EX)
            cases.meets("a file that another process has", check(held), (5, b"", disk_failed(held, "another process has it")))
        cases.meets("a file that no process has any more", check(held), checked(file))
        for fails, call in (("f 1", "fsync"), ("f 2", "fsync of its folder")):
            cases.meets(f"{call} fails", check(held, fails=fails), (5, b"", disk_failed(held, f"{call}: {IO_ERROR}")))
        for kind in "sw":
            cases.meets(f"no call of {kind} is made", check(held, fails=f"{kind} 1"), checked(file))
        cases.meets("the file afterwards", held.read_bytes() == file, True)
    return cases


def no_permission():
    """A file that the process may not write, and a folder in which it may not make one."""
    cases = Cases()
    with tempfile.TemporaryDirectory() as room:
        path, user = Path(room) / "J", 65_534 if os.geteuid() == 0 else None
        path.write_bytes(b"")
        path.chmod(0o400)
        Path(room).chmod(0o555)
        try:
            for it in (path, Path(room) / "new"):
                ran = subprocess.run([*COMMAND, "check", "--journal", it], capture_output=True, timeout=SECONDS, check=False, user=user)
                wanted = 5, b"", disk_failed(it, "open: Permission denied (os error 13)")
                cases.meets(f"no permission for {it.name}", (ran.returncode, ran.stdout, ran.stderr), wanted)
        except PermissionError:
            print("journal_files: no other user can run the program from here, so a file without permission is left out")
        Path(room).chmod(0o755)
    return cases


def refused_words():
    cases = Cases()
    for words in REFUSED:
        output, faults, status = run(words)
        cases.meets(" ".join(words), (output, faults.endswith(b"ebusd: bad arguments\n"), status), (b"", True, 2))
    cases.meets("files that refused words make", [it for it in ("a", "-x") if Path(it).exists()], [])
    return cases


def tasks():
    for part in range(PARTS):
        yield "changed files", changed_files, [part]
        yield "crashes of the first run", crashes, ["first-run", part, PARTS]
    for name in stored_runs():
        if name != "first-run":
            yield f"crashes of {name}", crashes, [name]
    for task in (rows, first_run, opened, no_permission, refused_words):
        yield task.__name__, task, []


if __name__ == "__main__":
    begin(sys.argv[1:])
    sys.exit(make(tasks()))
