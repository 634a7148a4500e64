"""Runs bin/ebusd in a folder of its own over an `rt` that only sleeps, and compares the builder's lines and statuses.

The folder has this repository's crates.txt, bin/ebusd and bin/build-times, and an empty source for each crate. The `rt` there says of each
crate that it is proved, as the toolchain's does, and makes a program that prints its words.
"""
import os
import re
import shutil
import subprocess
import sys
import tempfile
from pathlib import Path

PATIENCE = 60  # seconds for one call

# The words that bin/ebusd uses are `lib`, `all check` and `run`; `all` and `run` go through the crates below too.
RT = """#!/usr/bin/env python3
import os, subprocess, sys, time
crates = {}
for line in open("../../crates.txt"):
    if ":" in line.split("#")[0]:
        name, uses = line.split("#")[0].split(":")
        crates[name.split()[0]] = uses.split()
def below(name):
    found = []
    for one in crates[name]:
        if one in crates:
            found += [it for it in [*below(one), one] if it not in found]
    return found
here = os.path.basename(os.getcwd())
for name in [here] if sys.argv[1] == "lib" else [*below(here), here]:
    done = f"../{name}/out/library"
    if os.path.exists(done) and os.path.getmtime(done) >= os.path.getmtime(f"../{name}/src/lib.rt"):
        continue
    if sys.argv[1] == "all":
        print(f"== {name}")
    print(f"rt: chose --jobs 1 for {name}")
    words = ["/kit/bin/rattle", "-c", "import time; time.sleep(20)", "--crate-name", name]
    prover = subprocess.Popen(words, executable=sys.executable, cwd=f"../{name}")
    time.sleep(float(os.environ["SECONDS_EACH"]))
    prover.kill()
    prover.wait()
    if name == os.environ.get("FAILS"):
        print(f"src/lib.rt:1:1: error: not proved\\n== summary\\n{name}: failed (1)")
        sys.exit(1)
    os.makedirs(os.path.dirname(done), exist_ok=True)
    open(done, "w").close()
    print("logic=proved functions=1", flush=True)
if sys.argv[1] == "run":
    with open("out/ebusd", "w") as program:
        program.write("#!/bin/sh\\necho program \\"$@\\"\\n")
    os.chmod("out/ebusd", 0o755)
"""
# Makes the minute between two lines short.
SLEEP = """#!/bin/sh
exec /bin/sleep 0.3
"""
# Four GB are free.
DF = """#!/bin/sh
echo Filesystem 1024-blocks Used Available Capacity Mounted on
echo disk 100000000 96000000 4000000 96% /
"""
FIRST = re.compile(r"ebusd: a first build proves (\d+) crates: about (\d+) minutes, 13 GB, once\. Without proofs: bin/try .*")
LINE = re.compile(r"ebusd: \d+ s: (\d+) of (\d+) proved(; now [a-z_, ]+)?(; about \d+ minutes? left)?")


class Site:
    """A folder with the builder, the crates and the commands that it finds first."""

    def __init__(self, room):
        self.top, self.words = room / "top", room / "words"
        self.words.mkdir()
        for name in ("bin/ebusd", "bin/build-times", "crates.txt"):
            (self.top / name).parent.mkdir(parents=True, exist_ok=True)
            shutil.copy2(name, self.top / name)
        self.crates = {}
        for line in Path("crates.txt").read_text(encoding="utf-8").splitlines():
            if found := re.match(r"([a-z0-9_]+)[^:#]*:([^#]*)", line):
                self.crates[found[1]] = found[2].split()
                (self.top / "crates" / found[1] / "src").mkdir(parents=True)
                (self.top / "crates" / found[1] / "src" / "lib.rt").touch()
        self.command("rt", RT)

    def command(self, name, text):
        (self.words / name).write_text(text, encoding="utf-8")
        (self.words / name).chmod(0o755)

    def run(self, seconds=0.02, path=None, **more):
        there = {"PATH": path or f"{self.words}:{os.environ['PATH']}", "SECONDS_EACH": str(seconds), **more}
        ran = subprocess.run([self.top / "bin/ebusd", "once", "x y"], stdin=subprocess.DEVNULL, capture_output=True, text=True, env=there, timeout=PATIENCE)
        return ran.returncode, ran.stdout, ran.stderr.splitlines()


def each_crate_has_its_seconds(site):
    """Those that the program is made of, and no others."""
    wanted, left = set(), ["ebusd"]
    while left:
        name = left.pop()
        if name in site.crates and name not in wanted:
            wanted.add(name)
            left += site.crates[name]
    lines = [it.split() for it in Path("bin/build-times").read_text(encoding="utf-8").splitlines() if not it.startswith("#")]
    wrong = [it for it in lines if len(it) != 2 or not it[1].isdigit() or it[1] == "0"]
    assert not wrong, wrong
    names = [it[0] for it in lines]
    assert sorted(names) == sorted(wanted), set(names) ^ wanted


def first_build(site):
    status, said, lines = site.run()
    assert (status, said) == (0, "program once x y\n"), (status, said, lines[-5:])
    first, *middle, last = lines
    assert FIRST.fullmatch(first), first
    count = int(FIRST.fullmatch(first)[1])
    found = [LINE.fullmatch(it) for it in middle]
    assert all(found), next(it for it, one in zip(middle, found) if not one)
    assert [int(it[1]) for it in found] == list(range(1, count + 1)), f"{len(found)} lines for {count} crates"
    assert all(int(it[2]) == count for it in found), middle
    assert all(it[4] for it in found[:3]) and not found[-1][4], middle
    assert re.fullmatch(r"ebusd: built in \d+ s", last), last


def no_build(site):
    assert site.run() == (0, "program once x y\n", []), site.run()


def what_changed(site):
    at = site.top / "crates/ebusd/out/ebusd"
    later = at.stat().st_mtime + 5
    os.utime(site.top / "crates/bus_server/src/lib.rt", (later, later))
    status, said, lines = site.run()
    assert status == 0, lines
    assert lines[0].startswith("ebusd: a source is newer than the program: proving 2 of "), lines[0]
    assert not any("minute" in it for it in lines), lines


def a_line_a_minute(site):
    site.command("sleep", SLEEP)
    (site.top / "crates/ebusd/out/ebusd").unlink()
    shutil.rmtree(site.top / "crates/json_text/out")
    status, _, lines = site.run(seconds=1.2)
    found = [LINE.fullmatch(it) for it in lines[1:-1]]
    assert status == 0 and all(found), lines
    assert sum(it[1] == "0" and it[3] == "; now json_text" for it in found) >= 2, lines


def little_disk(site):
    site.command("df", DF)
    (site.top / "crates/ebusd/out/ebusd").unlink()
    status, said, lines = site.run()
    (site.words / "df").unlink()
    assert (status, said) == (70, ""), (status, lines)
    assert lines[-1].startswith("ebusd: a first build needs 14 GB of disk, and 4 GB are free."), lines


def a_failed_proof(site):
    (site.top / "crates/ebusd/out/ebusd").unlink(missing_ok=True)
    shutil.rmtree(site.top / "crates/router_core/out")
    status, said, lines = site.run(FAILS="router_core")
    assert (status, said) == (70, ""), (status, lines)
    assert any("its last lines on router_core are" in it for it in lines), lines
    assert any("error: not proved" in it for it in lines), lines


def no_toolchain(site):
    (site.words / "rt").unlink()
    for name in ("env", "bash", "find", "flock", "readlink", "cat"):
        if at := shutil.which(name):
            (site.words / name).symlink_to(at)
    status, said, lines = site.run(path=str(site.words))
    assert (status, said) == (127, ""), (status, lines)
    assert "not on the PATH" in lines[-1], lines


def main():
    passed = failed = 0
    with tempfile.TemporaryDirectory() as folder:
        site = Site(Path(folder))
        for case in (each_crate_has_its_seconds, first_build, no_build, what_changed, a_line_a_minute, little_disk, a_failed_proof, no_toolchain):
            try:
                case(site)
                passed += 1
            except (AssertionError, subprocess.TimeoutExpired) as fault:
                failed += 1
                print(f"build: {case.__name__}: {fault}")
    print(f"{passed} passed, {failed} failed")
    return 1 if failed else 0


if __name__ == "__main__":
    sys.exit(main())
