"""The crates of the repository, and how a script has the prover check one of them over the libraries in crates/*/out."""
import os
import re
import shutil
from pathlib import Path

TOP = Path(__file__).resolve().parent.parent
CRATES = TOP / "crates"
JOB_BYTES = 3 << 30  # memory that one check may take


def read_graph():
    """The crates that each crate names, in the order of crates.txt."""
    found = {}
    for line in (TOP / "crates.txt").read_text(encoding="utf-8").split("\n"):
        if at := re.match(r"\s*([a-z0-9_]+)(?: [^:#]*)?:([^#]*)", line):
            found[at[1]] = at[2].split()
    return found


USES = read_graph()


def below(crate):
    """The crates of the repository that a crate stands on, lowest first."""
    found = []
    for name in USES[crate]:
        if name in USES:
            found += [one for one in [*below(name), name] if one not in found]
    return found


def rlib_of(crate):
    return CRATES / crate / "out" / "rlib" / f"{crate}.rlib"


def lacking(crates):
    """The libraries below these crates that crates/*/out does not have."""
    wanted = {name for crate in crates for name in below(crate)}
    return [it for it in USES if it in wanted and not rlib_of(it).exists()]


def check_words(crate):
    """The words of a check from nothing, to be run in the crate's folder or in a copy of it."""
    kit = Path(os.path.realpath(shutil.which("rt"))).parent.parent
    root = "src/main.rt" if (CRATES / crate / "src" / "main.rt").is_file() else "src/lib.rt"
    said = [str(kit / "bin" / "rattle"), "check", "--crate-name", crate, root]
    for name in ["std", *USES[crate]]:
        said += ["--extern", f"{name}={rlib_of(name) if name in USES else kit / 'rlibs' / f'{name}.rlib'}"]
    said += ["-L", f"dependency={kit}/rlibs"]
    for name in below(crate):
        said += ["-L", f"dependency={rlib_of(name).parent}"]
    said += ["--antt-project", f"{kit}/rattle/logic/antt-project.json", "--logic-built", f"{kit}/logic_built"]
    return [*said, "--links", f"{crate}=", "--jobs", "1"]


def group_free():
    """What the limit of this process's control group leaves of memory, in bytes, if it has one."""
    for limit, held in (("memory.max", "memory.current"), ("memory/memory.limit_in_bytes", "memory/memory.usage_in_bytes")):
        try:
            most, taken = (Path("/sys/fs/cgroup", it).read_text(encoding="utf-8").strip() for it in (limit, held))
        except OSError:
            continue
        if most.isdigit():
            return int(most) - int(taken)
    return 1 << 62


def job_count():
    """How many checks the processors and the free memory allow; at most RT_JOBS, if it is set."""
    meminfo = Path("/proc/meminfo").read_text(encoding="utf-8")
    free = int(re.search(r"MemAvailable:\s+(\d+)", meminfo)[1]) * 1024
    asked = os.environ.get("RT_JOBS", "")
    most = int(asked) if asked.isdigit() else 1 << 10
    return max(1, min(len(os.sched_getaffinity(0)), most, min(free, group_free()) // JOB_BYTES))
