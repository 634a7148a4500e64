"""Runs the quick start of README.md, and compares what each line prints with what README says.

The lines are those of the first block of sh in README's part "Quick start", and one bash runs them in their order. What a line prints is
in the comments `#>` after it: `#> the bytes of FILE` is the whole of a file. Of an event only the digits of its `time` are left out. The
line that serves in the background is ended when the others are done. An empty list of PeekMessages means that the delivery is not
made yet, as README says, so that line is then run again.
"""
import os
import re
import signal
import socket
import subprocess
import sys
import tempfile
from pathlib import Path

README = Path("README.md")
PORT = 9100  # of the line that serves
PATIENCE = 120  # seconds for all lines
AGAIN = 100  # times that a PeekMessages is run again, a tenth of a second apart
EMPTY = '{"Messages":[]}'
SLOW = "bin/try "  # takes a minute, so it runs only by the word `all`
NEEDED = (SLOW, "bin/ebusd serve ", "PutEvents", "PeekMessages")  # each is in some line


def lines_of(text):
    """Each line of the quick start, with what README says it prints."""
    part = re.search(r"^## Quick start\n(.*?)^## ", text, re.MULTILINE | re.DOTALL)
    block = part and re.search(r"^```sh\n(.*?)^```", part[1], re.MULTILINE | re.DOTALL)
    if not block:
        sys.exit("README.md has no block of sh in a part `Quick start`\n0 passed, 1 failed")
    lines = []
    for line in block[1].splitlines():
        if line.startswith("#> "):
            lines[-1][1].append(line[3:])
        elif line.strip():
            lines.append((line, []))
    lacking = [it for it in NEEDED if not any(it in line for line, _ in lines)]
    if lacking:
        sys.exit(f"the quick start of README.md has no line with {', '.join(lacking)}\n0 passed, 1 failed")
    return lines


def wanted_of(said):
    """The text that the comments after a line say."""
    if said and (file := re.fullmatch(r"the bytes of (\S+)", said[0])):
        return Path(file[1]).read_bytes().decode()
    return "".join(it + "\n" for it in said)


def script_of(lines, room):
    """A bash script that runs the lines, each with its output in a file of its own."""
    script = ["set -u"]
    for at, (line, _) in enumerate(lines):
        files = f'>"{room}/{at}.out" 2>"{room}/{at}.err"'
        script.append(f"{{ {line}\n}} {files}")
        if line.split(" #")[0].rstrip().endswith("&"):
            script.append(f'echo $! >"{room}/server"')
        if "PeekMessages" in line:
            again = f'[[ $(<"{room}/{at}.out") == \'{EMPTY}\' ]]'
            script.append(f"for ((i = 0; i < {AGAIN}; i++)); do {again} || break; sleep 0.1; {{ {line}\n}} {files}; done")
    return "\n".join(script) + "\n"


def comparable(text):
    """The text without the digits of the times in events."""
    return re.sub(r'(\\"time\\":\\")\d{4}-\d\d-\d\dT\d\d:\d\d:\d\dZ(\\")', r"\1..\2", text)


def end_server(room):
    try:
        pid = int((room / "server").read_text())
    except (OSError, ValueError):
        return
    try:
        os.kill(pid, signal.SIGTERM)
    except ProcessLookupError:
        pass


def is_free(port):
    with socket.socket() as it:
        it.setsockopt(socket.SOL_SOCKET, socket.SO_REUSEADDR, 1)
        try:
            it.bind(("127.0.0.1", port))
        except OSError:
            return False
    return True


def main():
    lines = []
    for it in lines_of(README.read_text(encoding="utf-8")):
        if "all" in sys.argv[1:] or not it[0].startswith(SLOW):
            lines.append(it)
        else:
            print(f"quickstart: without the word `all` this line is left out: {it[0]}")
    if not is_free(PORT):
        print(f"quickstart: port {PORT} of 127.0.0.1 is in use: end what listens there, the quick start needs this port")
        print(f"0 passed, {len(lines)} failed")
        return 1
    # Builds the program now if it is missing, so that the lines below have no line of the builder among their own.
    built = subprocess.run(["bin/ebusd", "once", "--now", "0"], stdin=subprocess.DEVNULL)
    if built.returncode:
        print(f"quickstart: bin/ebusd ends with status {built.returncode} on empty input")
        print(f"0 passed, {len(lines)} failed")
        return 1
    passed, failed = 0, 0
    with tempfile.TemporaryDirectory() as folder:
        room = Path(folder)
        # curl goes through no proxy, whatever the environment says.
        clean = {**os.environ, "no_proxy": "*", "NO_PROXY": "*"}
        try:
            ran = subprocess.run(["bash", "-c", script_of(lines, room)], stdin=subprocess.DEVNULL, env=clean, timeout=PATIENCE)
            status = ran.returncode
        except subprocess.TimeoutExpired:
            status = f"none after {PATIENCE} s"
        finally:
            end_server(room)
        for at, (line, said) in enumerate(lines):
            got, faults = ((room / f"{at}.{it}") for it in ("out", "err"))
            got = got.read_bytes().decode(errors="replace") if got.exists() else "nothing, since it was not run"
            wanted = wanted_of(said)
            if comparable(got) == comparable(wanted):
                passed += 1
                continue
            failed += 1
            print(f"README.md: {line}\n  is to print {wanted[:400]!r}\n  it prints    {got[:400]!r}")
            if faults.exists() and faults.read_bytes():
                print(f"  and on standard error {faults.read_bytes()[-300:]!r}")
        if status:
            failed += 1
            print(f"quickstart: bash ends with status {status}")
    print(f"{passed} passed, {failed} failed")
    return 1 if failed else 0


if __name__ == "__main__":
    sys.exit(main())
