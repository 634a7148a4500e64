#!/usr/bin/env bash
# Runs the quick start of README.md as it is written there, by the built program, and compares what each line prints with README. Without
# the line of bin/try, which takes a minute; the word `all` runs it too. Port 9100 has to be free. The last line is `N passed, M failed`.
cd "$(dirname "$0")/../.." || exit 1
exec python3 -E -B .ci/checks/quickstart.py "$@"
