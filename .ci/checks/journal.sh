#!/usr/bin/env bash
# Runs `once` and `serve` with a journal: whole, cut into two processes, killed, with calls of its disk that fail, on a full disk, after crashes.
# A word names another program to run. The last line is `N passed, M failed`.
cd "$(dirname "$0")/../.." || exit 1
exec python3 -E -B .ci/checks/journal.py "$@"
