#!/usr/bin/env bash
# Reads files by `ebusd check`: stored ones, a journal that is cut or has a bit flipped, and what crashes may leave. A word names another
# program to run. The last line is `N passed, M failed`.
cd "$(dirname "$0")/../.." || exit 1
exec python3 -E -B .ci/checks/journal_files.py "$@"
