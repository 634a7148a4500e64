#!/usr/bin/env bash
# Makes the requests of examples/tables and compares their replies. A word names another program to run. The last line is
# `N passed, M failed`.
cd "$(dirname "$0")/../.." || exit 1
exec python3 -E -B .ci/checks/tables.py "$@"
