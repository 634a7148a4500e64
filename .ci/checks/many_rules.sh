#!/usr/bin/env bash
# Makes three runs with 300 rules on a bus, and compares each reply. The last line is `N passed, M failed`. A word names another program
# to run. rows.py checks by `assert`: with -E no variable turns it off.
cd "$(dirname "$0")/../.." || exit 1
exec python3 -E -B .ci/checks/many_rules.py "$@"
