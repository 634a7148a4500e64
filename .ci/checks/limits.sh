#!/usr/bin/env bash
# Runs the program at its limits. The last line is `N passed, M failed`.
cd "$(dirname "$0")/../.." || exit 1
exec python3 -E -B .ci/checks/limits.py
