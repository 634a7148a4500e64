#!/usr/bin/env bash
# Delivers to servers that answer in many ways, or not at all, in about ten seconds. A word names another program to run. The last
# line is `N passed, M failed`.
cd "$(dirname "$0")/../.." || exit 1
exec python3 -E -B .ci/checks/link.py "$@"
