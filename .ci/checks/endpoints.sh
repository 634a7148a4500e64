#!/usr/bin/env bash
# Delivers to endpoints that answer, are down or answer with faults, in about a minute. A word names another program to run. The
# last line is `N passed, M failed`.
cd "$(dirname "$0")/../.." || exit 1
exec python3 -E -B .ci/checks/endpoints.py "$@"
