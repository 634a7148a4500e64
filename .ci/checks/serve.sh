#!/usr/bin/env bash
# Serves clients over TCP by `ebusd serve`: many at once, idle ones, slow ones, and those of examples/serve/. The cases run side by
# side and take about 65 seconds, almost all of them asleep. A word names another program to run. The last line is
# `N passed, M failed`.
cd "$(dirname "$0")/../.." || exit 1
unset SERVE_CASES # a check makes all cases
exec python3 -E -B .ci/checks/serve.py "$@"
