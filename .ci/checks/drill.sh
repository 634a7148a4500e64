#!/usr/bin/env bash
# Compares what `ebusd drill` prints with what `ebusd once` replies to the same messages, which the check makes itself, and with what
# `ebusd check` says of their journal. A word names another program to run. The last line is `N passed, M failed`.
cd "$(dirname "$0")/../.." || exit 1
exec python3 -E -B .ci/checks/drill.py "$@"
