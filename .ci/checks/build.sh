#!/usr/bin/env bash
# Runs bin/ebusd over an `rt` that only sleeps, and compares what it says during a build, and its status. Nothing is proved. The last
# line is `N passed, M failed`.
cd "$(dirname "$0")/../.." || exit 1
exec python3 -E -B .ci/checks/build.py
