#!/usr/bin/env bash
# Checks the model of the mixed runs by rows worked by hand, without the program. The last line is `N passed, M failed`.
cd "$(dirname "$0")/../.." || exit 1
exec python3 -E -B .ci/checks/model.py
