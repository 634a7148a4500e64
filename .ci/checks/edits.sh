#!/usr/bin/env bash
# Applies every edit of the crates, and tries some of those in crates/*/edits: of crates that have changed since `.ci/edits NAME`
# was run, and of the others. .ci/edits says how they are drawn. The last line is `N passed, M failed`.
cd "$(dirname "$0")/../.." || exit 1
exec .ci/edits --gate
