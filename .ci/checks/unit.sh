#!/usr/bin/env bash
# Runs `systemd-analyze verify` on examples/ebusd.service, in a copy whose ExecStart names the built program, and on two copies that it has to
# refuse. The program has to take the unit's words. The last line is `N passed, M failed`.
set -u
cd "$(dirname "$0")/../.." || exit 1

UNIT=examples/ebusd.service
INSTALLED=/usr/local/bin/ebusd
passed=0 failed=0
room=$(mktemp -d) || exit 1
trap 'rm -rf "$room"' EXIT

# Counts whether the last command, named $1, ended with status $2.
count() {
  local status=$?
  if [[ $status == "$2" ]]; then
    passed=$((passed + 1))
  else
    echo "unit: $1 ends with status $status, and $2 is wanted"
    failed=$((failed + 1))
  fi
}

verify() {
  [[ $(systemd-analyze verify --man=no "$1" 2>&1 | tee "$room/said") == '' ]]
}

if ! command -v systemd-analyze >/dev/null; then
  export DEBIAN_FRONTEND=noninteractive
  install=(apt-get install -y -q --no-install-recommends systemd)
  "${install[@]}" >/dev/null 2>&1 || { apt-get update -q && "${install[@]}"; } >/dev/null 2>&1
fi
if ! command -v systemd-analyze >/dev/null; then
  echo "unit: systemd-analyze is not here, and Debian's systemd cannot be installed: the unit is not verified"
  echo "0 passed, 0 failed"
  exit 0
fi

bin/ebusd once --now 0 </dev/null >/dev/null || exit 1
program=$PWD/crates/ebusd/out/ebusd

# A copy of the unit in which the words of sed in $1 have changed a line.
copy() {
  mkdir -p "$room/$2" && sed -e "s#$INSTALLED#$program#" -e "$1" "$UNIT" >"$room/$2/ebusd.service"
}

grep -q "^ExecStart=$INSTALLED " "$UNIT"
count "a search for the installed program in $UNIT" 0
copy '' whole && verify "$room/whole/ebusd.service"
count "the check of $UNIT" 0
[[ -s $room/said ]] && cat "$room/said"
copy 's/^Restart=.*/Restart=sometimes/' other && verify "$room/other/ebusd.service"
count "the check of a unit that restarts sometimes" 1
copy "s#$program#/nowhere/ebusd#" gone && verify "$room/gone/ebusd.service"
count "the check of a unit without its program" 1

# The words of the unit, and a request for help after them: a word that the program does not have would be refused.
read -ra words <<<"$(sed -n "s#^ExecStart=$INSTALLED ##p" "$UNIT")"
"$program" "${words[@]}" --help >/dev/null 2>&1
count "the program with the unit's words and --help" 0

echo "$passed passed, $failed failed"
[[ $failed == 0 ]]
