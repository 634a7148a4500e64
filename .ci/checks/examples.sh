#!/usr/bin/env bash
# Makes each run of examples/ through bin/ebusd, and compares what it writes, its faults and its status; then the first
# run again with its input in single bytes, and two runs whose input or output fails. A run that fails has a line, and so
# has a file of a run without its .http. The last line is `N passed, M failed`.
set -u
cd "$(dirname "$0")/../.." || exit 1

SECONDS_EACH=60
passed=0 failed=0
room=$(mktemp -d) || exit 1
trap 'rm -rf "$room"' EXIT

# Builds the program now, so that no run below has the builder's lines among its own.
bin/ebusd once --now 0 </dev/null >"$room/replies" || {
  echo "examples: bin/ebusd ended with status $? on empty input"
  echo "0 passed, 1 failed"
  exit 1
}

# Adds to `why` if file $3, which is $1, differs from file $2, the wanted one.
compare() {
  cmp -s "$2" "$3" && return
  local parts
  parts=$(cmp "$2" "$3" 2>&1 | sed -n 's/.* differ: byte \([0-9]*\), line \([0-9]*\).*/ from byte \1, line \2/p')
  why+="; $1 has $(wc -c <"$3") bytes, $(wc -c <"$2") are wanted, and they differ${parts:- at the end of the shorter}"
}

# Checks the last run, named $name, against the files of replies, faults and status that $1, $2 and $3 name.
check_run() {
  local why=
  compare "standard output" "$1" "$room/replies"
  compare "standard error" "$2" "$room/faults"
  [[ $status == "$(<"$3")" ]] || why+="; the status is $status, $(<"$3") is wanted"
  if [[ $why ]]; then
    echo "$name: ${why#; }"
    failed=$((failed + 1))
  else
    passed=$((passed + 1))
  fi
}

# Runs the program with the words of run $1, on this function's standard input.
program() {
  local words
  mapfile -t words <"examples/$1.words"
  timeout "$SECONDS_EACH" bin/ebusd "${words[@]}" 2>"$room/faults"
}

# Writes a file in single bytes, each once the last one is likely to have been read.
slowly() {
  perl -e '
    open my $file, "<:raw", $ARGV[0] or die "$ARGV[0]: $!\n";
    local $SIG{PIPE} = "IGNORE";
    select undef, undef, undef, 0.2;
    while (read $file, my $byte, 1) {
      syswrite STDOUT, $byte or exit 1;
      select undef, undef, undef, 0.001;
    }
  ' "$1"
}

found=
for file in examples/*.http; do
  name=${file##*/}
  name=${name%.http}
  program "$name" <"$file" >"$room/replies"
  status=$?
  check_run "examples/$name.replies" "examples/$name.faults" "examples/$name.status"
  [[ $name == first-run ]] && found=yes
done
for file in examples/*.{words,replies,faults,status}; do
  [[ -e ${file%.*}.http ]] && continue
  echo "$file: there is no ${file%.*}.http"
  failed=$((failed + 1))
done
if [[ ! $found ]]; then
  echo "first-run: there is no such run"
  failed=$((failed + 1))
fi

name="first-run, byte by byte"
slowly examples/first-run.http | program first-run >"$room/replies"
status=${PIPESTATUS[1]}
check_run examples/first-run.replies examples/first-run.faults examples/first-run.status

name="first-run, to a full device"
program first-run <examples/first-run.http >/dev/full
status=$?
: >"$room/replies"
: >"$room/no-reply"
echo "ebusd: output failed" >"$room/wanted-faults"
echo 4 >"$room/wanted-status"
check_run "$room/no-reply" "$room/wanted-faults" "$room/wanted-status"

name="a folder as input"
program first-run <examples >"$room/replies"
status=$?
echo "ebusd: input failed" >"$room/wanted-faults"
echo 3 >"$room/wanted-status"
check_run "$room/no-reply" "$room/wanted-faults" "$room/wanted-status"

echo "$passed passed, $failed failed"
[[ $failed == 0 ]]
