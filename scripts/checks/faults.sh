#!/usr/bin/env bash
# Runs the built program where something fails around it, and compares its statuses and lines.
#
#   scripts/check faults
#
# A full disk, a closed pipe, unreadable files, the two files changed over, words that aren't text,
# and limits of memory; and runs of workers with their progress shown, over a locked file, on a full
# disk, and under limits of memory and of threads.
#
# It needs `cb_play`, which is built first unless PROGRAM names a built one. What can't be had here
# is skipped with a line: the machine's sqlite3 (for the locked file), a mount of 64 KB, which only
# root can make (for the full disk), and a limit of threads, which root hasn't. It takes about a
# minute once the program is built.
set -u
cd "$(dirname "$0")/../.."
. scripts/checks/locked.sh
room=$(mktemp -d)
trap 'rm -rf "$room"' EXIT
program=$(python3 scripts/building.py play "$room") || exit 2
config=$PWD/crates/cb_play/data/first.toml
schedule=$PWD/crates/cb_play/data/first.schedule
# what the stored run has of that play, which comes first
whole=$(sed -n '2,/^status /p' crates/cb_play/stdout | sed '$d')
bad=0

# says what a run came to: NAME STATUS-WANTED LINE-WANTED, with the status in $status and the lines
# in out and err
wanted() {
  local name=$1 want=$2 line=$3 out
  out=$(cat "$room/err")
  if [ "$status" = "$want" ] && [ "$out" = "$line" ]; then
    echo "$name: ok"
  else
    echo "$name: FAILED, status $status, said: $out"
    bad=1
  fi
}

# the same of a run with these words, whose output is kept: NAME STATUS-WANTED LINE-WANTED WORD..
runs() {
  local given=("${@:1:3}")
  shift 3
  "$program" "$@" >"$room/out" 2>"$room/err"
  status=$?
  wanted "${given[@]}"
}

"$program" play "$config" "$schedule" >"$room/out" 2>"$room/err"; status=$?
[ "$(cat "$room/out")" = "$whole" ] || { echo "the plain run prints something else"; bad=1; }
wanted "a plain run" 0 ""

runs "the two files changed over" 2 "config: text" play "$schedule" "$config"

"$program" play "$config" "$schedule" >/dev/full 2>"$room/err"; status=$?
wanted "a full disk" 5 "cannot write"

"$program" --help >/dev/full 2>"$room/err"; status=$?
wanted "help on a full disk" 5 "cannot write"

"$program" play "$config" "$schedule" 2>/dev/full >/dev/full; status=$?; : >"$room/err"
wanted "a full disk for the standard error too" 5 ""

"$program" play "$config" "$room/none" 2>/dev/full >"$room/out"; status=$?; : >"$room/err"
wanted "a refusal on a full disk" 5 ""

# the reader is gone before the program writes
mkfifo "$room/pipe"
exec 8<>"$room/pipe" 9>"$room/pipe" 8<&-
"$program" play "$config" "$schedule" 2>"$room/err" >&9; status=$?
exec 9>&-
wanted "a closed pipe" 5 ""

"$program" play "$config" "$schedule" >&- 2>"$room/err"; status=$?
wanted "a closed standard output" 5 "cannot write"

for path in "$room/none" "$room" /proc/self/mem; do
  runs "an unreadable configuration, $path" 2 "cannot read $path" play "$path" "$schedule"
  runs "an unreadable schedule, $path" 2 "cannot read $path" play "$config" "$path"
done

runs "a path of control characters" 2 "cannot read $room/a\\u{0a}\\u{1b}[31mb" \
  play "$config" "$room/"$'a\n\e[31mb'

runs "a word that isn't text" 2 "words: text" play "$config" $'\xff'

printf '"a\\u001bb" = 1\n' >"$room/key.toml"
runs "a key of control characters" 2 'config: unknown a\u{1b}b' play "$room/key.toml" "$schedule"

"$program" --version >"$room/out" 2>"$room/err"; status=$?
if ! [[ $(cat "$room/out") =~ ^cb_play\ [0-9.]+$ ]]; then
  echo "the version is $(cat "$room/out")"
  bad=1
fi
wanted "the version" 0 ""

# Limits of memory: a long play under less and less. Each run ends with the whole play, or with
# status 4, `memory`, and whole lines of the play's beginning; some end amid the events.
yes "take 9" | head -n 300000 >"$room/long.schedule"
"$program" play "$config" "$room/long.schedule" >"$room/whole" 2>"$room/err"; status=$?
wanted "a long play" 0 ""
ended_whole=0 ended_before=0 ended_amid=0
for limit in $(seq 4000 4000 120000); do
  (ulimit -v "$limit"; "$program" play "$config" "$room/long.schedule") >"$room/out" 2>"$room/err"
  status=$?
  if [ "$status" = 0 ] && cmp -s "$room/out" "$room/whole" && [ ! -s "$room/err" ]; then
    ended_whole=$((ended_whole + 1))
  elif [ "$status" = 4 ] && [ "$(cat "$room/err")" = memory ] && [ ! -s "$room/out" ]; then
    ended_before=$((ended_before + 1))
  elif [ "$status" = 4 ] && [ "$(cat "$room/err")" = memory ] \
    && head -n "$(wc -l <"$room/out")" "$room/whole" | cmp -s - "$room/out"; then
    ended_amid=$((ended_amid + 1))
  elif [ "$status" -ge 126 ]; then
    : # too little to start a process at all
  else
    echo "with $limit KB: FAILED, status $status, said: $(cat "$room/err")"
    bad=1
  fi
done
echo "limits of memory: $ended_before ended before an event, $ended_amid amid the events," \
  "$ended_whole whole"
if [ $ended_amid = 0 ] || [ $ended_whole = 0 ]; then
  echo "the limits decide nothing: FAILED"
  bad=1
fi

# Runs of workers: 100 jobs of four clients over a new store.
counters=$PWD/crates/cb_play/data/jobs.toml
counted=$'committed 100\nsum 200'

"$program" run --progress "$counters" "$room/shown.db" >"$room/out" 2>"$room/err"; status=$?
if [ "$status" = 0 ] && [ "$(cat "$room/out")" = "$counted" ] && [ -s "$room/err" ] \
  && ! grep -qvE '^committed [0-9]+ of 100, [0-9]+\.[0-9] a batch$' "$room/err"; then
  echo "a run with its progress shown: ok"
else
  echo "a run with its progress shown: FAILED, status $status, said: $(cat "$room/err")"
  bad=1
fi

# A run that was refused: nothing on the output.
prints_nothing() {
  if [ -s "$room/out" ]; then
    echo "$1: FAILED, it prints on the output"
    bad=1
  fi
}

if command -v sqlite3 >/dev/null; then
  "$program" run "$counters" "$room/locked.db" >"$room/out" 2>"$room/err"
  lock_file "$room" "$room/locked.db"
  "$program" run "$counters" "$room/locked.db" >"$room/out" 2>"$room/err"; status=$?
  let_go
  wanted "a run over a locked file" 3 "store: Store"
  prints_nothing "a run over a locked file"
else
  echo "a run over a locked file: skipped, there is no sqlite3"
fi

mkdir "$room/small"
if mount -t tmpfs -o size=64k tmpfs "$room/small" 2>/dev/null; then
  "$program" run "$counters" "$room/small/full.db" >"$room/out" 2>"$room/err"; status=$?
  umount "$room/small"
  wanted "a run on a full disk" 3 "store: Store"
  prints_nothing "a run on a full disk"
else
  echo "a run on a full disk: skipped, nothing can be mounted here"
fi

# A run under a limit ends whole, or with status 4, `memory`, and nothing on the output.
limited() {
  if [ "$status" = 0 ] && [ "$(cat "$room/out")" = "$counted" ] && [ ! -s "$room/err" ]; then
    run_whole=$((run_whole + 1))
  elif [ "$status" = 4 ] && [ "$(cat "$room/err")" = memory ] && [ ! -s "$room/out" ]; then
    run_refused=$((run_refused + 1))
  elif [ "$status" -ge 126 ]; then
    : # too little to start a process at all
  else
    echo "a run with $1: FAILED, status $status, said: $(cat "$room/err")"
    bad=1
  fi
}

run_whole=0 run_refused=0
for limit in $(seq 4000 8000 200000); do
  rm -f "$room"/limit.db*
  (ulimit -v "$limit"; "$program" run "$counters" "$room/limit.db") >"$room/out" 2>"$room/err"
  status=$?
  limited "$limit KB"
done
echo "runs under limits of memory: $run_refused refused, $run_whole whole"

if [ "$(id -u)" = 0 ]; then
  echo "runs under limits of threads: skipped, root has no such limit"
else
  run_whole=0 run_refused=0
  threads=$(ps -L -u "$(id -u)" -o lwp= | wc -l)
  for more in 1 2 3 4 5 8; do
    rm -f "$room"/limit.db*
    (ulimit -u $((threads + more)); exec "$program" run "$counters" "$room/limit.db") \
      >"$room/out" 2>"$room/err"
    status=$?
    limited "$((threads + more)) threads"
  done
  echo "runs under limits of threads: $run_refused refused, $run_whole whole"
fi
exit $bad
