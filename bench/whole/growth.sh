#!/usr/bin/env bash
# Times the built program as events become more, and prints one table: for each number of events the wall time in seconds,
# the microseconds for an event, the processor time and the peak of memory in MB, of `serial`, `run` and `pool 4`; and how many
# times the time of the first number that is, beside what n log n would be. They write the same bytes, or this ends with status 1.
#
# The events come in eight sources: four on the left side of a join by machine, and four on the right, each with a hundred
# machines that one source of the other side has too. Counts and sums by machine follow. So what is held doesn't grow with
# the number of events, but the answer does.
#
# Build the program first: (cd crates/cedr && rt run -- --version)
#
# usage: bench/whole/growth.sh [EVENTS..]
set -eu
here=$(cd "$(dirname "$0")" && pwd)
program=$here/../../crates/cedr/out/cedr
if [ $# -eq 0 ]; then set -- 131072 1048576 8388608; fi
if ! [ -x "$program" ]; then echo "build the program first: $program isn't there"; exit 2; fi
folder=$(mktemp -d)
trap 'rm -rf "$folder"' EXIT
cd "$folder"
python3 "$here/plans.py" .

# show EVENTS FIRST COMMAND..: times the command, and prints a line of the table
show() {
  local events=$1 first=$2 name=$3 wall user system peak
  shift 2
  /usr/bin/time -q -o once -f "%e %U %S %M" "$program" "$@" growth.json > "$name"
  read -r wall user system peak < once
  if ! [ -f "$name.first" ]; then echo "$wall" > "$name.first"; fi
  awk -v events="$events" -v name="$name" -v wall="$wall" -v user="$user" -v kernel="$system" -v peak="$peak" \
    -v first="$first" -v base="$(cat "$name.first")" 'BEGIN {
      printf "%8d %-7s %8.2f %6.2f %9.2f %6.0f %7.1f %7.1f\n", events, name, wall, 1e6 * wall / events, user + kernel,
        peak / 1024, wall / base, events * log(events) / (first * log(first))
    }'
}

printf "%8s %-7s %8s %6s %9s %6s %7s %7s\n" events program wall "us/e" processor MB "x first" "n log n"
for events in "$@"; do
  seed=0
  for source in a b c d e f g h; do
    python3 "$here/events.py" $((events / 8)) $seed 100 $((seed % 4 * 100)) > "$source.csv"
    seed=$((seed + 1))
  done
  show "$events" "$1" serial
  show "$events" "$1" run
  show "$events" "$1" pool 4
  cmp serial run
  cmp serial pool
done
