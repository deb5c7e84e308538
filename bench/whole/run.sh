#!/usr/bin/env bash
# Times the built program on made files, beside plain programs that do the same, and prints one table: wall time and
# processor time in seconds, the peak of memory in MB, and the wall time in those of the program baseline.rs, which is
# written by hand and proves nothing. A plan is answered by `serial`, `run`, `pool 4` and `parts 4`. What is compared writes the
# same bytes, or this ends with status 1. Each figure is of the quickest of RUNS runs.
#
#   history         an event file of 2^26 bytes; beside `sort`, by keys and of whole lines, and `wc -l`
#   revised         an event file of 2^26 bytes of which every fourth line is a revision; beside the file without these
#   join            two sources of SIZE events each, of 100 machines, joined by machine; beside Python over SQLite
#   join_group      the same join, and then counts and sums by machine
#   sequence        an event of the one and within 100 an event of the other source of the same machine
#   unless          an event of the one, where within 100 no event of the other of the same machine begins
#   keyed           the join with ten events a machine in each source
#   heavy           the join of sources of ten machines, where nine tenths of the events are of the first
#   chain           one source of SIZE events through 40 selects
#   wide            a plan of 64 nodes: eight sources of SIZE events each, joined two and two by machine, each join through
#                   selects to counts and sums, and a union of the four
#   peaks           one source of twice SIZE events: counts, sums, and least and greatest values by machine; beside the
#                   same with counts and sums alone (sums)
#   atleast         events of two of three sources of SIZE events each, of the same machine, within 10 of each other in any
#                   order; beside an event of the first source and within 10 one of the second (followed)
#   except          the parts of an event of the one source in which no event of the other of the same machine is valid;
#                   beside the join of both
#   make            `cedr make SIZE`, which makes its own events, where SIZE is at most 100,000
#
# Build the program first: (cd crates/cedr && rt run -- --version)
#
# usage: bench/whole/run.sh [SIZE [RUNS [WORKLOAD..]]]
set -eu
here=$(cd "$(dirname "$0")" && pwd)
program=$here/../../crates/cedr/out/cedr
threads=4
size=${1:-100000}
runs=${2:-3}
if [ $# -gt 2 ]; then shift 2; workloads=("$@"); else
  workloads=(history revised join join_group sequence unless keyed heavy chain wide peaks atleast except make)
fi
if ! [ -x "$program" ]; then echo "build the program first: $program isn't there"; exit 2; fi
folder=$(mktemp -d)
trap 'rm -rf "$folder"' EXIT
cd "$folder"
if command -v rustc > /dev/null; then rustc --edition 2021 -O -o baseline "$here/baseline.rs"; else
  echo "the hand-written program is left out: there is no rustc"
fi
sqlite=$(python3 -c "import sqlite3; print(sqlite3.sqlite_version)" 2> /dev/null) || echo "SQLite is left out"

# timed NAME COMMAND..: writes the output of the command to NAME and `WALL PROCESSOR PEAK` to NAME.time
timed() {
  local name=$1
  shift
  rm -f "$name.times"
  for _ in $(seq "$runs"); do
    /usr/bin/time -q -o once -f "%e %U %S %M" timeout 900 "$@" > "$name"
    awk '{ print $1, $2 + $3, $4 / 1024 }' once >> "$name.times"
  done
  sort -g "$name.times" | head -1 > "$name.time"
}

# show WORKLOAD NAME: prints a line of the table
show() {
  local wall processor peak
  read -r wall processor peak < "$2.time"
  awk -v workload="$1" -v name="$2" -v wall="$wall" -v processor="$processor" -v peak="$peak" \
    -v base="$( [ -f baseline_ran.time ] && cut -d' ' -f1 baseline_ran.time || echo 0)" 'BEGIN {
      printf "%-11s %-10s %8.2f %9.2f %8.0f", workload, name, wall, processor, peak
      if (base > 0) printf " %7.1f", wall / base
      print ""
    }'
}

# beside WORKLOAD FIRST OTHER..: shows what was timed, and compares the bytes of the others with those of the first
beside() {
  local workload=$1 first=$2 name
  shift
  for name in "$@"; do
    [ -f "$name.time" ] || continue
    show "$workload" "$name"
    cmp "$first" "$name" || exit 1
  done
}

by_hand() {
  rm -f baseline_ran*
  if [ -x baseline ]; then timed baseline_ran ./baseline "$@"; fi
}

two_sources() {
  python3 "$here/events.py" "$size" 1 "$@" > a.csv
  python3 "$here/events.py" "$size" 2 "$@" > b.csv
}

# by_cedr PLAN: times the commands that answer a plan
by_cedr() {
  timed serial "$program" serial "$1.json"
  timed run "$program" run "$1.json"
  timed pool "$program" pool "$threads" "$1.json"
  timed parts "$program" parts "$threads" "$1.json"
}

python3 "$here/plans.py" .
printf "%-11s %-10s %8s %9s %8s %7s\n" workload program wall processor MB "x hand"
for workload in "${workloads[@]}"; do
  rm -f ./*.time
  case $workload in
    history)
      python3 "$here/history.py" 67108864 > events.csv
      by_hand history events.csv
      timed history "$program" history events.csv
      timed sort env LC_ALL=C sort -t, -k4,4n -k3,3n events.csv
      timed sort_lines env LC_ALL=C sort events.csv
      timed wc wc -l events.csv
      beside history history baseline_ran
      show history sort
      show history sort_lines
      show history wc
      ;;
    revised)
      rm -f baseline_ran*
      python3 "$here/revised.py" 67108864 > revised.csv
      grep -v '^~' revised.csv > inserted.csv
      timed revised "$program" history revised.csv
      timed inserted "$program" history inserted.csv
      show revised revised
      show revised inserted
      ;;
    make)
      if [ "$size" -le 100000 ]; then
        by_hand make "$size"
        timed make "$program" make "$size"
        beside make make baseline_ran
      fi
      ;;
    wide)
      rm -f baseline_ran*
      seed=1
      for source in a b c d e f g h; do
        python3 "$here/events.py" "$size" $seed > "$source.csv"
        seed=$((seed + 1))
      done
      by_cedr wide
      beside wide serial run pool parts
      ;;
    peaks)
      python3 "$here/events.py" $((2 * size)) 1 > a.csv
      for plan in sums peaks; do
        by_hand "$plan" a.csv
        by_cedr "$plan"
        if [ -n "$sqlite" ]; then timed SQLite python3 "$here/on_sqlite.py" "$plan"; fi
        beside "$plan" serial run pool parts baseline_ran SQLite
      done
      ;;
    atleast|except)
      two_sources 100
      python3 "$here/events.py" "$size" 3 > c.csv
      plans=(join except)
      if [ "$workload" = atleast ]; then plans=(followed atleast); fi
      for plan in "${plans[@]}"; do
        files=(a.csv b.csv)
        if [ "$plan" = atleast ]; then files+=(c.csv); fi
        by_hand "$plan" "${files[@]}"
        by_cedr "$plan"
        if [ -n "$sqlite" ]; then timed SQLite python3 "$here/on_sqlite.py" "$plan"; fi
        beside "$plan" serial run pool parts baseline_ran SQLite
      done
      ;;
    *)
      plan=$workload
      machines=(100)
      if [ "$workload" = keyed ]; then plan=join machines=($((size / 10))); fi
      if [ "$workload" = heavy ]; then plan=join machines=(10 0 9); fi
      two_sources "${machines[@]}"
      files=(a.csv b.csv)
      if [ "$workload" = chain ]; then files=(a.csv); fi
      by_hand "$plan" "${files[@]}"
      by_cedr "$plan"
      if [ -n "$sqlite" ] && [[ $workload = join* ]]; then timed SQLite python3 "$here/on_sqlite.py" "$plan"; fi
      beside "$workload" serial run pool parts baseline_ran SQLite
      ;;
  esac
done
