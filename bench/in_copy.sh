#!/usr/bin/env bash
# Puts a crate whose sources stand here as texts beside the other crates in a copy of the repository, builds its tests
# optimised, and prints the times that they tell. The copy has nothing built, so all crates below it are built first.
#
# usage: in_copy.sh FOLDER OF THE CRATE, CRATES THAT IT USES, [PART of a test's name]
set -eu
source=$(cd "$1" && pwd)
crate=${source##*/}
top=$(cd "$(dirname "$0")/.." && pwd)
copy=$(mktemp -d)
trap 'rm -rf "$copy"' EXIT

cp -r "$top/crates.txt" "$top/HANDLES" "$copy"
mkdir "$copy/crates"
for other in "$top"/crates/*; do
  mkdir "$copy/crates/${other##*/}"
  for part in src specs proofs; do
    if [ -d "$other/$part" ]; then cp -r "$other/$part" "$copy/crates/${other##*/}"; fi
  done
done
(cd "$source" && find . -name '*.txt') | while read -r text; do
  mkdir -p "$copy/crates/$crate/$(dirname "$text")"
  cp "$source/$text" "$copy/crates/$crate/${text%.txt}"
done
echo "$crate: $2" >> "$copy/crates.txt"

cd "$copy/crates/$crate"
rt test --backend llvm > "$copy/log" 2>&1 || { tail -40 "$copy/log"; exit 1; }
"out/${crate}_tests" --list | grep -F -- "${3:-::}" | while IFS=' ' read -r name _; do
  "out/${crate}_tests" "${name%:}" | grep ' us'
done
