#!/usr/bin/env bash
# Runs the measures one after another, on a machine that does nothing else meanwhile, and writes what they
# print into the table of docs/PERFORMANCE.md, with the machine, the day and the commit. Where one of them goes
# wrong nothing is written. It takes some fifteen minutes once the program is built. `kill.sh`, `threads.sh` and
# `torture.sh` measure nothing; they test.
set -euo pipefail
root=$(cd "$(dirname "${BASH_SOURCE[0]}")/.." && pwd)
page=$root/docs/PERFORMANCE.md
work=$(mktemp -d)
trap 'rm -rf "$work"' EXIT

# Prints the row of a measure: what it measures, its script, and what that prints, in one cell.
row() {
  local script=$1 what=$2
  "$root/bench/$script" > "$work/printed"
  awk -v what="$what" -v script="$script" '
    { told = told (NR > 1 ? "; " : "") $0 }
    END { printf "| %s | `bench/%s` | %s |\n", what, script, told }' "$work/printed"
}

# Prints the table, under where and when it was measured.
table() {
  local model commit
  model=$(awk -F': ' '/^model name/ { print $2; exit }' /proc/cpuinfo)
  commit=$(git -C "$root" rev-parse --short HEAD)
  echo "On $(nproc) processors ($model), on $(date +%F), of commit $commit, in one run of \`bench/all.sh\`:"
  echo
  echo "| what | measure | result |"
  echo "|---|---|---|"
  row serial.sh "works of class Echo, each enqueued by a line of its own, which runs at once"
  row plain.sh "works of a generated input, and the same by a plain engine without proofs, store and texts"
  row chains.sh "one line of works in ten layers, each after all works of the layer before"
  row observers.sh "1,000 works, with ten observers of one work each"
  row names.sh "lines that look at many works"
  row ends.sh "lines that end many works at once"
  row lines.sh "the reading of 100,000 lines of about 160 bytes"
  row store.sh "commits to a file on a disk, the opening of a store, and its size"
  row groups.sh "generated groups of five works in a store on a disk"
  row memory.sh "100,000 works of class Count, of ten turns each"
  row audits.sh "the export of a run, and the check of its audit"
  row pool.sh "what threads cost works that take next to no time, and gain those that take a millisecond a turn"
}

table > "$work/table"
awk -v table="$work/table" '
  /^<!-- measured -->$/ { print; while ((getline line < table) > 0) print line; inside = 1; next }
  /^<!-- \/measured -->$/ { inside = 0 }
  !inside { print }' "$page" > "$work/page"
cmp -s "$page" "$work/page" || cp "$work/page" "$page"
cat "$work/table"
