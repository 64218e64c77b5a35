#!/usr/bin/env bash
# Measures how far several stores go beside each other, in a new folder below the one that is named (/tmp
# where none is): 1, 2 and 4 processes (or as many as are named after the folder), each on a store of its
# own, do the same script each, of 200 lines that enqueue [a, b, c], then d, then e, all of class Echo.
# That is a commit for each line, each start and each end. Prints for each number the best time of five
# rounds until all have ended, the works a second of all together, and how that compares with the first.
#
# The commits of all stores wait for one disk: where it is slow, that is measured, and in a folder in
# memory, as /dev/shm, the processors are.
set -euo pipefail
root=$(cd "$(dirname "${BASH_SOURCE[0]}")/.." && pwd)
work=$(mktemp -d "${1:-/tmp}/work.XXXXXX")
trap 'rm -rf "$work"' EXIT
shift $(($# > 0 ? 1 : 0))
program=$root/crates/work/out/work
groups=200
rounds=5
"$root/bin/work" --prove

# Prints the script; its last line asks for a summary.
script() {
  awk -v groups="$groups" '
    function work(number) { return sprintf("{\"class\":\"Echo\",\"id\":\"%032x\"}", number) }
    BEGIN {
      for (group = 0; group < groups; group++) {
        first = 5 * group + 1
        printf "{\"cmd\":\"enqueue\",\"layers\":[[%s,%s,%s],[%s],[%s]]}\n", \
          work(first), work(first + 1), work(first + 2), work(first + 3), work(first + 4)
      }
      print "{\"cmd\":\"summary\"}"
    }'
}

# Does the script on so many new stores at once, and sees that all works of each have succeeded.
run_beside() {
  local shard runs=()
  rm -f "$work"/shard*
  for ((shard = 1; shard <= $1; shard++)); do
    "$program" --store "$work/shard$shard" < "$work/script" > "$work/replies$shard" &
    runs+=($!)
  done
  for shard in "${runs[@]}"; do wait "$shard"; done
  for ((shard = 1; shard <= $1; shard++)); do
    tail -n 1 "$work/replies$shard" | grep -q "\"succeeded\":$((5 * groups))}"
  done
}

# Prints how many microseconds the best round with so many stores takes.
best_of() {
  local best=0 start now
  for ((round = 0; round < rounds; round++)); do
    start=$(date +%s%N)
    run_beside "$1"
    now=$((($(date +%s%N) - start) / 1000))
    if [ "$best" -eq 0 ] || [ "$now" -lt "$best" ]; then best=$now; fi
  done
  echo "$best"
}

script > "$work/script"
if [ "$#" -eq 0 ]; then set -- 1 2 4; fi
one=
for shards in "$@"; do
  taken=$(best_of "$shards")
  rate=$(awk -v works=$((5 * groups * shards)) -v us="$taken" 'BEGIN { printf "%.0f", works * 1000000 / us }')
  one=${one:-$rate}
  awk -v shards="$shards" -v us="$taken" -v rate="$rate" -v one="$one" 'BEGIN {
    printf "stores: %d, %.0f ms, %d works a second, %.2f times the first\n", shards, us / 1000, rate, rate / one }'
done
