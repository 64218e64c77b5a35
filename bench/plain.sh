#!/usr/bin/env bash
# Measures the engine against a plain one (`plain/`, built by `rustc -O`): both run the input that a seed generates,
# 2,000 works in groups of five, for the seed that is named, or else 7. It sees that both write the same summary, and
# prints the processor time of each work, and the ratios. That of the engine is the best of five runs, less a run without
# lines: with a store in memory, by the program `own_worker`, and with its commits to files in memory, by `work`. That of
# the plain one, which keeps neither rows nor a log, is the best of five of 100 runs in one process.
set -euo pipefail
# A run that goes wrong ends the script also where its time is asked for.
shopt -s inherit_errexit
source "$(dirname "${BASH_SOURCE[0]}")/measure.bash"
seed=${1:-7}
groups=400
works=$((5 * groups))
plain_runs=100
files=$root/crates/work/out/work
memory=$root/crates/own_worker/out/own_worker

# Runs the engine or the plain one by a command, or the engine without lines.
run() {
  local name=$1
  shift
  case $name in
    engine) "$@" --store "$store" --generate "$seed" > "$work/replies" ;;
    nothing) "$@" --store "$store" < /dev/null > "$work/replies" ;;
    plain) "$work/plain" "$seed" "$groups" "$plain_runs" > "$work/summary" ;;
  esac
}

# Prints what each work takes the engine by a program, less a run without lines, in microseconds.
engine_time() {
  local more less
  more=$(processor_time engine "$1")
  less=$(processor_time nothing "$1")
  awk -v more="$more" -v less="$less" -v works="$works" 'BEGIN { printf "%.1f", (more - less) / works }'
}

# Prints a row: what each work takes the engine, and how many times what it takes the plain one.
row() {
  local what=$1 ours=$2
  awk -v what="$what" -v ours="$ours" -v theirs="$theirs" \
    'BEGIN { printf "the engine with %s: %.1f us a work, ratio: %.1f\n", what, ours, ours / theirs }'
}

# Sees that a program writes the summary that the plain engine writes.
check_summary() {
  run_anew engine "$1"
  cmp <(tail -n 1 "$work/replies") "$work/summary"
}

command -v rustc > /dev/null || { echo "rustc isn't there, by which the plain engine is built" >&2 && exit 9; }
rustc --edition 2024 -O -o "$work/plain" "$root/bench/plain/main.rs"
# Proves and builds the other program where it is outdated.
(cd "$root/crates/own_worker" && rt run -- --store build < /dev/null) > "$work/build.log" 2>&1 || { cat "$work/build.log" >&2 && exit 9; }
plain=$(processor_time plain)
theirs=$(awk -v plain="$plain" -v works="$works" -v runs="$plain_runs" 'BEGIN { printf "%.2f", plain / works / runs }')
check_summary "$memory"
check_summary "$files"
echo "$works works of seed $seed: both engines write the same summary"
echo "the plain engine: $theirs us a work"
row "a store in memory" "$(engine_time "$memory")"
row "commits to files in memory" "$(engine_time "$files")"
