# What the measures of whole runs have in common. A script sources this, and defines `run NAME COMMAND..`,
# which runs its script of that name by a command on the store `$store`, which is a new one for each run,
# and sees that what came is right. The store stands in memory where the system has files there, so that
# no disk is measured: `store.sh` does that.
root=$(cd "$(dirname "${BASH_SOURCE[0]}")/.." && pwd)
memory=/dev/shm
if [ ! -w "$memory" ]; then memory=${TMPDIR:-/tmp}; fi
work=$(mktemp -d "$memory/work.XXXXXX")
trap 'rm -rf "$work"' EXIT
store=$work/store
"$root/bin/work" --prove

# Runs a script of that name by a command on a new store.
run_anew() {
  rm -f "$store"*
  run "$@"
}

# Prints how many milliseconds the best of five runs of a script takes, or of as many as `$times` says, by
# `work` or by the program that is named.
milliseconds() {
  local best=0 start now program=${2:-$root/crates/work/out/work}
  for _ in $(seq "${times:-5}"); do
    start=$(date +%s%N)
    run_anew "$1" "$program"
    now=$((($(date +%s%N) - start) / 1000))
    if [ "$best" -eq 0 ] || [ "$now" -lt "$best" ]; then best=$now; fi
  done
  awk -v us="$best" 'BEGIN { printf "%.1f", us / 1000 }'
}

# Prints how many microseconds of processor time the best of five runs of a script takes, by `work` or by the program
# that is named, or of as many as `$times` says, or the first where that takes longer than a second; `-` where the run
# ends with status 124, as one that is given up.
processor_time() {
  local best=0 taken status TIMEFORMAT='%U %S' program=${2:-$root/crates/work/out/work}
  for _ in $(seq "${times:-5}"); do
    status=0
    { time run_anew "$1" "$program"; } 2> "$work/time" || status=$?
    if [ "$status" -eq 124 ]; then echo - && return; fi
    if [ "$status" -ne 0 ]; then cat "$work/time" >&2 && return "$status"; fi
    taken=$(awk 'END { printf "%.0f", ($1 + $2) * 1000000 }' "$work/time")
    if [ "$best" -eq 0 ] || [ "$taken" -lt "$best" ]; then best=$taken; fi
    if [ "$best" -gt 1000000 ]; then break; fi
  done
  echo "$best"
}

# Prints how many million instructions a run of a script takes, which other work on the machine doesn't
# change; nothing where valgrind isn't there.
instructions() {
  command -v valgrind > /dev/null || return 0
  run_anew "$1" valgrind --quiet --tool=callgrind --callgrind-out-file="$work/callgrind" "$root/crates/work/out/work"
  awk '/^totals:/ { printf "%.1f", $2 / 1000000 }' "$work/callgrind"
}

# Prints what the runs of two scripts take in a unit, by what measures it, each with what it is called, and
# the ratio.
compare() {
  local unit=$1 measure=$2 one=$3 other=$5 taken more
  taken=$("$measure" "$4")
  more=$("$measure" "$6")
  if [ -z "$taken" ]; then echo "$unit: not counted, since valgrind isn't there" && return; fi
  echo "$one: $taken $unit"
  echo "$other: $more $unit"
  awk -v a="$taken" -v b="$more" 'BEGIN { printf "ratio: %.1f\n", b / a }'
}
