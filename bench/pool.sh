#!/usr/bin/env bash
# Measures what worker threads cost and gain, without workers and with one, two and four:
#
# - 2,000 works (or as many as are asked for) of class Count, of 50 turns each, which take next to no time;
# - as many works of class Busy, of as many turns, which take a processor a millisecond or so, by the program
#   `own_worker`, which has four workers of that class and a store in memory.
#
# Prints the time of each until all works have succeeded, of Count the best of five and of Busy, which takes
# some four minutes, that of one run, and its ratio to that without workers.
set -euo pipefail
# A run that goes wrong ends the script also where its time is asked for.
shopt -s inherit_errexit
source "$(dirname "${BASH_SOURCE[0]}")/measure.bash"
declare -A works=([Count]=${1:-2000} [Busy]=${1:-2000}) turns=([Count]=50 [Busy]=50)
busy=$root/crates/own_worker/out/own_worker

# Prints a script of the works of a class, in which as many as may be stand in a line.
script() {
  awk -v class="$1" -v works="${works[$1]}" -v turns="${turns[$1]}" -v wide=1000 'BEGIN {
    for (number = 1; number <= works; number++) {
      printf "%s", number % wide == 1 ? "{\"cmd\":\"enqueue\",\"works\":[" : ","
      printf "{\"class\":\"%s\",\"id\":\"%032x\",\"input\":{\"turns\":{\"int\":%d}}}", class, number, turns
      if (number % wide == 0 || number == works) print "]}"
    }
    print "{\"cmd\":\"settle\"}"
    print "{\"cmd\":\"summary\"}"
  }'
}

# Runs the script CLASS.WORKERS, of a class with so many workers, by a command, and sees that each of its
# works succeeded.
run() {
  local class=${1%.*} workers=${1#*.}
  shift
  "$@" --store "$store" --workers "$workers" < "$work/script.$class" > "$work/replies"
  tail -n 1 "$work/replies" | grep -q "\"succeeded\":${works[$class]}}"
}

# Measures the works of a class by a program.
measure() {
  local class=$1 program=$2 alone taken workers
  script "$class" > "$work/script.$class"
  alone=$(milliseconds "$class.0" "$program")
  echo "${works[$class]} works of class $class, of ${turns[$class]} turns each: $alone ms without workers"
  for workers in 1 2 4; do
    taken=$(milliseconds "$class.$workers" "$program")
    awk -v n="$workers" -v a="$alone" -v b="$taken" 'BEGIN { printf "with %d: %s ms, ratio: %.2f\n", n, b, b / a }'
  done
}

measure Count "$root/crates/work/out/work"
# Proves and builds the other program where it is outdated.
(cd "$root/crates/own_worker" && rt run -- --store build < /dev/null) > "$work/build.log" 2>&1 || { cat "$work/build.log" >&2 && exit 9; }
times=1 measure Busy "$busy"
