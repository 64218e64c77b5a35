#!/usr/bin/env bash
# Measures the program on scripts that enqueue works of class Echo: the time of each run and, where
# valgrind is there, its instructions; and the ratios of the two runs. The works of the longer script
# are four times those of the shorter.
set -euo pipefail
# A run that goes wrong ends the script also where its time is asked for.
shopt -s inherit_errexit
source "$(dirname "${BASH_SOURCE[0]}")/measure.bash"
few=${1:-190}
many=$((4 * few))

# Prints a script of so many works.
script() {
  for ((number = 1; number <= $1; number++)); do
    printf '{"cmd":"enqueue","works":[{"class":"Echo","id":"%032x"}]}\n' "$number"
  done
}

# Runs the script of so many works by a command, and sees that each of them was enqueued.
run() {
  local lines=$1
  shift
  "$@" --store "$store" < "$work/script.$lines" > "$work/replies"
  [ "$(grep -c '"ok":"enqueued"' "$work/replies")" -eq "$lines" ]
}

script "$few" > "$work/script.$few"
script "$many" > "$work/script.$many"
compare ms milliseconds "$few works" "$few" "$many works" "$many"
compare "million instructions" instructions "$few works" "$few" "$many works" "$many"
