#!/usr/bin/env bash
# Measures what observers cost: a script that enqueues works of class Echo, without observers and after
# ten lines that each observe one of them. Prints the time of each run and, where valgrind is there, its
# instructions, and the ratios.
set -euo pipefail
# A run that goes wrong ends the script also where its time is asked for.
shopt -s inherit_errexit
source "$(dirname "${BASH_SOURCE[0]}")/measure.bash"
works=${1:-1000}
observers=10

# Prints a script of the works, after lines that observe as many of them as is said.
script() {
  for ((number = 1; number <= $1; number++)); do
    printf '{"cmd":"observe","ids":["%032x"]}\n' "$((number * works / observers))"
  done
  for ((number = 1; number <= works; number++)); do
    printf '{"cmd":"enqueue","works":[{"class":"Echo","id":"%032x"}]}\n' "$number"
  done
}

# Runs the script with so many observers by a command, and sees that each work was enqueued, and each
# observer told of its work three times: enqueued, running and succeeded.
run() {
  local number=$1
  shift
  "$@" --store "$store" < "$work/script.$number" > "$work/replies"
  [ "$(grep -c '"ok":"enqueued"' "$work/replies")" -eq "$works" ]
  [ "$(grep -c '"note":' "$work/replies" || true)" -eq $((3 * number)) ]
}

script 0 > "$work/script.0"
script "$observers" > "$work/script.$observers"
compare ms milliseconds "no observer" 0 "$observers observers" "$observers"
compare "million instructions" instructions "no observer" 0 "$observers observers" "$observers"
