#!/usr/bin/env bash
# Measures the program on one line that enqueues works of class Echo in 10 layers, each after the whole
# layer before: the time until all of them have succeeded and the line and a query are answered, for
# layers of 50 works and for layers of 100, and the ratio of the two. Each time is the best of five.
set -euo pipefail
# A run that goes wrong ends the script also where its time is asked for.
shopt -s inherit_errexit
source "$(dirname "${BASH_SOURCE[0]}")/measure.bash"
wide=${1:-100}
narrow=$((wide / 2))
layers=10

# Prints a script of one enqueue with layers of so many works, and a query.
script() {
  awk -v layers="$layers" -v wide="$1" 'BEGIN {
    printf "{\"cmd\":\"enqueue\",\"layers\":["
    for (layer = 0; layer < layers; layer++) {
      printf layer == 0 ? "[" : ",["
      for (place = 0; place < wide; place++)
        printf "%s{\"class\":\"Echo\",\"id\":\"%032x\"}", place == 0 ? "" : ",", layer * wide + place + 1
      printf "]"
    }
    print "]}"
    print "{\"cmd\":\"query\"}"
  }'
}

# Runs the script of layers of so many works by a command, and sees that each of the works succeeded.
run() {
  local wide=$1
  shift
  "$@" --store "$store" < "$work/script.$wide" > "$work/replies"
  [ "$(grep -o '"state":"SUCCEEDED"' "$work/replies" | wc -l)" -eq $((layers * wide)) ]
}

script "$narrow" > "$work/script.$narrow"
script "$wide" > "$work/script.$wide"
compare ms milliseconds "$((layers * narrow)) works" "$narrow" "$((layers * wide)) works" "$wide"
