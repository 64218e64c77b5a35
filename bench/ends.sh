#!/usr/bin/env bash
# Measures lines that end many works at once: the failure of a work with 50,000 works after it, which are all right
# after it, and again with each after the one before; and a `cancel` of 99,000 works, by their tag and of all. Prints
# the processor seconds of a script that ends with such a line, less those of the script without it. Each time is the
# best of three runs, or the first where that takes longer than a second.
set -euo pipefail
# A run that goes wrong ends the script also where its time is asked for.
shopt -s inherit_errexit
source "$(dirname "${BASH_SOURCE[0]}")/measure.bash"
descendants=50000
cancelled=99000
wide=1000
times=3

# Prints lines that enqueue works, many in a line: the first one is of class FailUntil and due at moment 1000, and each
# of so many more is after the first one, or after the one before it.
after_first() {
  awk -v works="$1" -v shape="$2" -v wide="$wide" 'BEGIN {
    printf "{\"cmd\":\"enqueue\",\"works\":[{\"class\":\"FailUntil\",\"delay\":1000,\"id\":\"%032x\"}]}\n", 1
    for (place = 1; place <= works; place++) {
      printf "%s", place % wide == 1 ? "{\"cmd\":\"enqueue\",\"works\":[" : ","
      printf "{\"class\":\"Echo\",\"id\":\"%032x\",\"after\":[\"%032x\"]}", place + 1, shape == "chain" ? place : 1
      if (place % wide == 0 || place == works) print "]}"
    }
  }'
}

# Prints lines that enqueue so many works of one tag, which wait for an hour, many in a line.
waiting() {
  awk -v works="$1" -v wide="$wide" 'BEGIN {
    for (number = 1; number <= works; number++) {
      printf "%s", number % wide == 1 ? "{\"cmd\":\"enqueue\",\"works\":[" : ","
      printf "{\"class\":\"Echo\",\"delay\":3600000,\"id\":\"%032x\",\"tags\":[\"t\"]}", number
      if (number % wide == 0 || number == works) print "]}"
    }
  }'
}

# Runs a script by a command, and sees that no line was refused, and that its summary tells so many works of a state,
# where its name is that of an end.
run() {
  local name=$1 told=
  shift
  case $name in
    wide | chain) told="\"failed\":$((descendants + 1))," ;;
    tag | all) told="\"cancelled\":$cancelled," ;;
  esac
  "$@" --store "$store" < "$work/script.$name" > "$work/replies" || return
  ! grep -q '"error":' "$work/replies" && tail -n 1 "$work/replies" | grep -q "$told"
}

# Prints how many processor seconds a line takes at the end of some, by the name of the end.
last_line() {
  local name=$1 lines=$2 line=$3 summary='{"cmd":"summary"}' more less
  { cat "$work/lines.$lines" && echo "$summary"; } > "$work/script.without"
  { cat "$work/lines.$lines" && echo "$line" && echo "$summary"; } > "$work/script.$name"
  more=$(processor_time "$name")
  less=$(processor_time without)
  awk -v more="$more" -v less="$less" 'BEGIN { printf "%.2f", (more - less) / 1000000 }'
}

after_first "$descendants" wide > "$work/lines.wide"
after_first "$descendants" chain > "$work/lines.chain"
waiting "$cancelled" > "$work/lines.waiting"
fails='{"cmd":"moment","at":1000}'
taken=$(last_line wide wide "$fails")
echo "a failure of a work and of $descendants works right after it: $taken processor seconds"
taken=$(last_line chain chain "$fails")
echo "a failure of a work and of $descendants works in a chain after it: $taken processor seconds"
taken=$(last_line tag waiting '{"cmd":"cancel","tag":"t"}')
echo "a cancel of the $cancelled works of a tag: $taken processor seconds"
taken=$(last_line all waiting '{"cmd":"cancel","all":true}')
echo "a cancel of all of $cancelled works: $taken processor seconds"
