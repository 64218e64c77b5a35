#!/usr/bin/env bash
# Measures how what a work or a line takes grows with the works in the store: for 1,000, 4,000 and 16,000 works
# (or for as many as are named), and the ratio of the last to the first. The instructions are counted by valgrind,
# which other work on the machine doesn't change; where valgrind isn't there, or the longest script of a row takes
# longer than half a second, it is the processor time of the program, and the row says so; what is
# small beside the rest of its script is then lost in it. A run of more than five minutes is given up (`-`). With more
# than 20,000 works, as in `growth.sh 1000 50000`, the row of `APPEND` is left out, whose script grows with their square.
#
# A work takes what its script takes, less a run without lines, for each of the works: works of class Echo with a
# line each, without a name, under one name with `KEEP`, `REPLACE` and `APPEND`, and under a name each; groups of
# five in three layers; and works with a line each while ten observers look at one work each. A line takes what fifty
# such lines take among works that wait for an hour, less the script without them: a cancel of a tag that one work
# has, and a query by an id, a name and a tag that one work has.
set -euo pipefail
# A run that goes wrong ends the script also where its cost is asked for.
shopt -s inherit_errexit
source "$(dirname "${BASH_SOURCE[0]}")/measure.bash"
sizes=(1000 4000 16000)
if [ "$#" -gt 0 ]; then sizes=("$@"); fi
# How many lines of a kind stand at the end, and how many works observers look at.
lines=50
observers=10
# Above so many microseconds of processor time a script isn't run under valgrind.
longest=500000
# After so many seconds a run is given up, and its row has `-` in its place.
patience=300
# With more works than these the row is left out whose script grows with their square.
many=20000
# So many runs of a script are timed.
times=3

# Prints the number of a work as its id.
identifier() {
  printf '%032x' "$1"
}

# Prints so many lines that each enqueue one work, with what each line has besides, in which `#` is its number.
singles() {
  awk -v works="$1" -v rest="${2:-}" 'BEGIN {
    for (number = 1; number <= works; number++) {
      besides = rest
      gsub("#", number, besides)
      printf "{\"cmd\":\"enqueue\",%s\"works\":[{\"class\":\"Echo\",\"id\":\"%032x\"}]}\n", besides, number
    }
  }'
}

# Prints lines that each enqueue five works in three layers, so many works in all.
layered() {
  awk -v works="$1" '
    function work(number) { return sprintf("{\"class\":\"Echo\",\"id\":\"%032x\"}", number) }
    BEGIN {
      for (first = 1; first + 4 <= works; first += 5) {
        printf "{\"cmd\":\"enqueue\",\"layers\":[[%s,%s,%s],[%s],[%s]]}\n", \
          work(first), work(first + 1), work(first + 2), work(first + 3), work(first + 4)
      }
    }'
}

# Prints ten lines that each observe one of so many works, and then the lines of those works.
observed() {
  local place
  for ((place = 1; place <= observers; place++)); do
    printf '{"cmd":"observe","ids":["%s"]}\n' "$(identifier $((place * $1 / observers)))"
  done
  singles "$1"
}

# Prints lines that enqueue so many works which wait for an hour, many in each; of the first ones each has a tag
# of its own, and a line and a name of its own.
waiting() {
  awk -v works="$1" -v lines="$lines" -v wide=500 '
    function work(number, rest) {
      return sprintf("{\"class\":\"Echo\",\"delay\":3600000,%s\"id\":\"%032x\"}", rest, number)
    }
    BEGIN {
      for (number = 1; number <= lines; number++) {
        printf "{\"cmd\":\"enqueue\",\"name\":\"n%d\",\"policy\":\"KEEP\",", number
        printf "\"works\":[%s]}\n", work(number, "\"tags\":[\"t" number "\"],")
      }
      for (; number <= works; number++) {
        printf "%s", (number - lines) % wide == 1 ? "{\"cmd\":\"enqueue\",\"works\":[" : ","
        printf "%s", work(number, "")
        if ((number - lines) % wide == 0 || number == works) print "]}"
      }
    }'
}

# Prints those lines, and then fifty lines, in which `#` is the number of a work and `@` its id.
among() {
  local number line
  waiting "$1"
  for ((number = 1; number <= lines; number++)); do
    line=${2//@/$(identifier "$number")}
    echo "${line//\#/$number}"
  done
}

# Runs a script by a command, and sees that no line was refused. Where it takes too long, its status is 124.
run() {
  local name=$1
  shift
  timeout "$patience" "$@" --store "$store" < "$work/script.$name" > "$work/replies" || return
  ! grep -q '"error":' "$work/replies"
}

# Prints what a script takes in a unit, which is measured once.
cost() {
  local measure=instructions
  if [ "$1" = us ]; then measure=processor_time; fi
  if [ ! -s "$work/$measure.$2" ]; then "$measure" "$2" > "$work/$measure.$2"; fi
  cat "$work/$measure.$2"
}

# Prints in which unit a script is measured.
unit_of() {
  local taken
  taken=$(cost us "$1")
  if ! command -v valgrind > /dev/null || [ "$taken" = - ] || [ "$taken" -gt "$longest" ]; then
    echo us
  else
    echo instructions
  fi
}

# Prints a row: what each of the works or lines of a script takes at each size, where `$work/script.NAME.SIZE` is
# the script and the other name that of what it is compared with, and how many there are in it.
row() {
  local what=$1 name=$2 without=$3 count=$4 unit size divisor more less each taken=()
  unit=$(unit_of "$name.${sizes[-1]}")
  for size in "${sizes[@]}"; do
    divisor=${count:-$size}
    more=$(cost "$unit" "$name.$size")
    less=$(cost "$unit" "$without.$size")
    each=$(awk -v unit="$unit" -v more="$more" -v less="$less" -v divisor="$divisor" 'BEGIN {
      if (more == "-" || less == "-") print "-"
      else printf "%.1f", (more - less) * (unit == "us" ? 1 : 1000) / divisor
    }')
    taken+=("$each")
  done
  awk -v what="$what" -v unit="$unit" -v all="${taken[*]}" 'BEGIN {
    count = split(all, each, " ")
    printf "%-44s", what
    for (place = 1; place <= count; place++) printf " %10s", each[place]
    ratio = each[1] > 0 && each[count] != "-" ? sprintf("%.1f", each[count] / each[1]) : "-"
    printf " %7s  %s\n", ratio, (unit == "us" ? unit : "thousand " unit)
  }'
}

for size in "${sizes[@]}"; do
  : > "$work/script.nothing.$size"
  singles "$size" > "$work/script.single.$size"
  layered "$size" > "$work/script.groups.$size"
  singles "$size" '"name":"n","policy":"KEEP",' > "$work/script.keep.$size"
  singles "$size" '"name":"n","policy":"REPLACE",' > "$work/script.replace.$size"
  singles "$size" '"name":"n","policy":"APPEND",' > "$work/script.append.$size"
  singles "$size" '"name":"n#","policy":"KEEP",' > "$work/script.names.$size"
  observed "$size" > "$work/script.observed.$size"
  waiting "$size" > "$work/script.waiting.$size"
  among "$size" '{"cmd":"cancel","tag":"t#"}' > "$work/script.cancel.$size"
  among "$size" '{"cmd":"query","ids":["@"]}' > "$work/script.id.$size"
  among "$size" '{"cmd":"query","names":["n#"]}' > "$work/script.name.$size"
  among "$size" '{"cmd":"query","tags":["t#"]}' > "$work/script.tag.$size"
done

{
  printf '%-44s' 'works'
  printf ' %10s' "${sizes[@]}"
  printf ' %7s\n' ratio
}
row 'a work, a line each' single nothing ''
row 'a work, in groups of five in three layers' groups nothing ''
row 'a work, a line each, one name, KEEP' keep nothing ''
row 'a work, a line each, one name, REPLACE' replace nothing ''
if [ "${sizes[-1]}" -le "$many" ]; then row 'a work, a line each, one name, APPEND' append nothing ''; fi
row 'a work, a line each, a name each, KEEP' names nothing ''
row 'a work, a line each, ten observers' observed nothing ''
row 'a cancel of a tag of one work' cancel waiting "$lines"
row 'a query by an id' id waiting "$lines"
row 'a query by a name of one work' name waiting "$lines"
row 'a query by a tag of one work' tag waiting "$lines"
