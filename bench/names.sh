#!/usr/bin/env bash
# Measures lines that look at many works: eight lines that each append a chain of 1,000 works to a name, a
# `REPLACE` of a name of 1,000, 2,000, 4,000 and 8,000 such works, and a `cancel` of all of 8,000 and 50,000
# waiting works. Of a replacement and a cancel it prints the time of a script that ends with such a line, less
# that of the script without it. Each time is the best of three, and those of 50,000 works are of one run each.
set -euo pipefail
# A run that goes wrong ends the script also where its time is asked for.
shopt -s inherit_errexit
source "$(dirname "${BASH_SOURCE[0]}")/measure.bash"
wide=1000

# Prints lines that enqueue so many works, which wait for an hour, as many in a line as may be, with what each
# line has besides. Where they are a chain, each is after the one before in its line.
works() {
  awk -v works="$1" -v chained="$2" -v rest="${3:-}" -v wide="$wide" 'BEGIN {
    for (number = 1; number <= works; number++) {
      begins = number % wide == 1
      printf "%s", begins ? "{\"cmd\":\"enqueue\"," rest "\"works\":[" : ","
      printf "{\"class\":\"Echo\",\"delay\":3600000,\"id\":\"%032x\"", number
      if (chained && !begins) printf ",\"after\":[\"%032x\"]", number - 1
      printf "}"
      if (number % wide == 0 || number == works) print "]}"
    }
  }'
}

# Prints lines that append so many works to a name.
named() {
  works "$1" 1 '"name":"n","policy":"APPEND",'
}

# Runs a script by a command, and sees that no line was refused.
run() {
  local name=$1
  shift
  "$@" --store "$store" < "$work/script.$name" > "$work/replies"
  ! grep -q '"error":' "$work/replies"
}

# Prints how much longer a script takes by its last line.
last_line() {
  local name=$1
  sed '$d' "$work/script.$name" > "$work/script.$name.without"
  awk -v a="$(milliseconds "$name.without")" -v b="$(milliseconds "$name")" 'BEGIN { printf "%.1f", b - a }'
}

times=3
named 8000 > "$work/script.append"
echo "8 lines that append 1000 works each: $(milliseconds append) ms"
for members in 1000 2000 4000 8000; do
  named "$members" > "$work/script.replace"
  echo '{"cmd":"enqueue","name":"n","policy":"REPLACE","works":[{"class":"Echo","id":"ffffffffffffffffffffffffffffffff"}]}' >> "$work/script.replace"
  echo "REPLACE of $members works: $(last_line replace) ms"
done
for number in 8000 50000; do
  if [ "$number" -gt 8000 ]; then times=1; fi
  works "$number" 0 > "$work/script.cancel"
  echo '{"cmd":"cancel","all":true}' >> "$work/script.cancel"
  echo "cancel of $number works: $(last_line cancel) ms"
done
