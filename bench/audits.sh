#!/usr/bin/env bash
# Measures the export of a run and the check of its audit, for 5,000 works of class Echo in chains of five and for ten
# times as many (or for as many as are asked for, which is a multiple of 1,000, and ten times that). Prints the size of
# the script and of the audit; the time of the run without an export, of the export and of the check; and the peak
# memory of each and how many times the audit's size that is. Each time is that of one run. The check has to find the
# audit sound, and has to find the byte of the text that is changed in a copy.
set -euo pipefail
# A run that goes wrong ends the script also where its time is asked for.
shopt -s inherit_errexit
source "$(dirname "${BASH_SOURCE[0]}")/measure.bash"
few=${1:-5000}
wide=1000
program=$root/crates/work/out/work

# Prints a script of so many works, as many in a line as may be, each but the first of a chain after the one before it,
# and of a line that counts them.
script() {
  awk -v works="$1" -v wide="$wide" 'BEGIN {
    for (number = 1; number <= works; number++) {
      printf "%s", number % wide == 1 ? "{\"cmd\":\"enqueue\",\"works\":[" : ","
      printf "{\"class\":\"Echo\",\"id\":\"%032x\",\"input\":{\"n\":{\"int\":%d}}", number, number
      if (number % 5 != 1) printf ",\"after\":[\"%032x\"]", number - 1
      printf "}%s", number % wide == 0 ? "]}\n" : ""
    }
    print "{\"cmd\":\"summary\"}"
  }'
}

# Runs a command on an input, keeps what it writes, and prints how many milliseconds it takes and the most bytes of
# memory that it has at a time.
measured() {
  python3 - "$@" <<'PYTHON'
import resource, subprocess, sys, time

source, sink, *command = sys.argv[1:]
with open(source, "rb") as given, open(sink, "wb") as written:
    start = time.perf_counter()
    subprocess.run(command, stdin=given, stdout=written, check=True)
    taken = time.perf_counter() - start
print(round(taken * 1000), resource.getrusage(resource.RUSAGE_CHILDREN).ru_maxrss * 1024)
PYTHON
}

# Measures a command on an input, and prints its time and its memory against the audit's size.
row() {
  local what=$1 taken peak
  shift
  rm -f "$store"*
  read -r taken peak < <(measured "$@")
  awk -v what="$what" -v ms="$taken" -v peak="$peak" -v bytes="$(wc -c < "$work/audit")" \
    'BEGIN { printf "%s: %d ms, %.0f MB, %.1f times the audit\n", what, ms, peak / 1000000, peak / bytes }'
}

# Sees that the check finds the first byte of the text that is changed: the last line's last but one is its last brace.
finds_a_change() {
  local text
  text=$(grep -a '^{"text":' "$work/audit" | tr -cd '0-9')
  head -c -2 "$work/audit" > "$work/changed"
  printf ']\n' >> "$work/changed"
  "$program" check < "$work/changed" > "$work/verdict" && return 1
  [ "$(cat "$work/verdict")" = "{\"at\":$((text - 2)),\"wrong\":\"text\"}" ]
}

# Measures a run of so many works, its export and the check of that.
measure() {
  local works=$1
  script "$works" > "$work/script"
  "$program" export --store "$store" < "$work/script" > "$work/audit"
  tail -n 1 "$work/audit" | grep -q "\"succeeded\":$works}"
  echo "$works works: a script of $(wc -c < "$work/script") bytes, an audit of $(wc -c < "$work/audit")"
  row "the run alone" "$work/script" "$work/replies" "$program" --store "$store"
  row "export" "$work/script" "$work/again" "$program" export --store "$store"
  cmp "$work/audit" "$work/again"
  row "check" "$work/audit" "$work/verdict" "$program" check
  [ "$(cat "$work/verdict")" = '{"ok":"sound"}' ]
  finds_a_change
}

measure "$few"
measure "$((10 * few))"
