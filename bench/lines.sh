#!/usr/bin/env bash
# Measures the reading of a long script: 100,000 lines of about 160 bytes, which each enqueue a work
# whose input is no Data at its last key, so that each is read to its end and refused. Prints the time
# of the program, of a plain reader of the same lines (Python's json, in a process of its own), their
# ratio, and the program's peak memory in relation to the script. Each time is the best of five.
set -euo pipefail
root=$(cd "$(dirname "${BASH_SOURCE[0]}")/.." && pwd)
lines=${1:-100000}

# Prints a script of so many lines.
script() {
  awk -v lines="$1" 'BEGIN {
    for (number = 1; number <= lines; number++)
      printf "{\"cmd\":\"enqueue\",\"works\":[{\"class\":\"Echo\",\"id\":\"%032x\",\"input\":{\"count\":{\"int\":%d},\"path\":{\"text\":\"photos/a.jpg\"},\"z\":{\"byte\":128}}}]}\n", number, number
  }'
}

# Runs a command on the script, and prints the milliseconds of the best of five runs and the most
# kilobytes that one had at a time.
measure() {
  python3 - "$work/script" "$work/replies" "$@" <<'PYTHON'
import resource, subprocess, sys, time
script, replies, *command = sys.argv[1:]
best = None
for _ in range(5):
    with open(script, "rb") as source, open(replies, "wb") as sink:
        start = time.perf_counter()
        subprocess.run(command, stdin=source, stdout=sink, check=True)
        taken = time.perf_counter() - start
    best = taken if best is None else min(best, taken)
print(round(best * 1000), resource.getrusage(resource.RUSAGE_CHILDREN).ru_maxrss)
PYTHON
}

work=$(mktemp -d)
trap 'rm -rf "$work"' EXIT
script "$lines" > "$work/script"
bytes=$(wc -c < "$work/script")
"$root/bin/work" --prove
read -r ours peak < <(measure "$root/crates/work/out/work" --store "$work/store")
[ "$(grep -c '"error":"BadData","key":"z"' "$work/replies")" -eq "$lines" ]
read -r plain _ < <(measure python3 -c 'import json, sys
for line in sys.stdin.buffer: json.loads(line)')
echo "$lines lines, $bytes bytes"
echo "the program: $ours ms"
echo "Python's json: $plain ms"
awk -v a="$ours" -v b="$plain" 'BEGIN { printf "ratio: %.2f\n", a / b }'
awk -v peak="$peak" -v bytes="$bytes" 'BEGIN { printf "peak memory: %.1f MB, %.1f times the script\n", peak / 1000, peak * 1024 / bytes }'
