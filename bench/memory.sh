#!/usr/bin/env bash
# Measures the peak memory of a run of 100,000 starts with ten turns each: 100 lines that each enqueue 1,000 works of
# class Count (or as many lines as are asked for), whose log has about 1,200,000 events. It is to be under 400 MB.
set -euo pipefail
source "$(dirname "${BASH_SOURCE[0]}")/measure.bash"
lines=${1:-100}
wide=1000
turns=10
limit=400

# Prints the script, whose last line counts the works.
script() {
  awk -v lines="$lines" -v wide="$wide" -v turns="$turns" 'BEGIN {
    for (line = 0; line < lines; line++) {
      printf "{\"cmd\":\"enqueue\",\"works\":["
      for (place = 1; place <= wide; place++) {
        printf "%s{\"class\":\"Count\",\"id\":\"%032x\"", place == 1 ? "" : ",", line * wide + place
        printf ",\"input\":{\"turns\":{\"int\":%d}}}", turns
      }
      print "]}"
    }
    print "{\"cmd\":\"summary\"}"
  }'
}

script > "$work/script"
python3 - "$work/script" "$work/replies" "$limit" "$root/crates/work/out/work" --store "$store" <<'PYTHON'
import resource, subprocess, sys, time

script, replies, limit, *command = sys.argv[1:]
with open(script, "rb") as source, open(replies, "wb") as sink:
    start = time.perf_counter()
    subprocess.run(command, stdin=source, stdout=sink, check=True)
    taken = time.perf_counter() - start
peak = resource.getrusage(resource.RUSAGE_CHILDREN).ru_maxrss * 1024 / 1_000_000
print(f"peak memory: {peak:.0f} MB, which is to be under {limit}, in a run of {taken:.1f} s")
PYTHON
works=$((lines * wide))
tail -n 1 "$work/replies" | grep -q "\"attempts\":$works,.*\"succeeded\":$works}"
