#!/usr/bin/env bash
# Measures what it costs to keep events: the peak memory of a program that makes 10,000, 100,000 and 1,000,000 events
# over an engine whose caller lets each one go, and over a table, which keeps them in its log; what each of the most
# events takes in processor time, the best of three runs of each in turn; and in instructions where valgrind is there,
# which other work on the machine doesn't change. The program is `engine.rattle`, which tells what its events are; its
# store is in memory, and its state the same after each hundred events. Over the engine the most events are to take at
# most 1 MB more than the fewest, and an event is to cost no more than over the table: its instructions where they are
# counted, else its time.
#
# A gate refuses a file of Rattle's own ending that belongs to no crate of `crates.txt`, and proves each that does. So
# the program becomes a crate in a copy of the sources, and is compiled there without a proof, as `bin/work` is, which
# takes minutes; or it is the one that is named.
set -euo pipefail
root=$(cd "$(dirname "${BASH_SOURCE[0]}")/.." && pwd)
work=$(mktemp -d)
trap 'rm -rf "$work"' EXIT
program=${1:-}

# Compiles the program as a crate in a copy of the sources.
compile() {
  local tree=$work/tree
  mkdir -p "$tree/crates/events/src"
  tar -C "$root" --exclude='crates/*/out' --exclude='crates/*/proofs' -c crates crates.txt HANDLES | tar -C "$tree" -x
  cp "$root/bench/engine.rattle" "$tree/crates/events/src/main.rt"
  echo "events: uuid wm_collections wm_data wm_engine wm_io wm_keeper wm_machine wm_program wm_request wm_roll wm_stock wm_table wm_worker" >> "$tree/crates.txt"
  "$root/tools/compile-work" --crate "$tree/crates/events" "$1"
}

if [ -z "$program" ]; then
  program=$work/events
  compile "$program"
fi
python3 - "$program" "$work/callgrind" <<'PYTHON'
import os, re, shutil, subprocess, sys

PROGRAM, COUNTED = sys.argv[1:3]
FEW, MORE, MANY = 10_000, 100_000, 1_000_000
KINDS = ("engine", "table")
RUNS = 3
# How much more memory the most events may take over an engine, in MB, and how much more an event may cost.
GROWTH, NOISE = 1, 1.02


def run(kind, count):
    """Makes so many events, and tells the peak memory in MB and the processor seconds."""
    command = [PROGRAM, kind, str(count)]
    process = subprocess.Popen(command, stdin=subprocess.PIPE, stdout=subprocess.PIPE)
    told = process.stdout.readline().decode().strip()
    assert told == f"{count} events, 0 works", told
    with open(f"/proc/{process.pid}/status") as status:
        peak = int(re.search(r"VmHWM:\s*(\d+) kB", status.read())[1]) * 1024 / 1_000_000
    process.stdin.close()
    _, status, used = os.wait4(process.pid, 0)
    assert status == 0, status
    return peak, used.ru_utime + used.ru_stime


def instructions(kind, count):
    """How many instructions so many events take."""
    command = ["valgrind", "--quiet", "--tool=callgrind", f"--callgrind-out-file={COUNTED}", PROGRAM, kind, str(count)]
    subprocess.run(command, stdin=subprocess.DEVNULL, stdout=subprocess.DEVNULL, check=True)
    with open(COUNTED) as counted:
        return int(re.search(r"(?m)^totals: (\d+)", counted.read())[1])


def costs(unit, engine, table):
    """Prints what an event costs, and tells how many times what it costs over a table it costs over an engine."""
    print(f"an event: {engine:.1f} {unit} over the engine, {table:.1f} over the table, ratio: {engine / table:.2f}")
    return engine / table


peaks = {(kind, count): run(kind, count)[0] for count in (FEW, MORE, MANY) for kind in KINDS}
for count in (FEW, MORE, MANY):
    engine, table = (peaks[kind, count] for kind in KINDS)
    print(f"{count:,} events: peak memory {engine:.1f} MB over the engine, {table:.1f} MB over the table")
seconds = {kind: [] for kind in KINDS}
for _ in range(RUNS):
    for kind in KINDS:
        seconds[kind].append(run(kind, MANY)[1])
ratio = costs("us", *(min(seconds[kind]) / MANY * 1_000_000 for kind in KINDS))
if shutil.which("valgrind"):
    counted = [(instructions(kind, MORE) - instructions(kind, FEW)) / (MORE - FEW) / 1_000 for kind in KINDS]
    ratio = costs("thousand instructions", *counted)
assert peaks["engine", MANY] <= peaks["engine", FEW] + GROWTH, "the engine's memory grows"
assert ratio <= NOISE, "an event costs more over the engine"
PYTHON
