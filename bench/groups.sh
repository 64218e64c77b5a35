#!/usr/bin/env bash
# Measures how the engine's time grows with the groups of a generated input, in a store on a disk, in a new folder
# below the one that is named (/tmp where none is): the processor time of a run of 1,000 groups of five works and of
# one of 10,000, and the ratio of the second to ten times the first, which is to be at most 1.2; and by the clock the
# longer run and as many commits by SQLite, and their ratio. Of the shorter run it takes the best of three.
set -euo pipefail
root=$(cd "$(dirname "${BASH_SOURCE[0]}")/.." && pwd)
work=$(mktemp -d "${1:-/tmp}/work.XXXXXX")
trap 'rm -rf "$work"' EXIT
"$root/bin/work" --prove
"$root/bin/work" --store "$work/build" < /dev/null
PYTHONDONTWRITEBYTECODE=1 PYTHONPATH=$root/bench python3 - "$root/crates/work/out/work" "$work" <<'PYTHON'
import resource, subprocess, sys, time
from pathlib import Path

from commits import commit_by_sqlite, remove, tables_of
from generated import commits, script, summary

PROGRAM, FOLDER = sys.argv[1], Path(sys.argv[2])
SEED = 7
FEW, MANY = 1_000, 10_000
LIMIT = 1.2


def processor_seconds():
    """The processor seconds of all programs that ended so far."""
    used = resource.getrusage(resource.RUSAGE_CHILDREN)
    return used.ru_utime + used.ru_stime


def run(groups):
    """Runs so many groups on a new store, and tells the seconds of the processor and of the clock."""
    store = FOLDER / "groups"
    remove(store)
    lines = script(SEED, groups)
    used, start = processor_seconds(), time.perf_counter()
    ended = subprocess.run([PROGRAM, "--store", str(store)], input=lines, capture_output=True, check=True)
    taken = time.perf_counter() - start
    told = ended.stdout.splitlines()[-1].decode()
    assert told == summary(groups), told
    return processor_seconds() - used, taken


few = min(run(FEW)[0] for _ in range(3))
many, ours = run(MANY)
print(f"{FEW} groups: {few:.2f} processor seconds")
print(f"{MANY} groups: {many:.2f} processor seconds")
print(f"ratio to ten times the first: {many / few * FEW / MANY:.2f}, which is to be at most {LIMIT}")

tables = tables_of(FOLDER / "build")
start = time.perf_counter()
commit_by_sqlite(FOLDER / "commits", tables, commits(MANY))
theirs = time.perf_counter() - start
print(f"{MANY} groups, {commits(MANY)} commits: {ours:.1f} s by the clock")
print(f"SQLite: {commits(MANY)} commits: {theirs:.1f} s by the clock")
print(f"ratio: {ours / theirs:.2f}")
PYTHON
