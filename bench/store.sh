#!/usr/bin/env bash
# Measures the store on a disk, in a new folder below the one that is named (/tmp where none is):
#
# - the time of 200 lines that each enqueue [a, b, c], then d, then e, all of class Echo, which is a commit
#   for each line, each start and each end, and the time in which SQLite makes as many commits that each
#   delete and insert one row (Python's sqlite3, WAL, synchronous=FULL), in turn, each the best of five,
#   and the ratio;
# - the time and the memory of opening a store of 100,000 rows, which SQLite wrote;
# - the time of opening one of 10,000 rows of version 1, in `work`, which are carried over in one commit;
# - the size of the store of 50,000 finished works, and of the same rows as SQLite's VACUUM writes them.
set -euo pipefail
root=$(cd "$(dirname "${BASH_SOURCE[0]}")/.." && pwd)
work=$(mktemp -d "${1:-/tmp}/work.XXXXXX")
trap 'rm -rf "$work"' EXIT
"$root/bin/work" --prove
"$root/bin/work" --store "$work/build" < /dev/null
PYTHONDONTWRITEBYTECODE=1 PYTHONPATH=$root/bench python3 - "$root/crates/work/out/work" "$work" <<'PYTHON'
import resource, sqlite3, subprocess, sys, time
from pathlib import Path

from commits import INSERT, INSERT_FIRST, commit_by_sqlite, first_row, make, remove, row, tables_of

PROGRAM, FOLDER = sys.argv[1], Path(sys.argv[2])
GROUPS, RUNS = 200, 5
ROWS, FIRST_ROWS, FINISHED = 100_000, 10_000, 50_000
WIDE = 1_000
# How many commits the program makes of the groups: one for each line, each start and each end.
COMMITS = GROUPS + 2 * 5 * GROUPS
TABLES = tables_of(FOLDER / "build")


def work_of(number):
    """A work of class Echo as a script has it."""
    return f'{{"class":"Echo","id":"{number:032x}"}}'


def chains():
    """A script of groups of five works in three layers."""
    lines = []
    for group in range(GROUPS):
        a, b, c, d, e = (work_of(5 * group + place + 1) for place in range(5))
        lines.append(f'{{"cmd":"enqueue","layers":[[{a},{b},{c}],[{d}],[{e}]]}}\n')
    return "".join(lines).encode()


def batches(works):
    """A script that enqueues so many works, as many in a line as may be."""
    lines = []
    for first in range(1, works + 1, WIDE):
        batch = ",".join(work_of(number) for number in range(first, first + WIDE))
        lines.append(f'{{"cmd":"enqueue","works":[{batch}]}}\n')
    return "".join(lines).encode()


def summary(store, script=b""):
    """What the program's summary of a store tells after a script, which is run first."""
    command = [PROGRAM, "--store", str(store)]
    run = subprocess.run(command, input=script + b'{"cmd":"summary"}\n', capture_output=True, check=True)
    return run.stdout.splitlines()[-1].decode()


def seconds(act, store):
    """How long an act on a new store takes."""
    remove(store)
    start = time.perf_counter()
    act(store)
    return time.perf_counter() - start


def commits_by_program(store):
    """The program's commits: one for each line, each start and each end."""
    told = summary(store, chains())
    assert f'"succeeded":{5 * GROUPS}' in told, told


def commits_by_sqlite(store):
    """As many commits by SQLite."""
    commit_by_sqlite(store, TABLES, COMMITS)


def write_rows(store):
    """Has SQLite write a store of many rows."""
    with sqlite3.connect(store) as connection:
        make(connection, TABLES)
        connection.executemany(INSERT, (row(number) for number in range(1, ROWS + 1)))
    connection.close()


def open_rows(store, rows):
    """Has the program open so many."""
    told = summary(store)
    assert f'"enqueued":{rows}' in told, told


def write_first_rows(store):
    """Has SQLite write a store as it was before there was `work2`."""
    with sqlite3.connect(store) as connection:
        make(connection, TABLES[:1])
        connection.executemany(INSERT_FIRST, (first_row(number) for number in range(1, FIRST_ROWS + 1)))
    connection.close()


def rows_in(store, table):
    """How many rows stand in a table."""
    connection = sqlite3.connect(store)
    (count,) = connection.execute(f"SELECT count(*) FROM {table}").fetchone()
    connection.close()
    return count


def finish_works(store):
    """Has the program finish many works."""
    told = summary(store, batches(FINISHED))
    assert f'"succeeded":{FINISHED}' in told, told


def sizes(store):
    """How many bytes the log of a store has, its file with what is in the log, and the file as SQLite writes it anew."""
    log, anew = store.with_name(f"{store.name}-wal").stat().st_size, store.with_name("anew")
    connection = sqlite3.connect(store)
    connection.execute("PRAGMA wal_checkpoint(TRUNCATE)")
    connection.execute("VACUUM INTO ?", (str(anew),))
    connection.close()
    return log, store.stat().st_size, anew.stat().st_size


ours, theirs = [], []
for _ in range(RUNS):
    ours.append(seconds(commits_by_program, FOLDER / "chains"))
    theirs.append(seconds(commits_by_sqlite, FOLDER / "commits"))
print(f"the program: {5 * GROUPS} works, {COMMITS} commits: {min(ours) * 1000:.0f} ms")
print(f"SQLite: {COMMITS} commits: {min(theirs) * 1000:.0f} ms")
print(f"ratio: {min(ours) / min(theirs):.2f}")

many = FOLDER / "many"
write_rows(many)
before = resource.getrusage(resource.RUSAGE_CHILDREN).ru_maxrss
start = time.perf_counter()
open_rows(many, ROWS)
taken, peak = time.perf_counter() - start, resource.getrusage(resource.RUSAGE_CHILDREN).ru_maxrss
assert peak > before
print(f"opening {ROWS} rows: {taken:.2f} s, {peak / 1000:.0f} MB")

first = FOLDER / "first"
write_first_rows(first)
start = time.perf_counter()
open_rows(first, FIRST_ROWS)
taken = time.perf_counter() - start
assert (rows_in(first, "work"), rows_in(first, "work2")) == (0, FIRST_ROWS)
print(f"opening {FIRST_ROWS} rows of version 1: {taken:.2f} s")

taken = seconds(finish_works, FOLDER / "finished")
log, ours, theirs = sizes(FOLDER / "finished")
print(f"{FINISHED} finished works: {taken:.1f} s, {ours} bytes, and a log of {log} bytes")
print(f"SQLite's VACUUM of them: {theirs} bytes")
print(f"ratio: {ours / theirs:.2f}")
PYTHON
