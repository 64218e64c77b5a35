#!/usr/bin/env bash
# Kills the program, with signal 9, while it executes lines on a store in a file, each time at another
# moment, until 200 kills (or as many as are asked for) came after some of its replies and before the last.
# It does so over three scripts: 2,000 enqueues; the same with four workers; and lines that replace the works
# of a name and prune in between, where one event both removes rows and puts one. Opens each store again with a
# query, and says how many works whose enqueue was answered are missing though no line removed them, how many
# stores have other works than those after the last answered line or after the one that follows, how many
# couldn't be opened, and in how many of them work is still running: none, each time.
set -euo pipefail
root=$(cd "$(dirname "${BASH_SOURCE[0]}")/.." && pwd)
work=$(mktemp -d)
trap 'rm -rf "$work"' EXIT
cd "$work"
"$root/bin/work" --prove
exec python3 - "$root/crates/work/out/work" "${1:-200}" << 'PYTHON'
import json, os, random, subprocess, sys, time

PROGRAM, KILLS, LINES = sys.argv[1], int(sys.argv[2]), 2000


def identifier(number):
    return "00000000-0000-0000-0000-%012x" % number


def enqueue(number, **further):
    """A line that enqueues a work."""
    return {"cmd": "enqueue", "works": [{"class": "Echo", "id": identifier(number)}], **further}


def enqueues():
    """Enqueues alone, each with the works that are there after it."""
    there = set()
    for number in range(1, LINES + 1):
        there.add(identifier(number))
        yield enqueue(number), there


def removals():
    """Enqueues that replace the works of one of seven names, others, and prunes, each with the works after it.

    Without workers a work has finished before the next line, so a prune removes all.
    """
    there = {}
    for number in range(1, LINES + 1):
        if number % 50 == 0:
            there.clear()
            yield {"cmd": "prune"}, there
            continue
        name = f"n{number % 7}" if number % 3 else None
        if name:
            there = {id: other for id, other in there.items() if other != name}
        there[identifier(number)] = name
        yield enqueue(number, **({"name": name, "policy": "REPLACE"} if name else {})), there


def around(lines, count):
    """The ids that are there after so many lines, and after one more."""
    before = set()
    for number, (_, there) in enumerate(lines(), 1):
        if number > count:
            return before, set(there)
        if number == count:
            before = set(there)
    raise AssertionError("no line is left")


def discard(store):
    """Removes a store's files."""
    for name in os.listdir("."):
        if name.startswith(store):
            os.remove(name)


def start(store, words):
    """The program on a store, with its replies in a file."""
    with open("script", "rb") as script, open("replies", "wb") as replies:
        return subprocess.Popen([PROGRAM, "--store", store, *words], stdin=script, stdout=replies)


def answered():
    """How many lines were answered by a whole line."""
    with open("replies") as replies:
        return sum(line.endswith("\n") for line in replies)


def stored(store):
    """The works of a store by their ids; none where it can't be opened."""
    ran = subprocess.run([PROGRAM, "--store", store], input=b'{"cmd":"query"}\n', stdout=subprocess.PIPE)
    if ran.returncode != 0:
        return None
    return {work["id"]: work for work in json.loads(ran.stdout)["works"]}


def time_of_whole(words):
    """How long a run that isn't killed takes."""
    began = time.monotonic()
    assert start("whole", words).wait() == 0 and answered() == LINES
    return time.monotonic() - began


def kill(words, whole):
    """Kills a run at some moment; answers how many lines were answered."""
    discard("killed")
    program = start("killed", words)
    time.sleep(random.uniform(0, whole))
    program.kill()
    program.wait()
    return answered()


def judge(works, before, after, counts):
    """Counts what is wrong with the works of a store, by those that the last answered line and the next leave."""
    if works is None:
        counts["unopened"] += 1
        return
    counts["missing"] += len((before & after) - works.keys())
    counts["other"] += set(works) not in (before, after)
    counts["running"] += any(work["state"] == "RUNNING" for work in works.values())


def kill_often(what, words, lines):
    """Kills runs of a script, prints what was found, and answers whether anything was wrong."""
    with open("script", "w") as script:
        script.writelines(json.dumps(command) + "\n" for command, _ in lines())
    discard("whole")
    whole = time_of_whole(words)
    counts = dict.fromkeys(("missing", "other", "unopened", "running"), 0)
    kills = tries = 0
    while kills < KILLS:
        tries += 1
        assert tries <= 100 * KILLS, "the kills come too early or too late"
        count = kill(words, whole)
        if not 0 < count < LINES:
            continue
        kills += 1
        judge(stored("killed"), *around(lines, count), counts)
    print(f"{what}: a whole run of {LINES} lines: {whole:.1f} s")
    print(f"kills: {kills} of {tries} starts")
    print(f"acknowledged works missing: {counts['missing']}")
    print(f"stores with other works: {counts['other']}")
    print(f"stores not opened: {counts['unopened']}")
    print(f"stores with work running: {counts['running']}", flush=True)
    return any(counts.values())


wrong = [
    kill_often("enqueues", [], enqueues),
    kill_often("enqueues, four workers", ["--workers", "4"], enqueues),
    kill_often("replaced and pruned", [], removals),
]
sys.exit(1 if any(wrong) else 0)
PYTHON
