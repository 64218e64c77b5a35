#!/usr/bin/env bash
# Has 1, 2, 4 and 8 callers each enqueue 500 works, on a store in a file on a disk (below /tmp) and on one in memory,
# and prints how long that takes, the best of three runs. Each line has to be answered once, and the works have to be
# numbered in the order of the replies.
#
# Then runs 200 random scripts (or as many as are asked for) with 8 callers, each on a new store. Each run has to end
# with status 0, within a minute; each line has one reply, those of one caller in the order of its lines. One caller,
# given the lines in the order of these replies, has to answer each just so, and to leave the same rows. Works of every
# second script wait for what never comes, and there the program without callers has to do the same too.
#
# Each script is made of its number alone. The second argument is the number of the first one, 1 where none is there:
# `callers.sh 1 17` runs script 17 again, though its threads may come in another order. What a run that goes wrong was
# given, and what it left, is kept. Prints how many runs went wrong, and ends with status 1 where one did.
# `callers.sh 0` measures alone.
set -euo pipefail
root=$(cd "$(dirname "${BASH_SOURCE[0]}")/.." && pwd)
disk=$(mktemp -d)
memory=/dev/shm
if [ ! -w "$memory" ]; then memory=${TMPDIR:-/tmp}; fi
memory=$(mktemp -d "$memory/work.XXXXXX")
trap 'rm -rf "$disk" "$memory"' EXIT
"$root/bin/work" --prove
python3 - "$root/crates/work/out/work" "$disk" "$memory" "${1:-200}" "${2:-1}" << 'PYTHON'
import json, random, shutil, sqlite3, subprocess, sys, tempfile, time
from pathlib import Path

PROGRAM, DISK, MEMORY = sys.argv[1], Path(sys.argv[2]), Path(sys.argv[3])
SCRIPTS, FIRST = int(sys.argv[4]), int(sys.argv[5])
ENQUEUES, RUNS, SECONDS, CALLERS = 500, 3, 60, 8
CLASSES = ("Echo", "Echo", "Echo", "Sum", "Count", "RetryUntil", "FailUntil", "Nope")
POLICIES = ("KEEP", "REPLACE", "APPEND", "APPEND_OR_REPLACE")
# What callers are refused.
NO_CALLS = ("settle", "observe")


class Wrong(Exception):
    """What goes wrong with a run."""


# --- Runs --------------------------------------------------------------------


def remove(store):
    """Removes the files of a store."""
    for file in store.parent.glob(store.name + "*"):
        file.unlink()


def replies_of(words, store, lines):
    """The replies to a script on a new store, with these words."""
    remove(store)
    script = "".join(json.dumps(line, separators=(",", ":")) + "\n" for line in lines).encode()
    command = [PROGRAM, *words, "--store", str(store)]
    run = subprocess.run(command, input=script, capture_output=True, timeout=SECONDS)
    if run.returncode != 0:
        raise Wrong(f"ended with status {run.returncode}")
    return [json.loads(line) for line in run.stdout.splitlines()]


def called(count, store, lines):
    """The replies to a script that so many callers execute."""
    words = ["callers", "--workers", str(count)]
    return replies_of(words, store, lines)


def order_of(replies, count, lines):
    """The numbers of the lines in the order of their replies: each is there once, and those of a caller ascend."""
    order = [reply["line"] for reply in replies]
    if sorted(order) != list(range(1, lines + 1)):
        raise Wrong("not each line has one reply")
    for caller in range(count):
        own = [number for number in order if (number - 1) % count == caller]
        if own != sorted(own):
            raise Wrong(f"caller {caller} has its lines executed in another order")
    return order


# --- Times -------------------------------------------------------------------


def identifier(number):
    """The id of a number."""
    return "00000000-0000-0000-0000-%012x" % number


def enqueues(count):
    """Lines that each enqueue a work, which waits for what never comes."""
    for number in range(1, count * ENQUEUES + 1):
        work = {"id": identifier(number), "class": "Echo", "constraints": {"charging": True}}
        yield {"cmd": "enqueue", "works": [work]}


def milliseconds(count, store):
    """How long the enqueues of so many callers take, the best of some runs."""
    lines, best = list(enqueues(count)), None
    for _ in range(RUNS):
        start = time.perf_counter()
        replies = called(count, store, lines)
        taken = (time.perf_counter() - start) * 1000
        order_of(replies, count, len(lines))
        if [reply.get("works") for reply in replies] != [[number] for number in range(1, len(lines) + 1)]:
            raise Wrong("works aren't numbered in the order of the replies")
        best = taken if best is None else min(best, taken)
    return best


def measure():
    """Prints the times."""
    for count in (1, 2, 4, 8):
        disk, memory = milliseconds(count, DISK / "store"), milliseconds(count, MEMORY / "store")
        print(f"{count} callers, {count * ENQUEUES} enqueues: {disk:.0f} ms on a disk, {memory:.0f} ms in memory")


# --- Random scripts ----------------------------------------------------------


class Script:
    """The lines of a number. Ids are few, so that callers come upon each other's works."""

    def __init__(self, number):
        self.random = random.Random(number)
        self.waits = number % 2 == 0
        self.now = 0
        self.lines = [self.line() for _ in range(self.random.randrange(40, 160))]

    def chance(self, percent):
        return self.random.randrange(100) < percent

    def id(self):
        return identifier(self.random.randrange(1, 60))

    def tag(self):
        return f"t{self.random.randrange(4)}"

    def conditions(self):
        """Conditions, of which works that wait never have those that they want."""
        names = ("connected", "metered", "roaming", "idle", "battery_low", "storage_low")
        line = {name: self.chance(50) for name in names}
        return {"cmd": "conditions", **line, "charging": not self.waits and self.chance(80)}

    def constraints(self):
        """What a work wants."""
        network = self.random.choice(("NOT_REQUIRED", "NOT_REQUIRED", "CONNECTED", "UNMETERED", "METERED"))
        return {"network": network, "charging": self.waits or self.chance(40), "idle": self.chance(20)}

    def work(self, **further):
        """A work that is made, or that an update asks for."""
        number = {"n": {"int": self.random.randrange(100)}, "turns": {"int": 3}}
        work = {"id": self.id(), "class": self.random.choice(CLASSES), "input": number, "constraints": self.constraints()}
        if self.chance(20):
            work["delay"] = 1000 * self.random.randrange(30)
        if self.chance(40):
            work["tags"] = [self.tag()]
        return work | further

    def enqueue(self):
        """One to three works, alone or each after one before it or of the store, and under a name at times."""
        works = []
        for _ in range(self.random.randrange(1, 4)):
            before = works[-1]["id"] if works and self.chance(70) else self.id()
            works.append(self.work(**({"after": [before]} if self.chance(40) else {})))
        if self.chance(10):
            works = [self.work(period=900_000)]
        named = {"name": f"n{self.random.randrange(3)}", "policy": self.random.choice(POLICIES)} if self.chance(30) else {}
        return {"cmd": "enqueue", "works": works, **named}

    def cancel(self):
        targets = ({"id": self.id()}, {"tag": self.tag()}, {"name": f"n{self.random.randrange(3)}"})
        return {"cmd": "cancel", **self.random.choice(targets)}

    def moment(self):
        self.now += 1000 * self.random.randrange(20)
        return {"cmd": "moment", "at": self.now}

    def line(self):
        """A line; one that is refused does no harm."""
        kind = self.random.randrange(100)
        if kind < 55:
            return self.enqueue()
        if kind < 65:
            return self.cancel()
        if kind < 72:
            return {"cmd": "update", "work": self.work()}
        if kind < 80:
            return self.moment()
        if kind < 88:
            return self.conditions()
        if kind < 90:
            return {"cmd": "retire", "class": self.random.choice(CLASSES)}
        return {"cmd": self.random.choice(("prune", "query", "query", "summary", *NO_CALLS))}


def rows_of(store):
    """The rows of a store."""
    connection = sqlite3.connect(store)
    rows = connection.execute("SELECT * FROM work2 ORDER BY seq").fetchall()
    connection.close()
    return rows


def without_line(replies):
    """Replies without the numbers of their lines."""
    return [{key: value for key, value in reply.items() if key != "line"} for reply in replies]


def compare(what, wanted, came):
    """Sees that another run had the same replies, but for the numbers of lines, and left the same rows."""
    if without_line(came[0]) != without_line(wanted[0]):
        raise Wrong(f"{what} is answered otherwise")
    if came[1] != wanted[1]:
        raise Wrong(f"{what} leaves other rows")


def judge(script, folder):
    """Runs a script with callers, and sees that one caller does the same, and where works wait the program alone."""
    replies = called(CALLERS, folder / "callers", script.lines)
    rows = rows_of(folder / "callers")
    lines = [script.lines[number - 1] for number in order_of(replies, CALLERS, len(script.lines))]
    came = called(1, folder / "one", lines)
    compare("one caller", (replies, rows), (came, rows_of(folder / "one")))
    if script.waits:
        replies = [reply for reply, line in zip(replies, lines) if line["cmd"] not in NO_CALLS]
        came = replies_of([], folder / "alone", [line for line in lines if line["cmd"] not in NO_CALLS])
        compare("the program alone", (replies, rows), (came, rows_of(folder / "alone")))


def torture():
    """Judges each script, and gives how many runs went wrong."""
    wrong = 0
    for number in range(FIRST, FIRST + SCRIPTS):
        script, folder = Script(number), Path(tempfile.mkdtemp(prefix=f"{number}.", dir=MEMORY))
        try:
            judge(script, folder)
        except (Wrong, subprocess.TimeoutExpired) as error:
            wrong += 1
            kept = Path(tempfile.mkdtemp(prefix=f"callers.{number}."))
            (folder / "script").write_text("".join(json.dumps(line) + "\n" for line in script.lines))
            shutil.copytree(folder, kept, dirs_exist_ok=True)
            print(f"script {number}: {error}; kept in {kept}")
        shutil.rmtree(folder)
    return wrong


measure()
if SCRIPTS == 0:
    sys.exit(0)
wrong = torture()
print(f"runs with {CALLERS} callers: {SCRIPTS}")
print(f"runs that went wrong: {wrong}")
sys.exit(1 if wrong else 0)
PYTHON
