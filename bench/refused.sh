#!/usr/bin/env bash
# Refuses memory to runs of the worked cases' program, once for each allocation: to the N-th of a run, for
# N = 1, 2 and so on, until a run isn't disturbed. The runs are those of three scripts: a failure that reaches
# what is after it, the notes of a work of two turns, and two works that two threads drive. refuse.c, which
# is loaded before the C library, does the refusing, so a C compiler `cc` has to be there.
#
# Each run has to end as the undisturbed one, or with want of memory. Then what it wrote is a front of what
# that one wrote, with no more replies than its log has lines; without threads its log is a front of that one's;
# and the rows kept are those of its log. Where the program itself has no memory, to read the case or to tell what came of
# it, that is counted apart. Prints for each script how many runs ended in each way, how many were refused memory
# inside the sink's write, and how many while the text of an event grew that was written all the same in the end.
# A run that takes longer than 20 seconds is ended, and counts as one that ended otherwise. Ends with status 1
# where a run ended otherwise, none was refused inside the sink's write, or no text was tried again.
set -euo pipefail
root=$(cd "$(dirname "${BASH_SOURCE[0]}")/.." && pwd)
work=$(mktemp -d)
trap 'rm -rf "$work"' EXIT
program=$root/crates/cases/out/cases
if [ ! -x "$program" ]; then (cd "$root/crates/cases" && rt run < /dev/null > "$work/build.log" 2>&1 || true); fi
if [ ! -x "$program" ]; then echo "the program cases can't be built" >&2 && exit 9; fi
cc -O2 -shared -fPIC -o "$work/refuse.so" "$root/bench/refuse.c"
cd "$work"
exec python3 - "$program" "$work/refuse.so" << 'PYTHON'
import collections, json, os, re, subprocess, sys

PROGRAM, SHIM = sys.argv[1:3]
MOST = 200_000
SECONDS = 20


def identifier(number):
    return "00000000-0000-0000-0000-%012x" % number


def work(number, kind, **further):
    return {"class": kind, "id": identifier(number), **further}


def after(*numbers):
    return [identifier(number) for number in numbers]


TWO_TURNS = {"turns": {"int": 2}}
# Each script with its words, and what each work is after.
SCRIPTS = {
    "failure-reaches-descendants": (
        [],
        [
            {
                "cmd": "enqueue",
                "works": [
                    work(1, "Echo"),
                    work(2, "FailUntil", after=after(1)),
                    work(3, "Count", input=TWO_TURNS, after=after(1)),
                    work(4, "Echo", after=after(2, 3)),
                ],
            },
            {"cmd": "query"},
        ],
        {1: [], 2: [1], 3: [1], 4: [2, 3]},
    ),
    "notes-of-a-count": (
        [],
        [{"cmd": "observe"}, {"cmd": "enqueue", "works": [work(1, "Count", input=TWO_TURNS)]}],
        {1: []},
    ),
    "two-runs-at-once": (
        ["--workers", "2"],
        [{"cmd": "enqueue", "works": [work(1, "Count"), work(2, "Count")]}, {"cmd": "settle"}],
        {1: [], 2: []},
    ),
}


def case_of(name, words, lines):
    """A case file with one case."""
    script = "".join("| " + json.dumps(line) + "\n" for line in lines)
    return f"case {name}: memory is refused once\nwords {json.dumps(['--store', 'w', *words])}\n{script}"


class Outcome:
    """What the program tells of a run."""

    def __init__(self, text):
        lines = text.splitlines()
        self.status = next((line.split()[1].rstrip(",") for line in lines if line.startswith("status ")), None)
        self.events = [line for line in lines if line.startswith("event ")]
        self.rows = {row["seq"]: (row.get("phase", 0), row.get("attempt", 0)) for row in map(row_of, lines) if row}
        self.written = "".join(line[2:] + "\n" for line in lines if line.startswith("| "))
        self.written += "".join(line[2:] for line in lines if line.startswith("> "))


def row_of(line):
    """The row that a line tells, or None."""
    return json.loads(line[4:]) if line.startswith("row ") else None


def rows_after(events, priors):
    """Phase and attempt of each work after these events."""
    rows, runs = {}, {}
    for event in events:
        if re.match(r"event line \d+: enqueue", event):
            rows.update({seq: (0, 0) for seq in priors})
        elif started := re.match(r"event start of run (\d+): work (\d+) ", event):
            runs[started[1]] = int(started[2])
            rows[int(started[2])] = (1, rows[int(started[2])][1] + 1)
        elif ended := re.match(r"event end of run (\d+): (success|failure)", event):
            seq = runs[ended[1]]
            rows[seq] = (2 if ended[2] == "success" else 3, rows[seq][1])
            if ended[2] == "failure":
                fail_after(seq, rows, priors)
    return rows


def fail_after(seq, rows, priors):
    """Fails the waiting works after a work."""
    for other, before in priors.items():
        if seq in before and rows[other][0] == 0:
            rows[other] = (3, rows[other][1])
            fail_after(other, rows, priors)


def run(number):
    """A run that is refused its allocation of this number: what it told, its status, and where it was refused.

    Its status is None where it doesn't end.
    """
    environment = {**os.environ, "LD_PRELOAD": SHIM, "REFUSE": str(number)}
    try:
        ran = subprocess.run([PROGRAM], env=environment, capture_output=True, timeout=SECONDS)
        output, errors, status = ran.stdout, ran.stderr, ran.returncode
    except subprocess.TimeoutExpired as late:
        output, errors, status = late.stdout or b"", late.stderr or b"", None
    refused = re.search(r"^refused: (\w+)$", errors.decode("utf-8", "replace"), re.M)
    return Outcome(output.decode("utf-8", "replace")), status, refused and refused[1]


def is_front(outcome, whole, priors, threads):
    """Whether a run for which there was no memory ended as it has to."""
    return (
        whole.written.startswith(outcome.written)
        and (threads or outcome.events == whole.events[: len(outcome.events)])
        and replies_in(outcome) <= lines_of_log(outcome)
        and outcome.rows == rows_after(outcome.events, priors)
    )


def way_of(outcome, status, whole, priors, threads):
    """In which way a run ended."""
    if status is None or status < 0:
        return "otherwise"
    if outcome.status is None or status != 0:
        return "harness"
    if outcome.status == "Done":
        same = outcome.written == whole.written and outcome.rows == whole.rows
        return "Done" if same and (threads or outcome.events == whole.events) else "otherwise"
    if outcome.status == "Memory" and is_front(outcome, whole, priors, threads):
        return "Memory"
    return "otherwise"


def lines_of_log(outcome):
    """How many lines the log has."""
    return sum(event.startswith("event line ") for event in outcome.events)


def replies_in(outcome):
    """How many replies were written whole."""
    return sum('"line":' in line for line in outcome.written.splitlines(True) if line.endswith("\n"))


def refuse_each(name, words, lines, priors):
    """Refuses each allocation once; answers whether all ended as they have to."""
    for file in os.listdir("."):
        if file.endswith(".cases"):
            os.remove(file)
    with open(f"{name}.cases", "w") as file:
        file.write(case_of(name, words, lines))
    whole, status, refused = run(0)
    assert status == 0 and whole.status == "Done" and refused is None, f"{name} alone ends with status {status}"
    assert whole.rows == rows_after(whole.events, priors), f"{name}: the rows aren't those of the log"
    ways, inside, again = collections.Counter(), 0, 0
    for number in range(1, MOST):
        outcome, status, refused = run(number)
        if refused is None and status is not None:
            break
        way = way_of(outcome, status, whole, priors, bool(words))
        ways[way] += 1
        inside += refused == "sink" and way == "Memory"
        again += refused == "text" and way == "Memory" and 0 < lines_of_log(outcome) == replies_in(outcome)
        if way == "otherwise":
            how = "it doesn't end" if status is None else f"status {outcome.status}, exit status {status}"
            print(f"{name}: refused allocation {number}: {how}", flush=True)
    print(f"{name}: {sum(ways.values())} refused: Done {ways['Done']}, Memory {ways['Memory']}, inside the program around it {ways['harness']}, otherwise {ways['otherwise']}")
    print(f"  inside the sink's write {inside}, a text that was tried again {again}", flush=True)
    return ways["otherwise"] == 0, inside, again


os.mkdir("faulty")
ended = [refuse_each(name, *script) for name, script in SCRIPTS.items()]
right, inside, again = zip(*ended)
sys.exit(0 if all(right) and sum(inside) > 0 and sum(again) > 0 else 1)
PYTHON
