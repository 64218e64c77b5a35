#!/usr/bin/env bash
# Runs a script of 200 works in chains without workers, and then 200 times (or as often as is asked for)
# with four, each time on a new store. Each of these runs has to end with status 0, within a minute, and to
# write just what the one without workers did, so that each work is in the same state in the end, with the
# same output and after as many attempts. Some works are retried, some fail with those after them, some
# wait for a condition; what may start is settled before each moment, each condition and each question.
# Prints how many runs ended otherwise, and ends with status 1 where one did.
set -euo pipefail
source "$(dirname "${BASH_SOURCE[0]}")/measure.bash"
runs=${1:-200}
workers=4
program=$root/crates/work/out/work

# Prints the script: 40 chains of five works, then the moments and the conditions that they wait for. The
# third and the fourth work of a chain are each after one of the first two, and the fifth is after both.
script() {
  awk '
    function work(number, class, rest) {
      return sprintf("{\"class\":\"%s\",\"id\":\"%032x\"%s}", class, number, rest)
    }
    function after(one, other) {
      if (!other) return sprintf(",\"after\":[\"%032x\"]", one)
      return sprintf(",\"after\":[\"%032x\",\"%032x\"]", one, other)
    }
    function head(number, chain) {
      if (chain % 4 == 0) return work(number, "Echo", sprintf(",\"input\":{\"n\":{\"int\":%d}}", chain))
      if (chain % 4 == 1) return work(number, "Count", ",\"input\":{\"turns\":{\"int\":3}}")
      if (chain % 4 == 2)
        return work(number, "RetryUntil", ",\"input\":{\"until\":{\"int\":3}},\"backoff\":{\"policy\":\"LINEAR\",\"delay\":10000}")
      return work(number, "FailUntil", "")
    }
    function settled(line) { print "{\"cmd\":\"settle\"}"; print line }
    BEGIN {
      for (chain = 0; chain < 40; chain++) {
        number = 5 * chain + 1
        charging = chain % 3 == 0 ? ",\"constraints\":{\"charging\":true}" : ""
        second = work(number + 1, "Echo", after(number) charging)
        third = work(number + 2, "RetryUntil", after(number) ",\"input\":{\"until\":{\"int\":2}}")
        fourth = work(number + 3, chain % 5 == 0 ? "FailUntil" : "Sum", after(number + 1))
        fifth = work(number + 4, "Echo", after(number + 2, number + 3) ",\"merger\":\"ARRAY\"")
        printf "{\"cmd\":\"enqueue\",\"works\":[%s,%s,%s,%s,%s]}\n", head(number, chain), second, third, fourth, fifth
      }
      settled("{\"cmd\":\"moment\",\"at\":10000}")
      settled("{\"cmd\":\"query\"}")
      settled("{\"cmd\":\"conditions\",\"charging\":true}")
      split("30000 60000 200000", moments, " ")
      for (place = 1; place <= 3; place++) settled("{\"cmd\":\"moment\",\"at\":" moments[place] "}")
      settled("{\"cmd\":\"query\"}")
      settled("{\"cmd\":\"summary\"}")
    }'
}

# Runs the script with so many workers by a command, which has a minute, since that a run with workers
# ends isn't promised.
run() {
  local workers=$1
  shift
  timeout 60 "$@" --store "$store" --workers "$workers" < "$work/script" > "$work/replies"
}

# Whether a run with workers ends as the one without them did.
ends_alike() {
  run_anew "$workers" "$program" && cmp -s "$work/replies" "$work/serial"
}

script > "$work/script"
run_anew 0 "$program"
mv "$work/replies" "$work/serial"
# Ten chains fail as a whole, and six of the others at their fourth work.
tail -n 1 "$work/serial" | grep -q '"attempts":214,"blocked":0,"cancelled":0,"enqueued":0,"failed":62,.*"succeeded":138}'
otherwise=0
for ((turn = 0; turn < runs; turn++)); do
  ends_alike || otherwise=$((otherwise + 1))
done
echo "runs with $workers workers: $runs"
echo "runs that ended otherwise than the one without workers: $otherwise"
[ "$otherwise" -eq 0 ]
