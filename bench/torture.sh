#!/usr/bin/env bash
# Runs 300 random scripts (or as many as are asked for) with four workers, each on a new store. Their lines
# come upon runs that are out: conditions that stop them, cancels, updates and replacements of their works,
# and retires of their classes. Each run has to end with status 0, within a minute, and to answer each line
# once, in order. The last lines settle and query: then no work is running, and where an observer was told
# of all works, each is as it was told last. A run without workers on the store that was left begins with
# a query, and has to be told the same works, each just so.
#
# These two queries are compared as a whole, but for the number of the line. All that they tell is made of
# rows: `due` is made of moments that rows have, and progress, which they don't have, is there only while a
# run is out. The moment, the conditions and the retired classes aren't kept, but the second query comes
# before any start, so it would tell the same with others.
#
# Each script is made of its number alone. The second argument is the number of the first one, 1 where none
# is there: `torture.sh 1 17` runs script 17 again, though its threads may come in another order. The script,
# the replies and the store of a run that goes wrong are kept. Prints how many runs went wrong, and how often
# lines came upon runs that were out, and ends with status 1 where a run went wrong.
set -euo pipefail
# What goes wrong where a run is judged ends the script too.
shopt -s inherit_errexit
source "$(dirname "${BASH_SOURCE[0]}")/measure.bash"
runs=${1:-300}
first=${2:-1}
workers=4
program=$root/crates/work/out/work

# Prints the script of a number: rounds of new works, of which some have long runs, and of lines that come
# upon them. A refused line among them does no harm.
script() {
  awk -v seed="$1" '
    # A number from 0 that is less than n, by the generator of Park and Miller: each awk makes the same.
    function below(n) {
      seed = seed * 16807 % 2147483647
      return int(seed / 2147483647 * n)
    }
    function chance(percent) { return below(100) < percent }
    function one_of(text, words) { return words[1 + below(split(text, words, " "))] }
    function id(number) { return sprintf("\"%032x\"", number) }
    function tag() { return "\"t" below(4) "\"" }
    # A work that was made, and most often one of the last four whose runs are long.
    function any() {
      if (longs > 0 && chance(70)) return id(long[below(longs < 4 ? longs : 4)])
      return id(1 + below(made))
    }
    # What a work is to do: in many turns, or in any number of them.
    function task(is_long, class) {
      class = one_of(is_long ? "Count Count Count Wait" : "Count Count Count Echo Echo Sum RetryUntil FailUntil")
      if (chance(2)) class = "Nope"
      return "\"class\":\"" class "\",\"input\":{" input(class, is_long ? 300 + below(600) : 1 + below(60)) "}"
    }
    function input(class, turns) {
      if (class == "Count") return "\"turns\":{\"int\":" turns "}"
      if (class ~ /Until/) return "\"until\":{\"int\":" 1 + below(3) "}"
      return "\"n\":{\"int\":" below(1000) "}"
    }
    function constraint() {
      return one_of("\"charging\":true \"charging\":true \"idle\":true \"battery_not_low\":true " \
        "\"storage_not_low\":true \"network\":\"CONNECTED\" \"network\":\"UNMETERED\" " \
        "\"network\":\"NOT_ROAMING\" \"network\":\"METERED\"")
    }
    # What a work has beside its id and the works that it is after.
    function request(is_long, text) {
      text = task(is_long)
      if (is_long || chance(60)) text = text ",\"constraints\":{" constraint() "}"
      if (!is_long && chance(10)) text = text ",\"delay\":" 1000 * (1 + below(30))
      if (chance(50)) text = text ",\"tags\":[" tag() "]"
      if (chance(50)) text = text ",\"backoff\":{\"policy\":\"LINEAR\",\"delay\":10000}"
      if (chance(10)) text = text ",\"merger\":\"ARRAY\""
      return text
    }
    function period() { return ",\"period\":900000" (chance(30) ? ",\"flex\":" 300000 * (1 + below(3)) : "") }
    function work(rest, is_long) { return "{\"id\":" id(++made) "," request(is_long) rest "}" }
    # Works of which each may be after an earlier one of the chain, or of the store.
    function chain(before, size, place, after, is_long, text) {
      before = made
      size = 1 + below(5)
      for (place = 0; place < size; place++) {
        after = 0
        if (place > 0 && chance(70)) after = before + 1 + below(place)
        else if (place > 0 && chance(15)) after = 1 + below(made)
        is_long = place == 0 && chance(70)
        if (is_long) long[longs++ % 4] = made + 1
        text = text (place ? "," : "") work(after ? ",\"after\":[" id(after) "]" : "", is_long)
      }
      return "\"works\":[" text "]"
    }
    function layers(layer, place, text) {
      for (layer = 2 + below(2); layer > 0; layer--) {
        text = text "["
        for (place = 1 + below(3); place > 0; place--) text = text work("", 0) (place > 1 ? "," : "")
        text = text (layer > 1 ? "]," : "]")
      }
      return "\"layers\":[" text "]"
    }
    function periodic() { return "\"works\":[" work(period(), chance(30)) "]" }
    function named(name, policies) { return "\"name\":\"" name "\",\"policy\":\"" one_of(policies) "\"," }
    function enqueue(kind) {
      kind = below(100)
      if (kind < 45) return chain()
      if (kind < 60) return layers()
      if (kind < 68) return periodic()
      if (kind < 92) return named("n" below(3), "KEEP REPLACE REPLACE REPLACE APPEND APPEND_OR_REPLACE") chain()
      return named("p" below(2), "KEEP REPLACE CANCEL_AND_REENQUEUE UPDATE UPDATE") periodic()
    }
    function cancel(kind) {
      kind = below(100)
      if (kind < 65) return "\"id\":" any()
      if (kind < 75) return "\"tag\":" tag()
      if (kind < 97) return "\"name\":\"" one_of("n0 n1 n2 p0 p1") "\""
      return "\"all\":true"
    }
    function truth(percent) { return chance(percent) ? "true" : "false" }
    # Conditions under which most works may start, or few.
    function conditions(good) {
      good = chance(65) ? 95 : 30
      return "\"connected\":" truth(good) ",\"metered\":" truth(40) ",\"roaming\":" truth(100 - good) \
        ",\"charging\":" truth(good) ",\"idle\":" truth(good) ",\"battery_low\":" truth(100 - good) \
        ",\"storage_low\":" truth(100 - good)
    }
    function moment() { return now += chance(80) ? 1000 * below(30) : 300000 }
    function update() { return "\"work\":{\"id\":" any() "," request(chance(50)) (chance(10) ? period() : "") "}" }
    function say(cmd, rest) { print "{\"cmd\":\"" cmd "\"" (rest ? "," rest : "") "}" }
    # A line that comes upon what there is. Classes are retired near the end, since their works fail then.
    function act(kind) {
      kind = below(100)
      if (kind < 30) say("conditions", conditions())
      else if (kind < 45) say("cancel", cancel())
      else if (kind < 70) say("update", update())
      else if (kind < 85) say("enqueue", enqueue())
      else if (kind < 92) say("moment", "\"at\":" moment())
      else if (kind < 95 || rounds > 4) say(one_of("query summary"))
      else say("retire", "\"class\":\"" one_of("Echo Sum Count RetryUntil FailUntil Wait") "\"")
    }
    BEGIN {
      # The first numbers of scripts that follow each other are much alike.
      for (seed = seed % 2147483646 + 1; skipped < 5; skipped++) below(1)
      if (chance(50)) say("observe")
      for (rounds = 12 + below(10); rounds > 0; rounds--) {
        if (chance(20)) say("settle")
        say("conditions", "\"connected\":true,\"charging\":true,\"idle\":true")
        for (left = 1 + below(3); left > 0; left--) say("enqueue", enqueue())
        for (left = 2 + below(8); left > 0; left--) act()
      }
      say("settle")
      say("query")
    }'
}

# Runs the script by a command, which has a minute, since that a run with workers ends isn't promised.
run() {
  shift
  timeout 60 "$@" --store "$store" --workers "$workers" < "$work/script" > "$work/replies" 2> "$work/said"
}

# Prints what is wrong with the replies, if anything is, and adds a line to the counts: of runs that
# conditions stopped, of cancels that reached a work, of works that were cancelled and replaced while they
# ran, as far as an observer was told, of updates for the next run, of retires, and of those whose class
# had a run that was out.
judge() {
  awk -v lines="$(wc -l < "$work/script")" -v counts="$work/counts" '
    function number(key) {
      if (!match($0, "\"" key "\":[0-9]+")) return -1
      return substr($0, RSTART + length(key) + 3, RLENGTH - length(key) - 3) + 0
    }
    function wrong(text) { if (!fault) fault = text }
    /^\{"gone"/ {
      seq = number("gone")
      if (info[seq] ~ /"state":"RUNNING"/ && event == "enqueued") replaced++
      delete info[seq]
      next
    }
    /^\{"info"/ {
      seq = number("seq")
      if (/"state":"CANCELLED"/ && info[seq] ~ /"state":"RUNNING"/ && event == "cancelled") cancelled++
      info[seq] = substr($0, 9, length($0) - 18)
      if (seq > most) most = seq
      next
    }
    {
      if (number("line") != ++replies) wrong("line " replies " has no reply where it should")
      event = match($0, /"ok":"[a-z]+"/) ? substr($0, RSTART + 6, RLENGTH - 7) : ""
      if (event == "observing") is_observed = 1
      if (event == "conditions") stopped += number("stopped")
      if (event == "cancelled" && number("count") > 0) cancels++
      if (/"APPLIED_FOR_NEXT_RUN"/) updates++
      if (event == "retired") retires++
      if (event == "retired" && number("dropped") < 4) busy++
      last = $0
    }
    END {
      if (replies != lines) wrong(replies " of " lines " lines have a reply")
      if (last ~ /"state":"RUNNING"/) wrong("a work is running in the end")
      for (seq = 1; seq <= most; seq++) if (seq in info) told = told (told ? "," : "") info[seq]
      if (is_observed && substr(last, index(last, "[")) != "[" told "]}") wrong("an observer was told other works")
      if (fault) print fault
      print stopped + 0, cancels + 0, cancelled + 0, replaced + 0, updates + 0, retires + 0, busy + 0 >> counts
    }' "$work/replies"
}

# Prints what the last line of a file tells, without the number of its line.
told() {
  tail -n 1 "$1" | sed 's/"line":[0-9]*,//'
}

# Prints what goes wrong with the script of a number, if anything does.
fault() {
  local status=0
  rm -rf "$work/left"
  run_anew "$1" "$program" || status=$?
  if [ "$status" -ne 0 ]; then echo "ended with status $status" && return; fi
  judge
  mkdir "$work/left"
  cp "$store"* "$work/left"
  timeout 60 "$program" --store "$store" < "$work/query" > "$work/again" 2> "$work/said" || status=$?
  if [ "$status" -ne 0 ]; then echo "ended with status $status on the store that was left" && return; fi
  if [ "$(told "$work/replies")" != "$(told "$work/again")" ]; then echo "the store that was left has other works"; fi
}

echo '{"cmd":"query"}' > "$work/query"
: > "$work/counts"
wrong=0
for ((number = first; number < first + runs; number++)); do
  script "$number" > "$work/script"
  why=$(fault "$number")
  if [ -n "$why" ]; then
    wrong=$((wrong + 1))
    kept=$(mktemp -d "${TMPDIR:-/tmp}/torture.$number.XXXXXX")
    cp -r "$work/." "$kept"
    echo "script $number: $why; kept in $kept"
  fi
done
echo "runs with $workers workers: $runs"
echo "runs that went wrong: $wrong"
awk '
  { for (place = 1; place <= NF; place++) sum[place] += $place }
  END {
    printf "runs stopped by conditions: %d\n", sum[1]
    printf "cancels that reached a work: %d\n", sum[2]
    printf "works cancelled while they ran, as observers were told: %d\n", sum[3]
    printf "works replaced while they ran, as observers were told: %d\n", sum[4]
    printf "updates of works that ran: %d\n", sum[5]
    printf "retires: %d, while a run of the class was out: %d\n", sum[6], sum[7]
  }' "$work/counts"
[ "$wrong" -eq 0 ]
