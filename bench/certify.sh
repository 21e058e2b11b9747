#!/usr/bin/env bash
# Times judgements beside replays: a run is made once in each call of `sup_certify_times`, and judged, or its steps made again in a world, so
# many times more. One run is of five nodes with N commands each; in the other one node pushes the same text a thousand times. Runs of
# threads are no two the same, so that each figure is the least of some rounds.
# usage: bench/certify.sh [N [TIMES [ROUNDS]]]
set -eu
commands=${1:-400}
times=${2:-5}
rounds=${3:-3}
. "$(dirname "$0")/room.bash"
. "$top/bench/timing.bash"
crate=$top/crates/sup_certify_times
program=$crate/out/sup_certify_times
[ -x "$program" ] || (cd "$crate" && rt run -- 0 0 <"$crate/stdin" >"$work/built")
# Every tenth command ships to the next node, the others start children.
awk -v commands="$commands" 'BEGIN {
  print "nodes a b c d e"
  split("a b c d e", node)
  for (at = 1; at <= 5; at++)
    for (place = 0; place < commands; place++)
      if (place % 10 == 9) print "ship " node[at] " " node[at % 5 + 1]
      else print "start " node[at] " child-" at "-" place
}' >"$work/many"
awk 'BEGIN {
  print "nodes a b"
  print "start a child"
  for (place = 0; place < 1000; place++) print "push a b"
}' >"$work/repeated"

# What the run of a script takes.
measure() {
  local once judged replayed
  once=$(least "$rounds" "$2" "$program" 0 0)
  judged=$(least "$rounds" "$2" "$program" "$times" 0)
  replayed=$(least "$rounds" "$2" "$program" 0 "$times")
  awk -v run="$1" -v once="$once" -v judged="$judged" -v replayed="$replayed" -v times="$times" 'BEGIN {
    judgement = (judged - once) / times
    replay = (replayed - once) / times
    printf "%s: a judgement %.0f ms, the same steps by a world %.0f ms, %.2f times as long\n", run, judgement / 1000, replay / 1000, judgement / replay
  }'
}

measure "five nodes" "$work/many"
measure "a text a thousand times" "$work/repeated"
