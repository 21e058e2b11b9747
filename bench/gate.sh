#!/usr/bin/env bash
# Times a call of one thread at a gate beside the same act by its station, a restart of one child, which adds no dot: each as
# what many restarts take longer than few, by the time of the processor. Then, by the clock, four gates on four threads beside
# one on one, which do at most four times its work. Last it runs a hundred times the tests of threads that share a gate.
# The work is in tests of `sup_node_gate_tests`, which it runs one by one. The first run proves and builds that crate.
# usage: bench/gate.sh [ROUNDS [RUNS]]
set -eu
rounds=${1:-9}
runs=${2:-100}
. "$(dirname "$0")/room.bash"
crate=$top/crates/sup_node_gate_tests
tests=$crate/out/sup_node_gate_tests_tests
[ -x "$tests" ] || (cd "$crate" && rt test >"$work/built")
# How many restarts the many are more.
restarts=50000

# Runs a test, and adds a line to its file: its time by the clock, and its time on a processor, in seconds.
TIMEFORMAT='%R %U %S'
timed() {
  { time "$tests" "restarts::$1" >"$work/output"; } 2>>"$work/$1"
}

least() { sort -g | head -n 1; }

clock() { awk '{ print $1 }' "$work/$1" | least; }

processor() { awk '{ print $2 + $3 }' "$work/$1" | least; }

# Microseconds a restart, of what many take longer than few.
each() {
  awk -v many="$("$1" "many_$2")" -v few="$("$1" "few_$2")" -v by="$restarts" 'BEGIN { printf "%.3f", (many - few) * 1000000 / by }'
}

for _ in $(seq "$rounds"); do
  for what in by_a_station at_a_gate at_four_gates; do
    timed "few_$what"
    timed "many_$what"
  done
done
awk -v station="$(each processor by_a_station)" -v gate="$(each processor at_a_gate)" \
  'BEGIN { printf "a restart: %.2f microseconds by a station, %.2f by a call of a gate, %.2f times as long\n", station, gate, gate / station }'
awk -v one="$(each clock at_a_gate)" -v four="$(each clock at_four_gates)" -v processors="$(nproc)" \
  'BEGIN { printf "four gates on four threads do %.2f times the work of one on one (%d processors)\n", 4 * one / four, processors }'
for _ in $(seq "$runs"); do
  for test in the_calls_of_two_threads_make_one_history the_calls_of_four_threads_make_one_history; do
    if ! "$tests" "shared::$test" >"$work/output" 2>&1; then
      echo "$test fails"
      cat "$work/output"
      exit 1
    fi
  done
done
echo "two and four threads made one history in each of $runs runs of their tests"
