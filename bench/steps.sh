#!/usr/bin/env bash
# Times steps of a node that has one member and that has five, with no save and no text of an image around them, by `sup_step_times`: each as
# what so many of them take more than none, among 100 children and among 9,000.
# - starts, registers of one child, and deletes, as what a start and a delete of a child take more than the start: 900 of each;
# - replaces of one child, and, at a node of one member, restarts of one: 9,000 of each.
# usage: bench/steps.sh [ROUNDS]
set -eu
rounds=${1:-15}
. "$(dirname "$0")/room.bash"
. "$top/bench/timing.bash"
crate=$top/crates/sup_step_times
program=$crate/out/sup_step_times
[ -x "$program" ] || (cd "$crate" && rt run -- starts 1 0 0 >"$work/built")
# What the job takes, in microseconds for each time, beside what these words take.
each() {
  local job=$1 members=$2 children=$3 times=$4
  shift 4
  awk -v more="$(least "$rounds" /dev/null "$program" "$job" "$members" "$children" "$times")" \
    -v less="$(least "$rounds" /dev/null "$program" "$@")" -v times="$times" 'BEGIN { printf "%.2f", (more - less) / times }'
}

# The same beside none of it.
alone() { each "$@" "$1" "$2" "$3" 0; }

told() {
  local job=$1 members=$2 few=$3 many=$4
  awk -v job="$job" -v members="$members" -v few="$few" -v many="$many" \
    'BEGIN { printf "%s, %d member%s: %s us each among 100 children, %s among 9,000, %.1f times as long\n", job, members, (members > 1 ? "s" : ""), few, many, many / few }'
}

for members in 1 5; do
  told starts "$members" "$(alone starts "$members" 100 900)" "$(alone starts "$members" 9000 900)"
  told deletes "$members" "$(each deletes "$members" 100 900 starts "$members" 100 900)" "$(each deletes "$members" 9000 900 starts "$members" 9000 900)"
  told registers "$members" "$(alone registers "$members" 100 900)" "$(alone registers "$members" 9000 900)"
  told replaces "$members" "$(alone replaces "$members" 100 9000)" "$(alone replaces "$members" 9000 9000)"
done
told restarts 1 "$(alone restarts 1 100 9000)" "$(alone restarts 1 9000 9000)"
