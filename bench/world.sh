#!/usr/bin/env bash
# Times `supctl simulate` beside another program that reads the same scripts, such as a plain one without proofs, and looks whether both print
# the same:
# - starts: N starts at one node, of children that no member runs, and of ones that the node itself runs;
# - restarts: N kept children, one of them restarted N times, with the intensity that allows it;
# - gossip: 16 nodes with N children each that settle, and ship round once; then one new row a node, and once more round;
# - partition: two nodes that make N rows each while parted, and heal: by parts as long as the buffer has them, else whole.
# usage: bench/world.sh PROGRAM [ROUNDS]
set -eu
other=${1:?usage: bench/world.sh PROGRAM [ROUNDS]}
rounds=${2:-3}
. "$(dirname "$0")/room.bash"
. "$top/bench/timing.bash"
"$top/supctl" simulate <<<'nodes a' >"$work/output"
program=$top/crates/supctl/out/supctl

starts() {
  echo "nodes a b"
  [ "$2" = without ] || echo "join a"
  seq -f 'start a child%05.0f arg=x' 1 "$1"
  echo "where a none"
}

restarts() {
  echo "nodes a"
  echo "join a"
  seq -f 'start a child%05.0f' 1 "$1"
  # The child that is restarted is the first, so that its incarnations are 1 and those after the last start's.
  echo "exit a child00001 1.1 crash @10"
  seq -f "exit a child00001 1.%.0f crash" $(($1 + 1)) $((2 * $1 - 1)) | awk '{ print $0 " @" 10 * (NR + 1) }'
}

nodes() { seq -f 'n%02.0f' 1 16; }

# Each node ships to the next, and the last to the first; K is the number of the message at its sender.
round() {
  local node next
  for node in $(seq 1 16); do
    next=$((node % 16 + 1))
    printf 'ship n%02d n%02d\n' "$node" "$next"
  done
}

gossip() {
  local node
  echo nodes $(nodes)
  for node in $(nodes); do seq -f "start $node $node-%03.0f" 1 "$1"; done
  echo settle
  round
  for node in $(nodes); do echo "start $node $node-new"; done
  round
  echo settle
}

partition() {
  echo "nodes a b"
  seq -f 'start a a%05.0f' 1 "$1"
  seq -f 'start b b%05.0f' 1 "$1"
  seq -f 'delete a a%05.0f' 1 3 "$1"
  echo "settle"
  seq -f 'replace a b%05.0f arg=healed' 1 7 "$1"
  echo "settle"
  echo "where b none"
}

# What both take over the script, with these options.
compare() {
  local name=$1 other_took own_took same
  shift
  other_took=$(least "$rounds" "$work/script" "$other" simulate "$@")
  cp "$work/output" "$work/expected"
  own_took=$(least "$rounds" "$work/script" "$program" simulate "$@")
  cmp -s "$work/output" "$work/expected" && same="same output" || same="OTHER OUTPUT"
  awk -v name="$name" -v own="$own_took" -v other="$other_took" -v same="$same" \
    'BEGIN { printf "%s: supctl %.1f ms, other %.1f ms, ratio %.1f, %s\n", name, own / 1000, other / 1000, own / other, same }'
}

for count in 500 1000 2000; do
  for member in without with; do
    starts "$count" "$member" >"$work/script"
    compare "$count starts $member a member"
  done
  restarts "$count" >"$work/script"
  compare "$count restarts among $count kept children" --intensity 1000 --period 1
done
for count in 150 300 600; do
  gossip "$count" >"$work/script"
  compare "gossip of 16 nodes with $count children each" --weigh flat
done
for count in 1000 2000 4000; do
  partition "$count" >"$work/script"
  compare "partition of $count rows a side"
done
