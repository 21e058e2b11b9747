#!/usr/bin/env bash
# Times `supctl simulate` beside another program that reads the same script, such as a plain one without proofs.
# The script: N starts at one node, one ship, two deliveries, N/10 deletes at the other node, a ship back, a delivery, two shows.
# usage: bench/first_path.sh PROGRAM [ROUNDS]
set -eu
other=${1:?usage: bench/first_path.sh PROGRAM [ROUNDS]}
rounds=${2:-3}
. "$(dirname "$0")/room.bash"
. "$top/bench/timing.bash"

script() {
  local count=$1
  echo "nodes a b"
  seq -f 'start a child%05.0f arg=x' 1 "$count"
  echo "ship a b"
  echo "deliver a 1"
  echo "deliver a 1"
  seq -f 'delete b child%05.0f' 1 $((count / 10))
  echo "ship b a"
  echo "deliver b 1"
  echo "show a"
  echo "show b"
}

"$top/supctl" simulate <<<'nodes a' >"$work/output"
previous_own=
previous_other=
for count in 1000 9995; do
  script "$count" >"$work/script"
  other_took=$(least "$rounds" "$work/script" "$other")
  cp "$work/output" "$work/expected"
  own_took=$(least "$rounds" "$work/script" "$top/supctl" simulate)
  cmp -s "$work/output" "$work/expected" && same="same output" || same="OTHER OUTPUT"
  awk -v n="$count" -v own="$own_took" -v other="$other_took" -v same="$same" \
    'BEGIN { printf "%d starts: supctl %.1f ms, other %.1f ms, ratio %.1f, %s\n", n, own / 1000, other / 1000, own / other, same }'
  if [ -n "$previous_own" ]; then
    awk -v own="$own_took" -v before="$previous_own" -v other="$other_took" -v other_before="$previous_other" \
      'BEGIN { printf "growth from 1000 to 9995 starts: supctl %.1f times, other %.1f times\n", own / before, other / other_before }'
  fi
  previous_own=$own_took
  previous_other=$other_took
done
