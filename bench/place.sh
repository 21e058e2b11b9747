#!/usr/bin/env bash
# Times `supctl place` beside another program that reads the same input, such as a plain one without proofs.
# The input: five members, then 20,000 ids.
# usage: bench/place.sh PROGRAM [ROUNDS]
set -eu
other=${1:?usage: bench/place.sh PROGRAM [ROUNDS]}
rounds=${2:-5}
. "$(dirname "$0")/room.bash"
. "$top/bench/timing.bash"

{
  echo "members north east south west centre"
  seq -f 'child%05.0f' 1 20000
} >"$work/input"

"$top/supctl" place <<<'members' >"$work/output"
other_least=$(least "$rounds" "$work/input" "$other")
cp "$work/output" "$work/other"
own_least=$(least "$rounds" "$work/input" "$top/supctl" place)
cmp -s "$work/output" "$work/other" && same="same output" || same="OTHER OUTPUT"
awk -v own="$own_least" -v other="$other_least" -v same="$same" \
  'BEGIN { printf "20000 ids: supctl %.1f ms, other %.1f ms, ratio %.1f, %s\n", own / 1000, other / 1000, own / other, same }'
