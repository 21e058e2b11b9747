#!/usr/bin/env bash
# Times an act that saves, at a node with N rows of 100 bytes, beside plain copies of as many bytes as its image has: bench/saves.sh [N] [ROUNDS].
# It is the time of 2,000 starts and as many deletes behind the N rows, less that of the rows alone.
set -eu
count=${1:-9990}
rounds=${2:-5}
acts=2000
. "$(dirname "$0")/room.bash"
. "$top/bench/timing.bash"
"$top/supctl" simulate <<<'nodes a' >"$work/output"
program=$top/crates/supctl/out/supctl

{
  printf 'nodes a\njoin a\n'
  seq -f 'start a child%05.0f arg=x' 1 "$count"
} >"$work/rows"
{
  cat "$work/rows"
  for _ in $(seq "$acts"); do printf 'start a mid arg=x\ndelete a mid\n'; done
} >"$work/acts"
{ cat "$work/rows"; echo 'image a'; } >"$work/image"

bytes=$("$program" simulate <"$work/image" | tail -n 1 | wc -c)
rows=$(least "$rounds" "$work/rows" "$program" simulate)
all=$(least "$rounds" "$work/acts" "$program" simulate)
python3 - "$bytes" "$((all - rows))" "$((2 * acts))" <<'COPIES'
import sys
import time

count, took, acts = (int(word) for word in sys.argv[1:])
source, target = bytes(count), bytearray(count)
copies = []
for _ in range(2000):
    begin = time.perf_counter()
    target[:] = source
    copies.append(time.perf_counter() - begin)
copy, act = sum(copies) / len(copies) * 1e6, took / acts
print(f"an image of {count} bytes: an act {act:.0f} us, a plain copy {copy:.0f} us, {act / copy:.1f} copies")
COPIES
