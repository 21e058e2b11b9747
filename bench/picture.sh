#!/usr/bin/env bash
# Times the picture of a script of 1,000 steps at three nodes with the longest names: bench/picture.sh [PROGRAM]
set -eu
top=$(cd "$(dirname "$0")/.." && pwd)
program=${1:-$top/crates/supdraw/out/supdraw}
script=$(mktemp)
trap 'rm -f "$script"' EXIT
python3 - >"$script" <<'SCRIPT'
nodes = [letter * 64 for letter in "abc"]
print("nodes", *nodes)
for node in nodes:
    print("join", node)
for step in range(249):
    here, there = nodes[step % 3], nodes[(step + 1) % 3]
    print("start", here, f"child-{step}")
    print("push", here, there)
    print("deliver", here, step // 3 + 1)
    print("delete", here, f"child-{step}")
print("settle")
SCRIPT
time "$program" <"$script" | wc -c
