#!/usr/bin/env bash
# Times clusters of threads and their links:
# - clusters of 2 and of 5 nodes with 1,000 commands each, once without loss and once where half of all messages are lost: commands a
#   second of the whole `supctl cluster`, which judges the run and lets it settle too, and runs of its threads are no two the same;
# - N messages of 200 bytes over a link of 16 to another thread, as what `sup_link_times` takes more where it brings more. With another
#   program's path it tells how many times as long that is as what `PROGRAM link N` says of itself.
# A hundred runs with lost and doubled letters are judged, too, and have to print one same text.
# usage: bench/cluster.sh [PROGRAM [ROUNDS]]
set -eu
other=${1:-}
rounds=${2:-3}
. "$(dirname "$0")/room.bash"
. "$top/bench/timing.bash"
"$top/supctl" simulate <<<'nodes a' >"$work/output"
program=$top/crates/supctl/out/supctl
links=$top/crates/sup_link_times/out/sup_link_times
[ -x "$links" ] || (cd "$top/crates/sup_link_times" && rt run -- 0 >"$work/built")

# A script of so many nodes with so many commands each: every hundredth ships to the next node, the others are starts. With a verdict each link has it for every
# second message.
script() {
  awk -v nodes="$1" -v commands="$2" -v verdict="$3" 'BEGIN {
    split("a b c d e", name, " ")
    line = "nodes"
    for (i = 1; i <= nodes; i++) line = line " " name[i]
    print line
    for (i = 1; i <= nodes && verdict != ""; i++)
      for (j = 1; j <= nodes; j++)
        if (i != j) {
          line = "link " name[i] " " name[j]
          for (k = 0; k < commands; k++) line = line (k % 2 ? " pass" : " " verdict)
          print line
        }
    for (k = 1; k <= commands; k++)
      for (i = 1; i <= nodes; i++)
        if (k % 100) printf "start %s child-%s-%04d\n", name[i], name[i], k
        else printf "ship %s %s\n", name[i], name[i % nodes + 1]
  }'
}

for nodes in 2 5; do
  for verdict in "" lose; do
    script "$nodes" 1000 "$verdict" >"$work/script"
    took=$(least "$rounds" "$work/script" "$program" cluster --weigh flat)
    grep -q '^certified$' "$work/output"
    echo "$nodes nodes, 1000 commands each${verdict:+, half of all messages lost}: $((nodes * 1000 * 1000000 / took)) commands a second"
  done
done

few=$(least "$rounds" /dev/null "$links" 1000)
many=$(least "$rounds" /dev/null "$links" 101000)
line="a message over a link: $(awk -v t=$((many - few)) 'BEGIN { printf "%.2f", t / 100000 }') us"
if [ -n "$other" ]; then
  theirs=$("$other" link 100000)
  line="$line; the other program says: $theirs"
fi
echo "$line"

printf 'nodes a b\nlink a b lose\nlink b a twice\njoin a\nship a b\nstart b db\nship b a\n' >"$work/script"
"$program" cluster --weigh flat <"$work/script" >"$work/first"
for _ in $(seq 100); do
  "$program" cluster --weigh flat <"$work/script" >"$work/output"
  cmp "$work/first" "$work/output"
done
echo "100 runs with lost and doubled letters were certified, and printed the same"
