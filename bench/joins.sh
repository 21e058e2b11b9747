#!/usr/bin/env bash
# Times joins of tables, with no command, no save and no text around them, by `sup_join_times`: each as what it takes more where
# it does so more often. And memory: what one more copy of the tables takes.
# - merges: two disjoint tables of 500 and of 5,000 rows, for each row of both;
# - rows: one row taken in and taken out again, in tables of 1,000 and of 9,995 rows, for each;
# - looks: whether a state of one row is known already, in tables of 1,000 and of 9,995 rows, as a merge leaves them and with an
#   index of their rows, as a node's are once a message brought nothing new;
# - copies: tables of 1,000 and of 10,000 rows.
# With another program's path it times that beside it, which reads scripts and ships whole states, each as what the script takes more with
# so many lines of the kind.
# usage: bench/joins.sh [PROGRAM [ROUNDS]]
set -eu
other=${1:-}
rounds=${2:-5}
. "$(dirname "$0")/room.bash"
. "$top/bench/timing.bash"
crate=$top/crates/sup_join_times
own=$crate/out/sup_join_times
[ -x "$own" ] || (cd "$crate" && rt run -- rows 0 <"$crate/stdin" >"$work/built")

# The image of node a that knows so many children of a node, each named after it.
image() {
  awk -v node="$1" -v count="$2" 'BEGIN {
    printf "{\"boot\":1,\"count\":0,\"ctx\":{\"cloud\":[],\"vector\":{\"%s\":%d}},\"kind\":\"image\",\"node\":\"a\",\"rows\":[", node, count
    for (k = 1; k <= count; k++)
      printf "%s[\"child\",\"%s%05d\",[\"%s\",%d],{\"arg\":\"x\",\"kind\":\"worker\",\"restart\":\"permanent\",\"shutdown\":5000}]", (k > 1 ? "," : ""), node, k, node, k
    print "],\"v\":1}"
  }'
}

starts() { seq -f "start $1 $1%05.0f arg=x" 1 "$2"; }

repeated() { for _ in $(seq "$1"); do printf '%b' "$2"; done; }

# What more of it takes longer than less, in microseconds for each of so many.
each() { awk -v more="$1" -v less="$2" -v by="$3" 'BEGIN { printf "%.3f", (more - less) / by }'; }

# The job of `sup_join_times`, done so often, for each of so many.
own_each() {
  local job=$1 times=$2 by=$3
  each "$(least "$rounds" "$work/images" "$own" "$job" "$times")" "$(least "$rounds" "$work/images" "$own" "$job" 0)" "$by"
}

# What the script `more` takes the other program longer than the script `less`.
other_each() { each "$(least "$rounds" "$work/more" "$other")" "$(least "$rounds" "$work/less" "$other")" "$1"; }

told() {
  local what=$1 unit=$2 mine=$3 theirs=${4:-}
  if [ -z "$theirs" ]; then
    echo "$what: $mine $unit"
  else
    awk -v what="$what" -v unit="$unit" -v mine="$mine" -v theirs="$theirs" \
      'BEGIN { printf "%s: %s %s, the other program %s, %.2f times as much\n", what, mine, unit, theirs, mine / theirs }'
  fi
}

# The most memory that a program took, in bytes.
memory() {
  local input=$1
  shift
  /usr/bin/time -f %M "$@" <"$input" 2>&1 >"$work/output" | awk '{ printf "%d", $1 * 1024 }'
}

merges() {
  local count=$1 times=$2 theirs=
  { image b "$count"; image c "$count"; } >"$work/images"
  if [ -n "$other" ]; then
    { echo "nodes b c"; starts b "$count"; starts c "$count"; echo "ship c b"; } >"$work/less"
    { cat "$work/less"; echo "deliver c 1"; } >"$work/more"
    theirs=$(other_each $((2 * count)))
  fi
  told "two disjoint tables of $count rows" "microseconds a row" "$(own_each merges "$times" $((times * 2 * count)))" "$theirs"
}

rows() {
  local count=$1 times=20000 theirs=
  { image a "$count"; image b 1; } >"$work/images"
  if [ -n "$other" ]; then
    { echo "nodes a"; starts a "$count"; } >"$work/less"
    { cat "$work/less"; repeated "$times" 'start a extra arg=x\ndelete a extra\n'; } >"$work/more"
    theirs=$(other_each $((2 * times)))
  fi
  told "one row into $count rows, or out of them" "microseconds" "$(own_each rows "$times" $((2 * times)))" "$theirs"
}

looks() {
  local count=$1 times=$2 theirs=
  { image b 1; image b "$count"; } >"$work/images"
  if [ -n "$other" ]; then
    { echo "nodes a b"; echo "start b b00001 arg=x"; echo "ship b a"; starts b "$count" | tail -n +2; echo "ship b a"; echo "deliver b 2"; } >"$work/less"
    { cat "$work/less"; repeated "$times" 'deliver b 1\n'; } >"$work/more"
    theirs=$(other_each "$times")
  fi
  told "one row that is known among $count" "microseconds" "$(own_each looks "$times" "$times")" "$theirs"
  told "the same with an index" "microseconds" "$(own_each found "$((100 * times))" "$((100 * times))")" "$theirs"
}

copies() {
  local count=$1 times=$2 theirs=
  { image a "$count"; image b 1; } >"$work/images"
  if [ -n "$other" ]; then
    { echo "nodes a b"; starts a "$count"; } >"$work/less"
    { cat "$work/less"; repeated "$times" 'ship a b\n'; } >"$work/more"
    theirs=$(other_each $((times * count)))
  fi
  told "copies of $count rows" "microseconds a row" "$(own_each copies "$times" $((times * count)))" "$theirs"
  [ -x /usr/bin/time ] || return 0
  theirs=
  if [ -n "$other" ]; then
    echo "nodes a" >"$work/none"
    theirs=$(each "$(memory "$work/less" "$other")" "$(memory "$work/none" "$other")" "$count")
  fi
  told "memory of $count rows" "bytes a row" "$(each "$(memory "$work/images" "$own" copies 41)" "$(memory "$work/images" "$own" copies 1)" $((40 * count)))" "$theirs"
}

merges 500 200
merges 5000 20
rows 1000
rows 9995
looks 1000 20000
looks 9995 2000
copies 1000 100
copies 10000 10
