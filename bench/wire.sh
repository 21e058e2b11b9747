#!/usr/bin/env bash
# Times how the text of an image is written and read, of 1,000 and of 10,000 children: each as what `sup_wire_times` takes more
# where it does so more often.
# With another program's path it tells how many times as long that is as what `PROGRAM image N` says of itself:
# `image of N rows: written X us a row, read Y us a row`. Both take turns, and the least of each counts.
# Time is the processor's: of what the other program says, the part in which it had one.
# usage: bench/wire.sh [PROGRAM [ROUNDS]]
set -eu
other=${1:-}
rounds=${2:-7}
. "$(dirname "$0")/room.bash"
crate=$top/crates/sup_wire_times
own=$crate/out/sup_wire_times
[ -x "$own" ] || (cd "$crate" && rt run -- 0 0 >"$work/built")

# The image of a member that knows so many children of another node.
image() {
  awk -v count="$1" 'BEGIN {
    printf "{\"boot\":1,\"count\":2,\"ctx\":{\"cloud\":[],\"vector\":{\"a\":1,\"b\":%d}},\"kind\":\"image\",\"node\":\"a\",", count
    printf "\"rows\":[[\"member\",\"a\",[\"a\",1],{\"label\":\"\",\"status\":\"open\"}]"
    for (k = 1; k <= count; k++)
      printf ",[\"child\",\"child-%05d\",[\"b\",%d],{\"arg\":\"\",\"kind\":\"worker\",\"restart\":\"permanent\",\"shutdown\":5000}]", k, k
    printf "],\"v\":2}"
  }'
}

# Runs a command, and adds a line to a file: its time by the clock, and its times on a processor, in seconds.
TIMEFORMAT='%R %U %S'
timed() {
  local file=$work/$1
  shift
  { time "$@" <"$work/image" >"$work/output"; } 2>>"$file"
}

# The program without repetitions, with some writes, with some reads, and the other program.
round() {
  local count=$1
  timed none "$own" 0 0
  timed writes "$own" $((500000 / count)) 0
  timed reads "$own" 0 $((200000 / count))
  cmp -s "$work/output" "$work/image" || same="OTHER TEXT"
  [ -n "$other" ] || return 0
  timed other "$other" image "$count"
  cat "$work/output" >>"$work/said"
}

least() { sort -g | head -n 1; }

processor() { awk '{ print $2 + $3 }' "$work/$1" | least; }

# Microseconds a row, of what took longer for so many rows.
each_row() {
  awk -v more="$(processor "$1")" -v base="$(processor none)" -v by="$2" 'BEGIN { printf "%.3f", (more - base) * 1000000 / by }'
}

# What the other program says of a deed.
said() {
  sed "s/.* $1 \([0-9.]*\) us.*/\1/" "$work/said" | paste -d ' ' - "$work/other" | awk '{ printf "%.3f\n", $1 * ($3 + $4) / $2 }' | least
}

for count in 1000 10000; do
  rm -f "$work"/*
  image "$count" >"$work/image"
  same="same text"
  for _ in $(seq "$rounds"); do round "$count"; done
  written=$(each_row writes 500000)
  read=$(each_row reads 200000)
  echo "image of $count rows: written $written us a row, read $read us a row, $same"
  [ -n "$other" ] || continue
  awk -v written="$written" -v read="$read" -v other_written="$(said written)" -v other_read="$(said read)" \
    'BEGIN { printf "the other program: written %s us a row, read %s us a row: written %.1f times, read %.1f times as long\n",
      other_written, other_read, written / other_written, read / other_read }'
done
