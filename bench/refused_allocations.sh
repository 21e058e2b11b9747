#!/usr/bin/env bash
# Runs `supctl simulate` on scripts, and on files that end in .cluster, .members and .image, and the inputs of cases of clusters, `supctl
# cluster`, `place` and `inspect`, with each allocation refused in turn, and the saves of scripts with each failing in turn. Of the threads of
# a cluster the K-th allocation is another one from run to run, so all is done ten times over; no run may take a minute. It looks at what
# comes of it:
# - status 3: `out of memory` on standard error, and a front of the run's output;
# - status 0 and one step answered `refused 19 OutOfMemory`: where its line is repeated, all else is as without that answer (of `settle`,
#   whose steps before stand, what is shown at the end);
# - status 0 and the whole output, where the program found its room in another way;
# - a step that saves, told to fail, is answered `refused 16 KeepFailed`, and where its line is repeated, all else is as without that.
# It needs a C compiler, for the few lines that refuse.
# usage: bench/refused_allocations.sh [FILE ...]
set -eu
. "$(dirname "$0")/room.bash"
rows=$top/crates/sup_rows/data
[ $# -gt 0 ] || set -- "$top/crates/supctl/stdin" "$top"/examples/*.script "$top"/examples/*.{cluster,members,image} \
  "$rows"/{cut-and-misdirected-messages,delivery-at-a-stopped-node,interval-after-restart-without-its-text,member-leaves-rejoins-and-restarts}/stdin \
  "$rows"/{least-dot-wins,finish-removes-the-one-dot-that-ran,restart-keeps-its-place,each-refusal-in-order,names-follow-their-child}/stdin \
  "$rows"/{drained-member-loses-its-child,a-drain-takes-winner-and-losers}/stdin \
  "$rows"/{restarts-beyond-period-dont-count-shown,restarts-period-apart-still-count}/stdin \
  "$rows"/{cluster-with-lost-and-doubled-letters,cluster-stop-and-restart}/stdin \
  "$rows"/{interval-after-restart-version-2,image-printed-version-2,inspected-node-tells-what-its-peers-acknowledged,removal-overtakes-its-add}/stdin
"${CC:-cc}" -shared -fPIC -O1 -o "$work/refuse.so" "$top/bench/refuse_allocation.c" -ldl
"$top/supctl" simulate <<<'nodes a' >"$work/output"
program=$top/crates/supctl/out/supctl

# What the lines before each one print, as `before.LINE`, and what is shown at the end.
play_fronts() {
  local line first_show
  count=$(wc -l <"$work/script")
  for line in $(seq 2 $((count + 1))); do
    head -n $((line - 1)) "$work/script" | "$program" simulate >"$work/before.$line"
  done
  first_show=$(awk '/^(show|inspect|image|where|message) / { if (!first) first = NR; next } { first = 0 } END { print first ? first : NR + 1 }' "$work/script")
  shows=$(($(wc -c <"$work/whole") - $(wc -c <"$work/before.$first_show")))
}

# The line that was answered by this, if one was: what stands before the answer is what the lines before it print.
refused_line() {
  local line
  for line in $(seq 2 "$count"); do
    cat "$work/before.$line" - <<<"$1" >"$work/expected"
    if head -c "$(wc -c <"$work/expected")" "$work/output" | cmp -s - "$work/expected"; then
      echo "$line"
      return
    fi
  done
}

# Whether the output is the whole one, but for the answer of this line's first call.
is_repeated() {
  local line=$1 answer=$2
  cat "$work/before.$line" - <<<"$answer" >"$work/expected"
  tail -c +$(($(wc -c <"$work/before.$line") + 1)) "$work/whole" >>"$work/expected"
  if [ "$(sed -n "${line}p" "$work/script")" = settle ]; then
    tail -c "$shows" "$work/output" | cmp -s - <(tail -c "$shows" "$work/whole")
  else
    cmp -s "$work/output" "$work/expected"
  fi
}

is_front() {
  head -c "$(wc -c <"$work/output")" "$work/whole" | cmp -s - "$work/output"
}

# Runs the command with its K-th allocation refused; whether there was one. One that takes a minute ends with status 124.
run_refused() {
  local input=$1
  : >"$work/mark"
  status=0
  timeout 60 env REFUSED="$2" LD_PRELOAD="$work/refuse.so" "$program" "$command" <"$input" >"$work/output" 2>"$work/errors" 9>"$work/mark" || status=$?
  [ -s "$work/mark" ]
}

complain() {
  echo "$script: $1"
  cat "$work/errors" "$work/output"
  exit 1
}

# How many allocations come before the first step: where one of them is refused, nothing is printed, or all where the program found its room
# in another way.
before_first_step() {
  local number=0
  "$program" simulate <"$1" >"$work/unrefused"
  while run_refused "$1" $((number + 1)); do
    { [ "$status" = 3 ] && [ ! -s "$work/output" ]; } || cmp -s "$work/output" "$work/unrefused" || break
    number=$((number + 1))
  done
  echo "$number"
}

# Whether the step that was refused changed nothing, so that the run goes on as if the line stood there for the first time. A script that is
# longer by a line may take more allocations before its first step.
went_on() {
  local line
  line=$(refused_line "refused 19 OutOfMemory")
  [ -n "$line" ] || return 1
  sed "${line}p" "$work/script" >"$work/repeated"
  [ -n "${more[$line]-}" ] || more[$line]=$(($(before_first_step "$work/repeated") - $(before_first_step "$work/script")))
  run_refused "$work/repeated" $(($1 + more[line])) && [ "$status" = 0 ] && is_repeated "$line" "refused 19 OutOfMemory"
}

refuse_each_allocation() {
  local number=0 ended=0 answered=0 unharmed=0
  while run_refused "$work/script" $((number + 1)); do
    number=$((number + 1))
    if [ "$status" = 3 ] && [ "$(cat "$work/errors")" = "out of memory" ] && is_front; then
      ended=$((ended + 1))
    elif [ "$status" = 0 ] && [ ! -s "$work/errors" ] && cmp -s "$work/output" "$work/whole"; then
      unharmed=$((unharmed + 1))
    elif [ "$status" = 0 ] && [ ! -s "$work/errors" ] && [ "$command" = simulate ] && went_on "$number"; then
      answered=$((answered + 1))
    else
      complain "allocation $number refused: status $status"
    fi
  done
  echo "$name: $number allocations, each refused in turn: the run ended in $ended, a step was refused in $answered, nothing changed in $unharmed"
}

fail_each_save() {
  local line failed=0
  for line in $(awk '/^(join|leave|drain|start|replace|delete|register|unregister|exit|deliver|restart) / && !/ !fail$/ { print NR }' "$work/script"); do
    sed "${line}{h;s/\$/ !fail/p;g}" "$work/script" >"$work/repeated"
    "$program" simulate <"$work/repeated" >"$work/output" 2>"$work/errors" || complain "line $line told to fail"
    [ "$(refused_line "refused 16 KeepFailed")" = "$line" ] || continue
    is_repeated "$line" "refused 16 KeepFailed" || complain "line $line told to fail"
    failed=$((failed + 1))
  done
  echo "$name: $failed saves, each failing in turn"
}

for script in "$@"; do
  rm -f "$work"/before.*
  more=()
  command=simulate
  times=1
  if [ "$script" != "${script%.cluster}" ] || [ "$(head -n 1 "$(dirname "$script")/args" 2>"$work/errors")" = cluster ]; then
    command=cluster
    times=10
  fi
  [ "$script" = "${script%.members}" ] || command=place
  [ "$script" = "${script%.image}" ] || command=inspect
  name=$(basename "$script")
  [ "$name" != stdin ] || name=$(basename "$(dirname "$script")")
  # Skipped lines aren't steps.
  grep -v -e '^#' -e '^$' "$script" >"$work/script"
  "$program" "$command" <"$work/script" >"$work/whole"
  if [ "$command" = simulate ]; then
    play_fronts
    fail_each_save
  fi
  for _ in $(seq "$times"); do
    refuse_each_allocation
  done
done
