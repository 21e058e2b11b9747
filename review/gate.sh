#!/usr/bin/env bash
# Runs ./test, and leaves in review/gate.txt what it tells at its end, with the commit, the kit, the day, the processors and the minutes. Words go to
# ./test. It wants a tree with nothing uncommitted in it; that of review/gate.txt is the next commit's.
set -eu
cd "$(dirname "$0")/.."
if [ -n "$(git status --porcelain -- . ':!review/gate.txt')" ]; then
  echo "there are changes that are not committed" >&2
  exit 2
fi
log=$(mktemp)
trap 'rm -f "$log"' EXIT
began=$SECONDS
status=0
./test "$@" </dev/null 2>&1 | tee "$log" || true
status=${PIPESTATUS[0]}
{
  echo "commit $(git rev-parse --short=12 HEAD)"
  rt version
  date -u +%F
  echo "$(nproc) processors: $(sed -n 's/^model name[^:]*: //p' /proc/cpuinfo | sort -u | head -1)"
  echo "$(((SECONDS - began) / 60)) minutes"
  sed -n '/^== all$/,$p' "$log" | sed 1d
} >review/gate.txt
exit "$status"
