#!/usr/bin/env bash
# Tries real `supd` processes: killed at any moment, with their folder taken away, on a full disk, two on one image, with long and broken lines;
# plays random scripts by them beside the rules; and times starts over a pipe. Bounded in time; ends only what it began.
# usage: bench/supd.sh [SUPD [SUPCTL]], SUPD by default crates/supd/out/supd, and SUPCTL, with which the times are compared where it is built,
# crates/supctl/out/supctl
# KILLS=300 SCRIPTS=60 STARTS=9999 (all that a table has room for beside its member) say how much is tried; SECONDS_AT_MOST=1800 how long.
set -eu
. "$(dirname "$0")/room.bash"
program=$(realpath "${1:-$top/crates/supd/out/supd}")
other=${2:-$top/crates/supctl/out/supctl}
timeout --foreground --kill-after=10 "${SECONDS_AT_MOST:-1800}" \
  python3 "$top/bench/supd.py" "$program" "$work" --supctl "$other" \
  --kills "${KILLS:-300}" --scripts "${SCRIPTS:-60}" --starts "${STARTS:-9999}"
