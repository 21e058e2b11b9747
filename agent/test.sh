#!/usr/bin/env bash
# Tests the agent: its source by a linter, its core by hand and in a simulated cluster, its parts by themselves, then agents with the proved `supd`
# and real processes: machines through kills, holds, partitions, drains, returns and faults over TCP, Redis and NATS, hosts in network namespaces,
# several groups, what children print, checks of children, upgrades of agents, strangers at its port, times beside other supervisors, the page, the commands of
# agent/README.md, children in a file, the command `sebrakt`, what has happened, and metrics. The last line is `N passed, M failed`; before it stands
# what was skipped, with the Debian package that it wants. A test that fails is run once more by itself; where it passes then it counts as passed, and a
# line `unsteady: PART Class.test` tells it. What breaks a promise is never tried again. It ends only what it started.
# usage: agent/test.sh [--supd PROGRAM] [lint | core | simulator | parts | logs | health | machines | hazards | upgrade | namespaces | groups | hostile | times | page | docs | apply | commands | events | metrics]..
#   --supd agent/tests/by_rules.py is a stand-in, where `supd` isn't built
#   PACE=N makes all waits and bounds N times as long, in place of as much longer as some work takes now; bounds scale besides with how late a plain
#   sleep comes back
#   STORM=SECONDS of kills (30)   SCHEDULES=N of the simulator (1000)   SCREENSHOT=FILE of the page   KEEP=1 leaves the folders of machines
set -u
top=$(cd "$(dirname "$0")/.." && pwd)
program=${SUPD:-$top/crates/supd/out/supd}
if [ "${1:-}" = --supd ]; then
  program=$2
  shift 2
fi
if ! [ -x "$program" ] && [ -d "$top/crates/supd" ] && [ "$program" = "$top/crates/supd/out/supd" ]; then
  echo "builds $program, which proves it first" >&2
  (cd "$top/crates/supd" && rt run </dev/null >/dev/null 2>&1)
fi
if ! [ -x "$program" ]; then
  echo "no supd at $program" >&2
  exit 125
fi
python=python3
[ -x /usr/bin/python3 ] && python=/usr/bin/python3 # Debian's, which python3-redis belongs to
SUPD=$(realpath "$program") exec "$python" "$top/agent/tests/run.py" "$@"
