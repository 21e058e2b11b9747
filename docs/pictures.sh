#!/usr/bin/env bash
# Makes the picture of each script under examples/, in the folder that is named, or else in docs/pictures.
# The program is proved and built first where it isn't built yet.
set -eu
top=$(cd "$(dirname "$0")/.." && pwd)
folder=${1:-$top/docs/pictures}
program=$top/crates/supdraw/out/supdraw
if ! [ -x "$program" ]; then
  (cd "$top/crates/supdraw" && rt run) >/dev/null 2>&1 </dev/null
fi
mkdir -p "$folder"
for script in "$top"/examples/*.script; do
  name=$(basename "$script" .script)
  "$program" <"$script" >"$folder/$name.svg"
done
