#!/usr/bin/env bash
# Makes three machines a, b and c of this one, as network namespaces on a bridge, each with a folder of its own below $WALK. Only root may.
# usage: WALK=FOLDER machines.sh [away]
set -eu
: "${WALK:?names the folder}"
agent=$(cd "$(dirname "$0")/.." && pwd)
if [ "${1:-}" = away ]; then
  for name in a b c; do
    ip netns pids $name | xargs -r kill || true # one may have ended by itself
    ip link delete to-$name
    ip netns delete $name
  done
  ip link delete walk
  exit
fi
ip link add walk type bridge
ip address add 10.7.0.9/24 dev walk
ip link set walk up
for machine in a:10.7.0.1 b:10.7.0.2 c:10.7.0.3; do
  name=${machine%:*}
  ip netns add $name
  ip link add to-$name type veth peer name eth0 netns $name
  ip link set to-$name master walk up
  ip -n $name address add ${machine#*:}/24 dev eth0
  ip -n $name link set eth0 up
  ip -n $name link set lo up
  mkdir -p "$WALK/$name"
  cp -r "$agent" "$WALK/$name/"
done
chmod 755 "$WALK" # children are of other users
mkdir -m 1777 "$WALK/nginx"
cp "$agent/walk/worker.py" "$WALK/"
for file in nginx.conf kinds.json; do
  sed "s#@WALK@#$WALK#g" "$agent/walk/$file" >"$WALK/$file"
done
