#!/usr/bin/env python3
"""Many children on three agents of this machine, which only note them, and eight that read one agent's status each second: what that takes.

    SUPD=crates/supd/out/supd agent/tests/readers.py [--children 9000] [--readers 8]

The children stand in the first machine's image from the beginning. `TMPDIR=/dev/shm` leaves out the disk. `test_times.py` does it, too.
"""
import argparse
import json
import os
import statistics
import subprocess
import sys
import threading
import time

import machines as tests
from pulse import PACE, pulse, until

import client

SECONDS = 20  # for which they read
READER = """
import sys, time
sys.path.insert(0, sys.argv[1])
import client
with open(sys.argv[3], "rb") as file:
    secret = file.read()
until = time.monotonic() + float(sys.argv[4])
while time.monotonic() < until:
    began = time.monotonic()
    client.ask(("127.0.0.1", int(sys.argv[2])), secret, "status")
    print(time.monotonic() - began, flush=True)
    time.sleep(max(0, began + 1 - time.monotonic()))
"""


def image_of(children):
    """The image of a node that has been told to start so many."""
    form = {"arg": "", "kind": "noted", "restart": "permanent", "shutdown": 5000}
    rows = sorted(["child", f"child{number}", ["a", number + 2], form] for number in range(children))
    return json.dumps({"boot": 1, "count": children + 1, "ctx": {"cloud": [], "vector": {"a": children + 1}}, "kind": "image", "node": "a",
                       "rows": [["member", "a", ["a", 1], {"label": "x", "status": "open"}], *rows], "v": 2}, sort_keys=True, separators=(",", ":"))


class Times(tests.Machines):
    """Machines whose times are those of an agent's options, whatever other tests have."""

    def words(self, name):
        words, times = super().words(name), {"--silent": str(3 * PACE), "--every": str(0.5 * PACE), "--grace": str(3 * PACE)}
        return [times.get(before, word) for before, word in zip(["", *words], words)]


def is_well(machines, name, children):
    try:
        told = client.status(machines.address(name), machines.secret)["children"]
    except client.NoAnswer:
        return False
    places = {child["place"] for child in told}
    return len(told) == children and places == {"a", "b", "c"} and all([run[0] for run in child["runs"]] == [child["place"]] for child in told)


def processor_seconds(process):
    with open(f"/proc/{process}/stat") as file:
        return sum(map(int, file.read().rsplit(")", 1)[1].split()[11:13])) / os.sysconf("SC_CLK_TCK")


def spend(machines, what, seconds):
    """Tells of each agent what it takes of a processor."""
    before, began = {name: processor_seconds(agent.pid) for name, agent in machines.agents.items()}, time.monotonic()
    time.sleep(seconds)
    spent = {name: (processor_seconds(agent.pid) - before[name]) / (time.monotonic() - began) for name, agent in machines.agents.items()}
    print(f"{what}: of a processor " + ", ".join(f"{name} {share:.1%}" for name, share in spent.items()), flush=True)


def read(machines, times):
    words = [sys.executable, "-c", READER, os.path.dirname(tests.TESTS), str(machines.ports["a"]), machines.path("secret"), str(SECONDS)]
    times += map(float, subprocess.run(words, stdout=subprocess.PIPE, text=True).stdout.split())


def begin(children):
    """Three machines with so many children."""
    machines = Times(["a", "b", "c"])
    machines.watcher.stop()
    with open(machines.path("kinds.json"), "w") as file:
        json.dump({"noted": []}, file)
    with open(machines.path("a.image"), "w") as file:
        file.write(image_of(children))
    began = time.monotonic()
    machines.begin(*machines.names)
    for name in machines.names:
        until(300, lambda: is_well(machines, name, children), "each child runs once at its place")
    print(f"    {children} children run at their places, as all know, {time.monotonic() - began:.1f} s after the begin", flush=True)
    return machines


def taken_out_by(machines, name):
    return [line for line in machines.log(name).splitlines() if "asked leave" in line]


def measure(machines, count):
    """How long answers take where so many read; what the logs tell of machines that are taken out meanwhile."""
    times, since, before = [], time.monotonic(), {name: len(taken_out_by(machines, name)) for name in machines.names}
    readers = [threading.Thread(target=read, args=(machines, times)) for _ in range(count)]
    for reader in readers:
        reader.start()
    spend(machines, f"    {count} readers of a's status", SECONDS - 5)
    for reader in readers:
        reader.join()
    taken_out = [line for name in machines.names for line in taken_out_by(machines, name)[before[name]:]]
    print(f"    an answer: median {statistics.median(times):.3f} s, worst {max(times):.3f} s of {len(times)}; a plain sleep took {pulse.lateness(since):.2f} times as long; "
          f"taken out: {taken_out or 'nobody'}; load {os.getloadavg()[0]:.1f}", flush=True)
    return times, taken_out


def main():
    words = argparse.ArgumentParser(description=__doc__, formatter_class=argparse.RawDescriptionHelpFormatter)
    words.add_argument("--children", type=int, default=9000)
    words.add_argument("--readers", type=int, default=8)
    given = words.parse_args()
    machines = begin(given.children)
    spend(machines, "    nothing happens", 10)
    measure(machines, given.readers)
    machines.end()


if __name__ == "__main__":
    main()
