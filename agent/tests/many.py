#!/usr/bin/env python3
"""Many children in several groups on three agents of this machine, which only note them: started, a machine killed and back, and what that took.

    SUPD=crates/supd/out/supd agent/tests/many.py [--children 40000] [--groups 8]

A trial and no test: it takes minutes. Images lie in the folder of temporary files, so `TMPDIR=/dev/shm` leaves out the disk.
"""
import argparse
import json
import os
import threading
import time

from machines import Machines
from pulse import until
from servers import Proxy
from watcher import children_of

import client
import groups

AT_ONCE = 64  # lines said to an agent
SILENT = 20  # seconds: longer than the longest turn of an agent


class Counted:
    """What passes between machines: proxies of all connections from agent to agent, which count their bytes."""

    def __init__(self):
        self.proxies = {}

    def address(self, machines, sender, to):
        if (sender, to) not in self.proxies:
            self.proxies[sender, to] = Proxy(machines.ports[to])
        return f"127.0.0.1:{self.proxies[sender, to].port}"

    def bytes(self):
        return sum(proxy.brought for proxy in self.proxies.values())


def begin(count):
    """Three machines with so many groups, and what counts their bytes."""
    counted = Counted()
    machines = Machines(["a", "b", "c"], addresses=lambda sender, to: counted.address(machines, sender, to),
                        options=["--groups", str(count), "--silent", str(SILENT), "--every", "2", "--grace", "20", "--patience", "15"])
    machines.watcher.stop()
    with open(machines.path("kinds.json"), "w") as file:
        json.dump({"noted": []}, file)
    machines.begin_all()
    return machines, counted


def start_all(machines, idents):
    """Starts all, a third at each machine."""
    def start(name, some):
        for first in range(0, len(some), AT_ONCE):
            lines = [f"start {ident} kind=noted" for ident in some[first:first + AT_ONCE]]
            for told in client.ask_all(("127.0.0.1", machines.ports[name]), machines.secret, lines, 120):
                assert told[0].startswith("ok"), told
    starters = [threading.Thread(target=start, args=(name, idents[number::3]), daemon=True) for number, name in enumerate(machines.names)]
    for starter in starters:
        starter.start()
    for starter in starters:
        starter.join()


def each_once(machines, idents, names):
    """Whether each of these machines shows all children, each placed at one of them, which alone runs it."""
    for name in names:
        children = client.status(("127.0.0.1", machines.ports[name]), machines.secret, 120)["children"]
        if len(children) != len(idents) or not all(child["place"] in names and [run[0] for run in child["runs"]] == [child["place"]] for child in children):
            return False
    return True


def processor_seconds(machines):
    """Of each process of the machines, agents and nodes, its time until now."""
    used = {}
    for agent in machines.agents.values():
        try:
            for process in [agent.pid, *map(int, children_of(agent.pid))]:
                with open(f"/proc/{process}/stat") as file:
                    used[process] = sum(map(int, file.read().rsplit(")", 1)[1].split()[11:13])) / os.sysconf("SC_CLK_TCK")
        except OSError:
            pass  # it was killed
    return used


class Steps:
    """Tells what each step took: time, processor time of agents and nodes that live at its end, and bytes between machines."""

    def __init__(self, machines, counted):
        self.machines, self.counted = machines, counted
        self.at, self.used, self.sent = time.monotonic(), processor_seconds(machines), counted.bytes()

    def tell(self, what):
        now, used, sent = time.monotonic(), processor_seconds(self.machines), self.counted.bytes()
        spent = sum(seconds - self.used.get(process, 0) for process, seconds in used.items())
        print(f"{what}: {now - self.at:.1f} s, {spent:.1f} s of processors, {(sent - self.sent) / 1e6:.1f} MB between machines", flush=True)
        self.at, self.used, self.sent = now, used, sent


def main():
    words = argparse.ArgumentParser(description=__doc__, formatter_class=argparse.RawDescriptionHelpFormatter)
    words.add_argument("--children", type=int, default=40_000)
    words.add_argument("--groups", type=int, default=8)
    given = words.parse_args()
    idents = [f"child{number}" for number in range(given.children)]
    sizes = [0] * given.groups
    for ident in idents:
        sizes[groups.group_of(ident, given.groups)] += 1
    print(f"{given.children} children in {given.groups} groups of {min(sizes)} to {max(sizes)}, load {os.getloadavg()[0]:.1f}", flush=True)
    machines, counted = begin(given.groups)
    steps = Steps(machines, counted)
    start_all(machines, idents)
    steps.tell("all started")
    until(600, lambda: each_once(machines, idents, ["a", "b", "c"]), "each child runs once at its place")
    steps.tell("each is known to all and runs once at its place")
    time.sleep(20)
    steps.tell("nothing happens")
    machines.kill("b")
    until(600, lambda: each_once(machines, idents, ["a", "c"]), "all run elsewhere")
    steps.tell(f"a machine was killed, all run elsewhere (of which it was silent for {SILENT} s)")
    machines.begin("b")
    until(60, lambda: bool(machines.members("b")), "it answers")
    until(600, lambda: each_once(machines, idents, ["a", "b", "c"]), "all are home")
    steps.tell("the machine is back, all are home")
    until(60, machines.tables_equal, "tables are equal")
    sizes = [os.path.getsize(groups.image_of(machines.path("a.image"), number, given.groups)) for number in range(given.groups)]
    print(f"tables are equal; images of {min(sizes) / 1e3:.0f} to {max(sizes) / 1e3:.0f} KB; load {os.getloadavg()[0]:.1f}", flush=True)
    machines.end()


if __name__ == "__main__":
    main()
