#!/usr/bin/env python3
"""Tells where the time of the gate goes: for each crate the processor minutes of its proof, of its tests' proof and of its edits, and the longest way
through crates.txt, whose crates wait for one another.

usage: bench/gate_time.py [PID]     runs `rt ci` here, or watches one that runs, and prints the table once that has ended

What is kept from earlier runs costs nothing, so the whole is seen where nothing is. It looks each second at the processes of the gate: what one used
in its last second is not counted."""
import os
import pathlib
import subprocess
import sys
import time
from typing import NamedTuple

sys.path.insert(0, str(pathlib.Path(__file__).resolve().parent.parent))

from building.crates import TOP, libraries_of_each

TICKS = os.sysconf("SC_CLK_TCK")
PARTS = "proof", "tests", "edits"
ROWS = 20  # crates that are shown, the dearest first


class Process(NamedTuple):
    """One of the processes that run now."""
    parent: int
    began: str      # in ticks since the system did: with its number it names a process
    seconds: float  # of a processor


def process_of(folder):
    try:
        fields = (folder / "stat").read_text().rpartition(")")[2].split()
        return Process(int(fields[1]), fields[19], (int(fields[11]) + int(fields[12])) / TICKS)
    except OSError:
        return None  # it has ended


def processes():
    """Each process that runs now, by its number."""
    found = {int(folder.name): process_of(folder) for folder in pathlib.Path("/proc").glob("[0-9]*")}
    return {number: one for number, one in found.items() if one}


def below(gate, running):
    """The numbers of the processes that the gate has begun, and those of what these have."""
    children = {}
    for number, one in running.items():
        children.setdefault(one.parent, []).append(number)
    found, left = [], [gate]
    while left:
        begun = children.get(left.pop(), [])
        found += begun
        left += begun
    return found


def work_of(number, top):
    """The crate of this clone for which a process works, and which part; None where it tells no crate. Edits are tried in copies elsewhere."""
    folder = pathlib.Path("/proc") / str(number)
    try:
        words, at = (folder / "cmdline").read_bytes().decode(errors="replace").split("\0"), pathlib.Path(os.readlink(folder / "cwd"))
    except OSError:
        return None
    crate = words[words.index("--crate-name") + 1] if "--crate-name" in words else at.name if at.parent.name == "crates" else None
    return crate and (crate, "edits" if not at.is_relative_to(top) else "tests" if "--test" in words else "proof")


class Watch:
    """What was seen of a gate so far."""

    def __init__(self, gate):
        self.gate = gate
        self.top = pathlib.Path(os.readlink(f"/proc/{gate}/cwd"))
        self.of = {}  # of each process its work and its seconds

    def look(self):
        running = processes()
        for number in below(self.gate, running):
            one = running[number]
            work = self.of.get((number, one.began), (None, 0))[0] or work_of(number, self.top)
            if work:
                self.of[number, one.began] = work, one.seconds

    def minutes(self):
        """Of each crate the processor minutes of each part."""
        minutes = {}
        for (crate, part), seconds in self.of.values():
            minutes.setdefault(crate, dict.fromkeys(PARTS, 0))[part] += seconds / 60
        return minutes


def longest_way(minutes):
    """The crates of the dearest chain of proofs, each of which waits for the one before, and its minutes."""
    libraries, ways = libraries_of_each(), {}

    def way_to(crate):
        if crate not in ways:
            before = max((way_to(name) for name in libraries.get(crate, [])), default=(0, []))
            ways[crate] = before[0] + minutes.get(crate, {}).get("proof", 0), [*before[1], crate]
        return ways[crate]

    return max((way_to(crate) for crate in libraries), default=(0, []))


def table(watch, took):
    minutes = watch.minutes()
    total = {part: sum(of[part] for of in minutes.values()) for part in PARTS}
    yield f"{took / 60:.0f} minutes by the clock, {sum(total.values()):.0f} of a processor: " + ", ".join(f"{part} {total[part]:.0f}" for part in PARTS)
    way, crates = longest_way(minutes)
    yield f"the longest way: {way:.0f} minutes, " + ", ".join(crates)
    yield f"{'crate':24}" + "".join(f"{part:>8}" for part in (*PARTS, "all"))
    for crate, of in sorted(minutes.items(), key=lambda it: -sum(it[1].values()))[:ROWS]:
        yield f"{crate:24}" + "".join(f"{of[part]:8.1f}" for part in PARTS) + f"{sum(of.values()):8.1f}"


def main(words):
    if len(words) > 1 or words and not words[0].isdecimal():
        print(__doc__, file=sys.stderr)
        return 2
    running = None if words else subprocess.Popen(["rt", "ci"], cwd=TOP, stdin=subprocess.DEVNULL)
    watch, began = Watch(running.pid if running else int(words[0])), time.monotonic()
    while running.poll() is None if running else pathlib.Path(f"/proc/{watch.gate}").exists():
        watch.look()
        time.sleep(1)
    print(*table(watch, time.monotonic() - began), sep="\n")
    return running.returncode if running else 0


if __name__ == "__main__":
    sys.exit(main(sys.argv[1:]))
