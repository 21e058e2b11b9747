#!/usr/bin/env python3
"""Plays schedules of faults in a simulated cluster, and tells which promises of the agents each of them broke.

    simulate.py --schedules 1000                     so many over all flavours, from seed 0 on
    simulate.py --seeds 100 --from 5000 --jobs 2     seeds 5000 to 5099 of each flavour, in two processes
    simulate.py --flavour cut --seed 17 --log        one of them, with all that was said
    simulate.py --play FILE                          a script, as it is printed of one that broke a promise
    simulate.py --schedules 48 --supd PROGRAM        each with nodes by the rules and with processes of `supd`: all lines have to be the same

pypy3 plays several times as many as python3 does.
"""
import argparse
import collections
import functools
import multiprocessing
import signal
import sys
import time
from typing import NamedTuple

from simulator import play, schedules, script, shrink, supd

CHUNK = 20  # seeds that a process takes at a time


class Result(NamedTuple):
    flavour: str
    seed: int
    broken: dict
    well_after: float
    most_begins: int
    took: float          # seconds of a processor
    is_unknowable: bool  # an older image was gone on with where nobody was heard who knew more: that can't be held


def result_of(flavour, seed, program=None):
    began, one = time.process_time(), schedules.Schedule(flavour, seed).script
    played = play.Played(one)
    if program:
        compare(one, played, program)
    return Result(flavour, seed, played.broken, played.well_after, played.most_begins, time.process_time() - began, bool(played.world.unknowable))


def compare(one, played, program):
    """Plays a script with nodes of a program, too."""
    with supd.Supds(program) as nodes:
        real = play.Played(one, nodes)
    lines = zip(played.world.lines(), real.world.lines())
    first = next((f"{line!r} by the rules, {other!r} by {program}" for line, other in lines if line != other), None)
    if first or len(played.world.log) != len(real.world.log):
        played.breaks("supd does as the rules say", first or "one has lines more")


def results_of(program, chunk):
    return [result_of(flavour, seed, program) for flavour, seed in chunk]


def all_results(wanted, jobs, program):
    chunks = [wanted[at:at + CHUNK] for at in range(0, len(wanted), CHUNK)]
    if jobs == 1:
        yield from map(functools.partial(results_of, program), chunks)
    else:
        with multiprocessing.Pool(jobs) as pool:
            yield from pool.imap_unordered(functools.partial(results_of, program), chunks)


class Sum:
    """What the schedules of one flavour broke, and took."""

    def __init__(self):
        self.count, self.bad, self.unknowable, self.times, self.most_begins, self.took = 0, 0, 0, [], 0, 0.0

    def add(self, result):
        self.count += 1
        self.bad += bool(result.broken)
        self.took += result.took
        self.unknowable += result.is_unknowable
        self.times += [] if result.well_after is None else [result.well_after]
        self.most_begins = max(self.most_begins, result.most_begins)

    def __str__(self):
        times = sorted(self.times) or [float("nan")]
        unknowable = f" ({self.unknowable} with an older image whose machine met nobody who knew more)" if self.unknowable else ""
        return (f"{self.count} schedules{unknowable}, {self.bad} broke a promise; well after the last fault within {times[len(times) // 2]:g} s (median), "
                f"{times[-1]:g} s (worst); a child began {self.most_begins} times at most")


def play_all(wanted, jobs=1, examples=1, program=None, minutes=None):
    """Plays these (flavour, seed), and prints what they broke, also where it is ended before all are played. How many broke something."""
    began, sums, bad = time.time(), collections.defaultdict(Sum), 0
    signal.signal(signal.SIGTERM, lambda *_: sys.exit(1))
    try:
        for results in all_results(wanted, jobs, program):
            for result in results:
                sums[result.flavour].add(result)
                if result.broken:
                    bad += 1
                    tell_broken(result, bad <= examples)
            if minutes and time.time() - began > 60 * minutes:
                break
    finally:
        tell_sums(sums, bad)
    return bad


def tell_sums(sums, bad):
    for flavour, one in sums.items():
        print(f"{flavour}: {one}")
    count, took = sum(one.count for one in sums.values()), sum(one.took for one in sums.values())
    print(f"{count} schedules, {bad} broke a promise; {60 * count / max(took, 0.001):.0f} a minute of a processor", flush=True)


def tell_broken(result, shrinks):
    for what, detail in result.broken.items():
        print(f"BROKEN by {result.flavour} {result.seed}: {what}: {detail}", flush=True)
    if shrinks:
        smaller = shrink.Shrinker(schedules.Schedule(result.flavour, result.seed).script, next(iter(result.broken))).shrink()
        print(f"a small script that breaks it, too:\n{smaller}\n", flush=True)


def play_one(one, given):
    played = play.Played(one)
    print(one)
    if given.log:
        print("\n".join(played.world.lines()))
    for what, detail in played.broken.items():
        print(f"BROKEN: {what}: {detail}")
    print(f"well {played.well_after} s after the last fault; a child began {played.most_begins} times at most")
    return len(played.broken)


def main():
    given = argparse.ArgumentParser(description=__doc__, formatter_class=argparse.RawDescriptionHelpFormatter)
    given.add_argument("--flavour", default="all", choices=("all", *schedules.FLAVOURS))
    given.add_argument("--seeds", type=int, help="how many of each flavour")
    given.add_argument("--schedules", type=int, help="how many over all flavours")
    given.add_argument("--from", type=int, default=0, dest="first", help="the first seed")
    given.add_argument("--minutes", type=float, help="ends after so many, whatever is left")
    given.add_argument("--jobs", type=int, default=1)
    given.add_argument("--examples", type=int, default=3, help="how many that break a promise are made small")
    given.add_argument("--supd", metavar="PROGRAM", help="with its processes, too")
    given.add_argument("--seed", type=int, help="this one alone")
    given.add_argument("--play", help="a file with a script")
    given.add_argument("--log", action="store_true")
    given = given.parse_args()
    flavours = list(schedules.FLAVOURS) if given.flavour == "all" else [given.flavour]
    if given.play:
        with open(given.play) as file:
            sys.exit(play_one(script.read(file.read()), given))
    if given.seed is not None:
        sys.exit(sum(play_one(schedules.Schedule(flavour, given.seed).script, given) for flavour in flavours))
    count = given.schedules or len(flavours) * (given.seeds or 100)
    wanted = [(flavours[number % len(flavours)], given.first + number // len(flavours)) for number in range(count)]
    sys.exit(1 if play_all(wanted, given.jobs, given.examples, given.supd, given.minutes) else 0)


if __name__ == "__main__":
    main()
