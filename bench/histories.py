#!/usr/bin/env python3
"""Judges histories of real nodes: random clusters of `supd`, each node under reference/history.py, with kills at any moment. Each run has to be
certified by reference/judge.py. Of each, histories that are altered are judged, too, and counted by what becomes of them.

    bench/histories.py SUPD [--runs N] [--first N] [--steps N] [--mutants N] [--keep FOLDER]

--mutants N are of each kind in each run (3). --keep leaves the histories in FOLDER. The status is 1 where a run is not certified, or an altered one
that may not stand is.
"""
import argparse
import pathlib
import random
import shutil
import sys
import tempfile
from collections import Counter

sys.path.insert(0, str(pathlib.Path(__file__).parent.parent / "reference"))
import judge
import mutants
from recorded_cluster import Cluster


class Trial:
    def __init__(self, asked):
        self.asked, self.seen, self.wrong = asked, Counter(), 0

    def run(self, number):
        with tempfile.TemporaryDirectory() as name:
            folder = pathlib.Path(name)
            cluster = Cluster(number, self.asked.supd, folder)
            cluster.play(self.asked.steps)
            if self.asked.keep:
                keep(folder, self.asked.keep / f"{number:04}")
            histories = {path.stem: path.read_bytes().decode("latin-1") for path in sorted(folder.glob("*.history"))}
        self.seen.update(cluster.seen)
        if not histories:
            return
        lines, status = judge.verdict(list(histories), list(histories.values()), False)
        self.seen["runs, " + name_of(lines, status)] += 1
        if status:
            self.tell(number, "a run", lines)
            return
        self.seen["acts of certified runs"] += int(lines[0].split(" ")[1])
        self.seen.update(judge.Cluster(histories.values()).seen)
        for kind, altered, may_stand in mutants.of(random.Random(number), histories, self.asked.mutants):
            self.take_mutant(number, kind, altered, may_stand)

    def take_mutant(self, number, kind, histories, may_stand):
        lines, status = judge.verdict(list(histories), list(histories.values()), False)
        self.seen[f"mutants, {kind}: {name_of(lines, status)}" + ("" if status else f", since {may_stand}")] += 1
        self.seen["mutants, all"] += 1
        if status == 0 and may_stand is None:
            self.tell(number, kind, lines)

    def tell(self, number, what, lines):
        self.wrong += 1
        print(f"run {number}: {what}:", *lines, sep="\n  ", flush=True)


def name_of(lines, status):
    return "certified" if status == 0 else " ".join(lines[0].split(" ")[:2 if status == 1 else 3])


def keep(folder, into):
    shutil.rmtree(into, ignore_errors=True)
    into.mkdir(parents=True)
    for path in folder.glob("*.history"):
        shutil.copy(path, into)


def main():
    words = argparse.ArgumentParser(usage="%(prog)s SUPD [--runs N] [--first N] [--steps N] [--mutants N] [--keep FOLDER]")
    words.add_argument("supd", type=lambda path: str(pathlib.Path(path).resolve()))
    for name, value in ("runs", 20), ("first", 1), ("steps", 120), ("mutants", 3):
        words.add_argument(f"--{name}", type=int, default=value)
    words.add_argument("--keep", type=pathlib.Path)
    asked = words.parse_args()
    trial = Trial(asked)
    for number in range(asked.first, asked.first + asked.runs):
        trial.run(number)
    for what, count in sorted(trial.seen.items()):
        print(count, what)
    sys.exit(trial.wrong > 0)


if __name__ == "__main__":
    main()
