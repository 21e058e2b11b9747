#!/usr/bin/env python3
"""How far it goes, by running it: what grows with nodes, rows, losses, stops, gaps and members, drawn as docs/pictures/scale-NAME.svg.

Counts (nodes, rows, buffer, away, images) go by fixed seeds and repeat on any machine under any load. Each of their steps is reckoned beside the program,
and a program that answers otherwise, or writes a text of another length, ends this with status 1. Times (steps, placing, processes) are of the machine and
its load. What takes longer than --seconds, or has more letters than --megabytes, is left out, and told on standard error."""
import argparse
import datetime
import os
import pathlib
import signal
import sys
import time

from scaling.counts import SEEDS, Counts
from scaling.found import Found
from scaling.looks import LOOKS, growth, picture_of
from scaling.paper import Plan
from scaling.players import Node, Wrong
from scaling.times import Times

TOP = pathlib.Path(__file__).resolve().parent.parent
COUNTS, TIMES = ("nodes", "rows", "buffer", "away", "images"), ("steps", "placing", "processes")


def how_found(picture):
    """The note below a picture."""
    if picture in COUNTS:
        return f"By fixed seeds; where chance has a part, the mean of {len(SEEDS)}. Dotted: by the formula. Anew: bench/scale.py {picture}"
    day, load = datetime.datetime.now(datetime.timezone.utc).strftime("%Y-%m-%d"), os.getloadavg()[0]
    return f"{day}, {os.cpu_count()} processors, load {load:.1f} at the end. Anew: bench/scale.py {picture}"


def measure(asked, found, picture):
    measured = Counts(asked.supctl, asked.seconds, asked.megabytes) if picture in COUNTS else Times(
        asked.supctl, asked.supd, asked.seconds, asked.megabytes)
    begin = time.monotonic()
    points = list(getattr(measured, picture)())
    print(f"{picture}: {time.monotonic() - begin:.0f} s", file=sys.stderr, flush=True)
    if points:
        found.take(picture, points, asked.note or how_found(picture))


def words_of():
    words = argparse.ArgumentParser(description=__doc__, formatter_class=argparse.RawDescriptionHelpFormatter)
    words.add_argument("picture", nargs="*", help=f"of {', '.join(COUNTS + TIMES)}; all, where none is named")
    words.add_argument("--supctl", default=TOP / "crates/supctl/out/supctl", help="the program; by default the built one of this tree")
    words.add_argument("--supd", default=TOP / "crates/supd/out/supd", help="likewise; where there is none, no real nodes are run")
    words.add_argument("--folder", type=pathlib.Path, default=TOP / "docs/pictures", help="where the pictures and scale.tsv stand")
    words.add_argument("--seconds", type=float, default=120, help="of one run, at most (120)")
    words.add_argument("--megabytes", type=float, default=300, help="of one run's letters, at most (300)")
    words.add_argument("--note", help="what stands below the pictures that are measured now")
    words.add_argument("--draw", action="store_true", help="draws what scale.tsv has, and measures nothing")
    words.add_argument("--paper", action="store_true", help="tells what many machines would take, and draws nothing")
    for name, kind, value in (("machines", int, 100), ("children", int, 1_000_000), ("groups", int, 128), ("members", int, 5), ("changes", float, 278),
                              ("rounds", float, 1)):
        words.add_argument(f"--{name}", type=kind, default=value, help=f"on paper ({value}{' a second' if kind is float else ''})")
    return words


def main():
    words = words_of()
    asked = words.parse_args()
    if asked.paper:
        print(*Plan(asked.machines, asked.children, asked.groups, asked.members, asked.changes, asked.rounds).told(), sep="\n")
        return
    if not set(asked.picture) <= set(LOOKS):
        words.error(f"a picture is one of {', '.join(LOOKS)}")
    pictures = asked.picture or list(LOOKS)
    asked.supctl, asked.supd = ([str(it)] if os.path.exists(it) else None for it in (asked.supctl, asked.supd))
    if not asked.draw and not asked.supctl and pictures != ["processes"]:
        words.error("there is no built supctl: build it by ./supctl place </dev/null, or name one by --supctl")
    found = Found(asked.folder / "scale.tsv")
    signal.signal(signal.SIGTERM, lambda number, _: sys.exit(128 + number))
    try:
        for picture in pictures:
            if not asked.draw:
                measure(asked, found, picture)
            if drawn := picture_of(found, picture):
                (asked.folder / f"scale-{picture}.svg").write_text(drawn)
    except Wrong as wrong:
        raise SystemExit(f"WRONG: {wrong}")
    finally:
        for node in list(Node.begun):
            node.kill()
    if not asked.draw and "steps" in pictures:
        print(*growth(found), sep="\n")


if __name__ == "__main__":
    main()
