#!/usr/bin/env python3
"""Whether the histories of nodes that history.py wrote make a run of one world, by the rules of rules.py.

    judge.py [--show] FILE..

Each FILE is the history of one node, in any order; a cluster's nodes all need theirs. It prints `certified` and how many acts there are, and
with --show what each node knew as its history left it. Or, on standard error:

    status 1   bad history FILE LINE: WHY            the file is no history, or not of this cluster
    status 3   FILE: WHY                             the file can't be read
    status 4   not certified differs NODE LINE       the node answers otherwise by the rules; both answers stand below
               not certified unsent NODE LINE        it brings a message that none of these histories sends
               not certified stuck NODE LINE ..      each of these nodes waits there for a message that comes later in every order
"""
import argparse
import sys
from collections import Counter

import history_text
import rules
import supd_lines
from recorded_acts import KEEP_FAILED, Act, Boot, RecordedActs

MOST_NODES = 16


class BadHistory(Exception):
    """Which history it is, by its place; the number of the line; and why."""


class Differs(Exception):
    """The node, the number of the line, the lines that it tells by the rules, and those that it told."""


class Unsent(Exception):
    """The node, and the number of the line."""


class Stuck(Exception):
    """Of each node that waits, the number of the line."""


class Entry:
    """An act that was replayed: the number of its line, the message that it brings and the one that it sends, as their texts."""

    def __init__(self, number, brings=None, sends=None):
        self.number, self.brings, self.sends = number, brings, sends


def boot_replayed(node, boot):
    """The entries of a stop and a restart."""
    node.act("stop", [], 0, True)
    lines = node.act("restart", [], 0, True)[0]
    demand_told(node, boot, [supd_lines.order(node, line) for line in lines])
    return [Entry(boot.number), Entry(boot.number)]


def act_replayed(node, act):
    lines = supd_lines.answer(node, act.line, saves=act.told != KEEP_FAILED)
    demand_told(node, act, lines)
    verb, _, text = act.line.partition(" ")
    brings = text if verb == "deliver" and supd_lines.read_letter(text) is not None else None
    return [Entry(act.number, brings, supd_lines.letter_in(lines))]


def demand_told(node, act, lines):
    if act.told not in (None, lines):
        raise Differs(node.name, act.number, lines, act.told)


class Cluster:
    """The nodes of histories, each with its entries in their order."""

    def __init__(self, texts):
        self.nodes, self.entries, self.seen, self.setting, self.targets = {}, {}, Counter(), None, set()
        for place, text in enumerate(texts):
            try:
                self.add(RecordedActs(history_text.sessions_of(text)))
            except history_text.BadLine as bad:
                raise BadHistory(place, *bad.args) from None
        count = len(self.targets | self.nodes.keys())
        if count > MOST_NODES:
            raise BadHistory(0, 0, f"a cluster has {MOST_NODES} nodes at most, and these histories name {count}")

    def add(self, recorded):
        name, setting = recorded.name, recorded.setting
        if name in self.nodes:
            raise history_text.BadLine(recorded.first_line, f"a second history of {name}")
        if setting != (self.setting or setting):
            raise history_text.BadLine(recorded.first_line, f"its settings are {' '.join(setting)}, and another node's {' '.join(self.setting)}")
        self.setting = setting
        node = self.nodes[name] = rules.Node(name, rules.Setting(setting[0], *map(int, setting[1:])))
        entries = self.entries[name] = []
        for act in recorded.acts:
            entries += boot_replayed(node, act) if isinstance(act, Boot) else act_replayed(node, act)
        self.targets |= {act.line.split(" ")[1] for act in recorded.acts if isinstance(act, Act) and act.line.startswith(("ship ", "push "))}
        self.seen += recorded.seen

    def order(self):
        """All entries, with their nodes' names, so that each message that comes was sent before."""
        self.demand_sent()
        sent, placed, ordered = set(), dict.fromkeys(self.entries, 0), []
        while True:
            fits = [name for name in sorted(self.entries) if self.is_next(name, placed, sent)]
            if not fits:
                break
            for name in fits:
                self.place(name, placed, sent, ordered)
        waiting = {name: entries[placed[name]].number for name, entries in self.entries.items() if placed[name] < len(entries)}
        if waiting:
            raise Stuck(waiting)
        return ordered

    def demand_sent(self):
        sent = {entry.sends for entries in self.entries.values() for entry in entries}
        for name, entries in sorted(self.entries.items()):
            for entry in entries:
                if entry.brings is not None and entry.brings not in sent:
                    raise Unsent(name, entry.number)

    def is_next(self, name, placed, sent):
        entries = self.entries[name]
        return placed[name] < len(entries) and (entries[placed[name]].brings is None or entries[placed[name]].brings in sent)

    def place(self, name, placed, sent, ordered):
        """Places the node's next entries, as far as they go."""
        while self.is_next(name, placed, sent):
            entry = self.entries[name][placed[name]]
            sent.add(entry.sends)
            ordered.append((name, entry))
            placed[name] += 1


def read(path):
    try:
        # (any bytes are a text of latin-1, and each byte is one of its letters)
        with open(path, encoding="latin-1", newline="") as file:
            return file.read()
    except OSError as error:
        print(f"{path}: {error.strerror}", file=sys.stderr)
        sys.exit(3)


def verdict(paths, texts, shows):
    """The lines to print, and the status."""
    try:
        cluster = Cluster(texts)
        ordered = cluster.order()
    except BadHistory as bad:
        place, number, why = bad.args
        return [f"bad history {paths[place]} {number}: {why}"], 1
    except Differs as differs:
        name, number, lines, told = differs.args
        return [f"not certified differs {name} {number}", "by the rules:", *indented(lines), "by the history:", *indented(told)], 4
    except Unsent as unsent:
        return ["not certified unsent {} {}".format(*unsent.args)], 4
    except Stuck as stuck:
        return ["not certified stuck " + " ".join(f"{name} {number}" for name, number in sorted(stuck.args[0].items()))], 4
    return [f"certified {len(ordered)}", *(line for name in sorted(cluster.nodes) if shows for line in cluster.nodes[name].show())], 0


def indented(lines):
    return ["  " + line for line in lines]


def main():
    words = argparse.ArgumentParser(usage="%(prog)s [--show] FILE..", description=__doc__.split("\n")[0])
    words.add_argument("files", nargs="+", metavar="FILE", help="the history of one node")
    words.add_argument("--show", action="store_true", help="print what each node knew, as its history left it")
    asked = words.parse_args()
    lines, status = verdict(asked.files, [read(path) for path in asked.files], asked.show)
    print("\n".join(lines), file=sys.stderr if status else sys.stdout)
    sys.exit(status)


if __name__ == "__main__":
    main()
