#!/usr/bin/env python3
"""Plays random scripts by the program and by the rules, and stops at the first one of which both don't print the same. Members come, go and are
drained at several nodes at once, beside children that move, lost and late messages, stops, and saves that fail. The script that differs is left
in the file differs.script. Usage: random_scripts.py PROGRAM [COUNT [FIRST]], as random_scripts.py crates/supctl/out/supctl 500. In place of the
program an empty folder may be named: the scripts are then written there as cases for `rt try --cases FOLDER`, with what the rules say of them."""
import argparse
import pathlib
import random
import subprocess
from collections import Counter

import forms
import rules

NODES = ["a", "b", "c", "d-1", "e_2"]
IDS = ["web", "mail", "db", "cron", "x~", "0"]
ALIASES = ["www", "post", "store"]
LABELS = ["", " label=", " label=rack-1", ' label="\\', " label=label=x"]
SPECS = ["", " kind=http", " arg=port=80", " restart=transient", " restart=temporary", " kind=k arg=a restart=permanent shutdown=infinity",
         " shutdown=brutal_kill", " shutdown=0"]
REASONS = ["normal", "shutdown", "shutdown:label", "failed", "crash", "crash", "crash"]
# How often a line of a kind stands in a script, in the middle; each script has weights of its own round these.
KINDS = {"join": 8, "leave": 3, "drain": 5, "clash": 4, "start": 7, "replace": 3, "delete": 2, "register": 3, "unregister": 1, "exit": 5, "ship": 6,
         "push": 6, "meet": 10, "deliver": 12, "raw": 1, "stop": 1, "restart": 5, "settle": 3, "show": 5, "inspect": 1, "image": 1, "where": 1,
         "message": 1}


class Script:
    """A script that grows line by line, played by the rules meanwhile, so that most lines fit what has come of those before."""

    def __init__(self, number):
        self.chance = random.Random(number)
        self.options = {"weigh": self.pick(["flat", "sha256", "sha256"]), "intensity": self.pick([0, 1, 1, 2, 5]),
                        "period": self.pick([1, 5, 20]), "buffer": self.pick([1, 2, 4, 64])}
        names = self.chance.sample(NODES, self.pick([1, 2, 2, 3, 3, 4, 5]))
        self.world = rules.World(names, rules.Setting(**self.options))
        self.lines, self.printed, self.moment = ["nodes " + " ".join(names)], [], 0
        self.weights = [weight * self.pick([0.3, 1, 1, 3]) for weight in KINDS.values()]

    def pick(self, items):
        return self.chance.choice(items)

    def grow(self):
        verb = self.chance.choices(list(KINDS), self.weights)[0]
        if verb == "clash":
            self.clash()
        elif verb == "meet":
            self.meet()
        else:
            self.say(verb, self.node_for(verb))

    def say(self, verb, at, words=None):
        words = getattr(self, "of_" + verb, lambda at: "")(at) if words is None else words
        line = verb if verb == "settle" else f"{verb} {at}{words}"
        if verb in rules.World.FEWEST:
            line += self.ending(verb)
        self.lines.append(line)
        self.printed += self.world.line(line.split(" "))

    def node_for(self, verb):
        """Most often a node at which such a line does something."""
        if self.chance.random() < 0.04:
            return self.pick([*self.world.nodes, "zed"])
        fits = [name for name, node in self.world.nodes.items() if node.up != (verb == "restart")]
        if verb == "join":
            fits = [name for name in fits if not self.world.nodes[name].state.dots(rules.MEMBER, name)]
        if verb in ("leave", "drain"):
            fits = [name for name in fits if self.world.nodes[name].state.entries(rules.MEMBER)]
        if verb in ("deliver", "message"):
            fits = [name for name, letters in self.world.sent.items() if letters]
        return self.pick(fits or list(self.world.nodes))

    def member_for(self, at):
        """Most often a member that the node knows."""
        known = list(self.world.nodes[at].state.entries(rules.MEMBER)) if at in self.world.nodes else []
        return self.pick(known if known and self.chance.random() < 0.85 else [*self.world.nodes, "zed"])

    def seen_at(self, member):
        """A node that knows of the member, if one does."""
        seen = [name for name, node in self.world.nodes.items() if node.up and node.state.dots(rules.MEMBER, member)]
        return self.pick(seen or [self.node_for("drain")])

    def clash(self):
        """Nodes that don't hear of one another drain one member, or have it leave, and it may join again meanwhile; then they may meet, and what
        has come of it is drained or leaves."""
        member = self.member_for(self.node_for("drain"))
        for _ in range(self.chance.randint(1, 4)):
            verb = self.pick(["drain", "drain", "leave", "rejoin"])
            if verb == "rejoin":
                self.say("leave", member, " " + member)
                self.say("join", member)
            else:
                self.say(verb, self.seen_at(member), " " + member)
        if self.chance.random() < 0.6:
            self.say("settle", member)
            self.say("show", self.seen_at(member))
            self.say(self.pick(["drain", "leave"]), self.seen_at(member), " " + member)

    def meet(self):
        """A letter that comes at once, and often its acknowledgement."""
        sender, verb = self.node_for("ship"), self.pick(["ship", "push"])
        self.say(verb, sender)
        for node in [sender] + [name for name in self.world.nodes if name != sender]:
            letters = self.world.sent.get(node)
            if letters and self.chance.random() < (0.9 if node == sender else 0.2):
                self.say("deliver", node, f" {len(letters)}")

    def ending(self, verb):
        self.moment += self.pick([0, 0, 1, 3, 10])
        moment = f" @{self.moment}" if verb == "exit" or self.chance.random() < 0.05 else ""
        return moment + (" !fail" if self.chance.random() < 0.06 else "")

    def of_join(self, at):
        return self.pick(LABELS)

    def of_leave(self, at):
        return " " + self.member_for(at)

    of_drain = of_leave

    def of_start(self, at):
        return f" {self.pick(IDS)}{self.pick(SPECS)}"

    of_replace = of_start

    def of_delete(self, at):
        return " " + self.pick(IDS)

    def of_register(self, at):
        return f" {self.pick(ALIASES)} {self.pick(IDS)}"

    def of_unregister(self, at):
        return " " + self.pick(ALIASES)

    of_where = of_unregister

    def of_exit(self, at):
        node = self.world.nodes.get(at)
        runs = [(id, f"{node.boot}.{k}") for id, (_, k) in node.kept.items()] if node else []
        id, run = self.pick(runs) if runs and self.chance.random() < 0.9 else (self.pick(IDS), f"1.{self.chance.randint(1, 9)}")
        return f" {id} {run} {self.pick(REASONS)}"

    def of_ship(self, at):
        others = [name for name in self.world.nodes if name != at]
        return " " + (self.pick(others) if others and self.chance.random() < 0.97 else self.pick([at, "zed"]))

    of_push = of_ship

    def letter(self, at):
        """The number of a letter that the node sent, most often one of the last."""
        sent = len(self.world.sent.get(at, []))
        least = max(1, sent - 3) if self.chance.random() < 0.7 else 1
        return self.chance.randint(least, sent) if sent and self.chance.random() < 0.98 else sent + 1

    def of_deliver(self, at):
        place = f" at {self.pick(list(self.world.nodes))}" if self.chance.random() < 0.05 else ""
        return f" {self.letter(at)}{place}" + (f" drop {self.chance.randint(0, 40)}" if self.chance.random() < 0.05 else "")

    def of_message(self, at):
        return f" {self.letter(at)}"

    def of_raw(self, at):
        senders = [name for name, letters in self.world.sent.items() if letters]
        if not senders:
            return ' {"v":2}'
        sender = self.pick(senders)
        text = forms.message(sender, self.pick(self.world.sent[sender]))
        for _ in range(self.chance.randint(0, 2)):
            text = self.altered(text)
        return " " + text

    def altered(self, text):
        if self.chance.random() < 0.2:
            place = self.chance.randrange(len(text))
            return (text[:place] + text[place + 1:]) or "{"
        old, new = self.pick([('"v":2', '"v":1'), ('"v":2', '"v":3'), (',"status":"open"', ""), (',"status":"draining"', ""),
                              ('"status":"open"', '"status":"draining"'), ('"draining"', '"closed"'), ('"kind":"push"', '"kind":"delta"')])
        return text.replace(old, new)


def text_of(lines):
    return "".join(line + "\n" for line in lines)


def differs(program, script):
    options = [f"--{name}={value}" for name, value in script.options.items()]
    run = subprocess.run([program, "simulate", *options], input=text_of(script.lines), text=True, capture_output=True)
    if (run.stdout, run.stderr, run.returncode) == (text_of(script.printed), "", 0):
        return False
    pathlib.Path("differs.script").write_text(text_of(script.lines))
    came = run.stdout.splitlines()
    place = next((i for i, (a, b) in enumerate(zip(script.printed, came)) if a != b), min(len(script.printed), len(came)))
    print(f"options {' '.join(options)}, status {run.returncode} {run.stderr}")
    print(f"line {place + 1} of the output: by the rules {script.printed[place:place + 1]}, by the program {came[place:place + 1]}")
    return True


def write_case(folder, number, script):
    case = folder / f"{number:04}"
    case.write_text(text_of(script.lines))
    case.with_suffix(".args").write_text(text_of(["simulate", *(f"--{name}={value}" for name, value in script.options.items())]))
    case.with_suffix(".stdout").write_text(text_of(script.printed))


def main():
    words = argparse.ArgumentParser()
    words.add_argument("program", type=pathlib.Path)
    words.add_argument("count", type=int, nargs="?", default=200)
    words.add_argument("first", type=int, nargs="?", default=1)
    asked = words.parse_args()
    seen = Counter()
    for number in range(asked.first, asked.first + asked.count):
        script = Script(number)
        for _ in range(script.chance.randint(10, 150)):
            script.grow()
        if asked.program.is_dir():
            write_case(asked.program, number, script)
        elif differs(asked.program, script):
            raise SystemExit(f"script {number} differs, and is in differs.script")
        seen.update({"lines": len(script.lines), "drains": sum(line.startswith("drain") for line in script.lines)})
        seen.update({"refused for draining": script.printed.count("refused 23 AlreadyDraining")})
    print(f"{asked.count} scripts, {'written' if asked.program.is_dir() else 'alike'}: " + ", ".join(f"{count} {name}" for name, count in seen.items()))


if __name__ == "__main__":
    main()
