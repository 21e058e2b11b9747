#!/usr/bin/env python3
"""What `supctl simulate` has to print of a script, by the rules alone: a node knows a set of dots and the rows of those that live, where the
program has sorted rows, contexts and messages of bytes. For good scripts. Usage: rules.py [--weigh W] [--intensity N] [--period N]
[--buffer N] < SCRIPT"""
import argparse
import hashlib
import sys

import forms

MEMBER, CHILD, NAME = "member", "child", "name"
OPEN, DRAINING = "open", "draining"
MOST_ROWS = 10_000
NUMBERS = {
    "Down": 1, "AlreadyUp": 2, "UnknownNode": 3, "AlreadyPresent": 4, "NotFound": 5, "AlreadyMember": 6, "NotMember": 7, "NameTaken": 8,
    "NoSuchChild": 9, "NameUnknown": 10, "UpToDate": 12, "NoSuchMessage": 13, "StaleExit": 14, "TableFull": 15, "KeepFailed": 16,
    "BadMessage": 17, "WrongReceiver": 18, "NothingToPush": 22, "AlreadyDraining": 23,
}


class Refused(Exception):
    pass


def refuse_if(wrong, name):
    if wrong:
        raise Refused(name)


def is_effect(line):
    """Whether a line behind an answer tells a start or a stop, and not a letter, which may be of a node of such a name."""
    words = line.split()
    return words[1] in ("start", "stop") and words[3] != "to"


def dot_text(dot):
    return f"({dot[1]},{dot[0]})"  # a dot is (counter, node), so that dots are in their order


class State:
    """Known dots, and the row (table, key, value) of each that lives."""

    def __init__(self, known=(), rows=()):
        self.known, self.rows = set(known), dict(rows)

    def join(self, other):
        for dot in [d for d in self.rows if d in other.known and d not in other.rows]:
            del self.rows[dot]
        self.rows.update((d, r) for d, r in other.rows.items() if d not in self.known)
        self.known |= other.known

    def copy(self):
        return State(self.known, self.rows)

    def covers(self, other):
        return other.known <= self.known and all(d in other.rows for d in self.rows if d in other.known)

    def entries(self, table):
        """Of each key its dots, the winner first."""
        found = {}
        for dot in sorted(d for d, r in self.rows.items() if r[0] == table):
            found.setdefault(self.rows[dot][1], []).append(dot)
        return dict(sorted(found.items()))

    def dots(self, table, key):
        return sorted(d for d, r in self.rows.items() if r[:2] == (table, key))


class Spec:
    def __init__(self, options):
        self.kind, self.arg = options.get("kind", "worker"), options.get("arg", "")
        self.restart, self.shutdown = options.get("restart", "permanent"), options.get("shutdown", "5000")

    def __str__(self):
        return f"{self.kind} {self.restart} {self.shutdown} arg={self.arg}"

    def fields(self):
        shutdown = int(self.shutdown) if self.shutdown.isdecimal() else self.shutdown
        return {"arg": self.arg, "kind": self.kind, "restart": self.restart, "shutdown": shutdown}


class Node:
    def __init__(self, name, setting):
        self.name, self.setting = name, setting
        self.up, self.boot, self.count, self.state = True, 1, 0, State()
        self.forget()

    def forget(self):
        self.deltas, self.acknowledged, self.newest = {}, {}, None
        self.kept, self.given, self.moments = {}, 0, []  # id to (dot, k), in kept order

    # -- what is wanted and kept

    def eligible(self):
        """The members whose winner is open, by name."""
        return [member for member, dots in self.state.entries(MEMBER).items() if self.state.rows[dots[0]][2][1] == OPEN]

    def place(self, id, eligible=None):
        eligible = self.eligible() if eligible is None else eligible
        return max(eligible, key=lambda m: self.setting.weight(m, id), default=None)

    def wanted(self):
        eligible = self.eligible()
        return {id: dots[0] for id, dots in self.state.entries(CHILD).items() if self.place(id, eligible) == self.name}

    def start(self, id, dot):
        self.given += 1
        self.kept[id] = (dot, self.given)
        return f"  {self.name} start {id} {self.boot}.{self.given}"

    def bring_up_to_date(self, exited=None):
        wanted = self.wanted()
        effects = []
        for id in [id for id in reversed(self.kept) if wanted.get(id) != self.kept[id][0]]:
            if id != exited:
                effects.append(f"  {self.name} stop {id} {self.boot}.{self.kept[id][1]}")
        self.kept = {id: entry for id, entry in self.kept.items() if wanted.get(id) == entry[0]}
        return effects + [self.start(id, dot) for id, dot in wanted.items() if id not in self.kept]

    # -- operations

    def absorb(self, delta, exited=None):
        self.state.join(delta)
        self.deltas[self.count] = delta
        self.deltas.pop(self.count - self.setting.buffer, None)
        self.count += 1
        return self.bring_up_to_date(exited)

    def issue(self, saves, removed=(), row=None, exited=None):
        refuse_if(not saves, "KeepFailed")
        delta, dot = State(removed), None
        if row is not None:
            dot = (max([d[0] for d in self.state.known if d[1] == self.name], default=0) + 1, self.name)
            delta.known.add(dot)
            delta.rows[dot] = row
        effects = self.absorb(delta, exited)
        self.newest = delta
        return dot, effects

    def fresh(self, table, key, taken):
        refuse_if(self.state.dots(table, key), taken)
        refuse_if(len(self.state.rows) >= MOST_ROWS, "TableFull")

    def there(self, table, key, absent):
        dots = self.state.dots(table, key)
        refuse_if(not dots, absent)
        return dots

    def add(self, saves, row, removed=()):
        dot, effects = self.issue(saves, removed, row)
        gone = " removed" + "".join(" " + dot_text(d) for d in removed) if removed else ""
        return [f"ok {dot_text(dot)}{gone}"] + effects, None

    def remove(self, saves, dots):
        effects = self.issue(saves, dots)[1]
        return ["ok removed" + "".join(" " + dot_text(d) for d in sorted(dots))] + effects, None

    def act(self, verb, words, now, saves):
        refuse_if(not self.up and verb != "restart", "Down")
        return getattr(self, "do_" + verb)(words, now, saves)

    def do_join(self, words, now, saves):
        self.fresh(MEMBER, self.name, "AlreadyMember")
        return self.add(saves, (MEMBER, self.name, (options_of(words).get("label", ""), OPEN)))

    def do_leave(self, words, now, saves):
        return self.remove(saves, self.there(MEMBER, words[0], "NotMember"))

    def do_drain(self, words, now, saves):
        removed = self.there(MEMBER, words[0], "NotMember")
        label, status = self.state.rows[removed[0]][2]
        refuse_if(status == DRAINING, "AlreadyDraining")
        return self.add(saves, (MEMBER, words[0], (label, DRAINING)), removed)

    def do_start(self, words, now, saves):
        self.fresh(CHILD, words[0], "AlreadyPresent")
        return self.add(saves, (CHILD, words[0], Spec(options_of(words[1:]))))

    def do_replace(self, words, now, saves):
        removed = self.there(CHILD, words[0], "NotFound")
        return self.add(saves, (CHILD, words[0], Spec(options_of(words[1:]))), removed)

    def do_delete(self, words, now, saves):
        dots = self.there(CHILD, words[0], "NotFound")
        return self.remove(saves, dots + [d for d, r in self.state.rows.items() if r[0] == NAME and r[2] == words[0]])

    def do_register(self, words, now, saves):
        self.there(CHILD, words[1], "NoSuchChild")
        self.fresh(NAME, words[0], "NameTaken")
        return self.add(saves, (NAME, words[0], words[1]))

    def do_unregister(self, words, now, saves):
        return self.remove(saves, self.there(NAME, words[0], "NameUnknown"))

    def do_exit(self, words, now, saves):
        id, incarnation, reason = words
        dot, k = self.kept.get(id, (None, None))
        refuse_if(incarnation != f"{self.boot}.{k}", "StaleExit")
        restart = self.state.rows[dot][2].restart
        if restart == "temporary" or restart == "transient" and reason not in ("failed", "crash"):
            effects = self.issue(saves, [dot], exited=id)[1]
            return [f"ok finished {dot_text(dot)}"] + effects, None
        used = max([now] + self.moments[-1:])
        moments = self.moments + [used]
        if sum(used - m <= self.setting.period for m in moments) > self.setting.intensity:
            removed = self.state.dots(MEMBER, self.name)
            effects = self.issue(saves, removed, exited=id)[1]
            self.moments = []
            return ["ok gave up removed" + "".join(" " + dot_text(d) for d in removed)] + effects, None
        self.moments = moments
        return ["ok restarted", self.start(id, dot)], None

    # -- messages

    def do_ship(self, words, now, saves):
        to = words[0]
        refuse_if(to == self.name, "UnknownNode")
        known = self.acknowledged.get(to, 0)
        refuse_if(known == self.count, "UpToDate")
        numbers = range(known, self.count)
        part = all(n in self.deltas for n in numbers)
        content = State() if part else self.state.copy()
        for n in numbers if part else ():
            content.join(self.deltas[n])
        return ["ok sent"], (to, f"delta {self.count} {'part' if part else 'whole'}", (self.count, content))

    def do_push(self, words, now, saves):
        refuse_if(words[0] == self.name, "UnknownNode")
        refuse_if(self.newest is None, "NothingToPush")
        return ["ok sent"], (words[0], "push", (None, self.newest))

    def deliver(self, sender, letter, whole, saves):
        refuse_if(not self.up, "Down")
        refuse_if(not whole, "BadMessage")
        to, kind, (number, content) = letter
        refuse_if(to != self.name, "WrongReceiver")
        if content is None:
            refuse_if(number > self.count, "BadMessage")
            self.acknowledged[sender] = max(number, self.acknowledged.get(sender, 0))
            return ["ok acked"], None
        answer = None if number is None else (sender, f"ack {number}", (number, None))
        if self.state.covers(content):
            return ["ok known"], answer
        refuse_if(not saves, "KeepFailed")
        return ["ok absorbed"] + self.absorb(content.copy()), answer

    def do_stop(self, words, now, saves):
        self.up = False
        self.forget()
        return ["ok stopped"], None

    def do_restart(self, words, now, saves):
        refuse_if(self.up, "AlreadyUp")
        refuse_if(not saves, "KeepFailed")
        self.up, self.boot = True, self.boot + 1
        return [f"ok boot {self.boot}"] + self.bring_up_to_date(), None

    # -- what is shown

    def table_lines(self, table, line):
        for key, dots in self.state.entries(table).items():
            yield f"{table} {key} {dot_text(dots[0])} " + line(key, self.state.rows[dots[0]][2])
            yield from (f"loser {table} {key} {dot_text(dot)}" for dot in dots[1:])

    def placed(self, id, eligible=None):
        member = self.place(id, eligible)
        return "unplaced" if member is None else f"on {member}"

    def lead(self, id, eligible=None):
        return f"{id} {self.placed(id, eligible) if self.state.dots(CHILD, id) else 'gone'}"

    def show(self):
        if not self.up:
            return [f"node {self.name} down"]
        eligible = self.eligible()
        return [f"node {self.name} boot {self.boot}",
                *self.table_lines(MEMBER, lambda member, info: f"{'draining ' if info[1] == DRAINING else ''}label={info[0]}"),
                *self.table_lines(CHILD, lambda id, spec: f"{spec} {self.placed(id, eligible)}"),
                *self.table_lines(NAME, lambda name, id: self.lead(id, eligible)),
                *(f"kept {id} {self.boot}.{k}" for id, (dot, k) in self.kept.items())]

    def inspect(self):
        if not self.up:
            return self.show()
        vector, cloud = forms.cut(self.state.known)
        return [*self.show(), f"count {self.count}", f"buffer {len(self.deltas)}", *(f"vector {node} {n}" for node, n in vector.items()),
                *(f"cloud {dot_text(dot)}" for dot in cloud), *(f"acked {peer} {n}" for peer, n in sorted(self.acknowledged.items()))]

    def where(self, name):
        if not self.up:
            return [f"node {self.name} down"]
        dots = self.state.dots(NAME, name)
        return [f"{name} " + (self.lead(self.state.rows[dots[0]][2]) if dots else "unknown")]


def options_of(words):
    return dict(word.split("=", 1) for word in words)


class Setting:
    def __init__(self, weigh, intensity, period, buffer):
        self.flat, self.intensity, self.period, self.buffer = weigh == "flat", intensity, period, buffer

    def weight(self, member, id):
        return b"" if self.flat else hashlib.sha256(member.encode() + b"\0" + id.encode()).digest()


class World:
    def __init__(self, names, setting):
        self.nodes = {name: Node(name, setting) for name in names}
        self.sent = {name: [] for name in names}

    def node(self, name):
        refuse_if(name not in self.nodes, "UnknownNode")
        return self.nodes[name]

    def post(self, node, answer):
        lines, letter = answer
        if letter is not None:
            self.sent[node.name].append(letter)
            lines.append(f"  sent {node.name} {len(self.sent[node.name])} to {letter[0]} {letter[1]}")
        return lines

    def act(self, verb, at, words, now=0, saves=True):
        node = self.node(at)
        if verb in ("ship", "push"):
            self.node(words[0])
        return self.post(node, node.act(verb, words, now, saves))

    def letter(self, sender, k):
        self.node(sender)
        refuse_if(not 1 <= k <= len(self.sent[sender]), "NoSuchMessage")
        return self.sent[sender][k - 1]

    def deliver(self, sender, k, at=None, drop=0, saves=True):
        letter = self.letter(sender, k)
        node = self.node(letter[0] if at is None else at)
        return self.post(node, node.deliver(sender, letter, drop == 0, saves))

    def settle(self):
        up = sorted(name for name, node in self.nodes.items() if node.up)
        messages, effects = 0, []
        for sender, to in [(other, up[0]) for other in up[1:]] + [(up[0], other) for other in up[1:]]:
            try:
                self.act("ship", sender, [to])
            except Refused as refusal:
                if refusal.args[0] != "UpToDate":
                    raise
                continue
            messages += 2
            effects += [line for line in self.deliver(sender, len(self.sent[sender])) if is_effect(line)]
            self.deliver(to, len(self.sent[to]))
        return [f"ok settled {messages}"] + effects

    def line(self, words):
        """The lines that a line of the script prints."""
        saves = words[-1] != "!fail" or not self.may_end(words)
        words = words if saves else words[:-1]
        now = 0
        if words[-1].startswith("@") and self.may_end(words):
            now, words = int(words[-1][1:]), words[:-1]
        try:
            return self.say(words[0], words[1:], now, saves)
        except Refused as refusal:
            return [f"refused {NUMBERS[refusal.args[0]]} {refusal.args[0]}"]

    # words that a line must have, before any ending
    FEWEST = {"join": 2, "leave": 3, "drain": 3, "start": 3, "replace": 3, "delete": 3, "register": 4, "unregister": 3, "exit": 5, "ship": 3,
              "push": 3, "deliver": 3, "stop": 2, "restart": 2}

    def may_end(self, words):
        return words[0] in self.FEWEST and len(words) > self.FEWEST[words[0]]

    def say(self, verb, words, now, saves):
        if verb == "settle":
            return self.settle()
        if verb in ("show", "inspect"):
            return getattr(self.node(words[0]), verb)()
        if verb == "image":
            return [forms.image(self.node(words[0]))]
        if verb == "message":
            return [forms.message(words[0], self.letter(words[0], int(words[1])))]
        if verb == "where":
            return self.node(words[0]).where(words[1])
        if verb == "raw":
            refuse_if(not self.node(words[0]).up, "Down")
            try:
                forms.read(words[1], forms.MESSAGES)
            except forms.Fault:
                raise Refused("BadMessage") from None
            raise Refused("NoSuchMessage")
        if verb == "deliver":
            more = dict(zip(words[2::2], words[3::2]))
            return self.deliver(words[0], int(words[1]), more.get("at"), int(more.get("drop", 0)), saves)
        return self.act(verb, words[0], words[1:], now, saves)


def play(script, setting):
    world = None
    for line in script:
        line = line.rstrip("\n")
        if not line or line.startswith("#"):
            continue
        words = line.split(" ")
        if world is None:
            world = World(words[1:], setting)
        else:
            yield from world.line(words)


def main():
    words = argparse.ArgumentParser()
    words.add_argument("--weigh", default="sha256")
    for name, value in ("intensity", 1), ("period", 5), ("buffer", 64):
        words.add_argument(f"--{name}", type=int, default=value)
    setting = Setting(**vars(words.parse_args()))
    for line in play(sys.stdin, setting):
        print(line)


if __name__ == "__main__":
    main()
