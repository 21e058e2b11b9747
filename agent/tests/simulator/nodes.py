"""A node by the rules of `reference/rules.py`, over the disk of a machine of the world, and in its process."""
import functools
import hashlib

import rules

FEWEST = {"join": 0, "leave": 1, "drain": 1, "start": 1, "replace": 1, "delete": 1, "register": 2, "unregister": 1, "exit": 3, "ship": 1, "push": 1}


class NoNode(Exception):
    """It can't begin."""


@functools.lru_cache(100_000)
def weight(member, ident):
    return hashlib.sha256(member.encode() + b"\0" + ident.encode()).digest()


class Setting(rules.Setting):
    def weight(self, member, ident):
        return weight(member, ident)


class RulesNode:
    """Letters and images are named by tokens, since nobody but nodes reads them."""

    def __init__(self, machine):
        if machine.is_full:
            raise NoNode("device")
        options, self.world = machine.world.options, machine.world
        self.machine, self.node = machine, rules.Node(machine.name, Setting("sha256", options.intensity, options.period, 64))
        if machine.image is not None:
            boot, self.node.count, state = machine.image
            self.node.boot, self.node.state = boot + 1, state.copy()
        self.first = self.lines([f"ok boot {self.node.boot}"] + self.node.bring_up_to_date(), None)
        self.save()

    def save(self):
        self.machine.image = self.node.boot, self.node.count, self.node.state  # each step is kept, so the image is what the node knows

    def end(self):
        pass

    def state(self):
        """The dots that it knows, and the row of each that lives."""
        return self.node.state

    @staticmethod
    def state_of(image):
        return image[2]

    @staticmethod
    def copy_of(image):
        boot, count, state = image
        return boot, count, state.copy()

    def answer(self, line):
        verb, *words = line.split(" ")
        now = int(words.pop()[1:]) if verb == "exit" and len(words) == 4 else 0
        if verb in ("show", "inspect"):
            return getattr(self.node, verb)()
        if verb == "members":
            return list(self.node.table_lines(rules.MEMBER, lambda member, info: f"{'draining ' if info[1] == rules.DRAINING else ''}label={info[0]}"))
        if verb == "image":
            return [self.token((None, "image", (None, self.node.state.copy())))]
        if verb != "deliver" and not (verb in FEWEST and len(words) >= FEWEST[verb]):
            return ["bad line"]
        saves, before = not self.machine.is_full, self.node.count
        try:
            if verb == "deliver":
                sender, letter = self.world.letter_of(words[0])
                lines, letter = self.node.deliver(sender, letter, True, saves)
            else:
                lines, letter = self.node.act(verb, words, now, saves)
        except rules.Refused as refusal:
            return [f"refused {rules.NUMBERS[refusal.args[0]]} {refusal.args[0]}"]
        if self.node.count != before:
            self.save()
        return self.lines(lines, letter)

    def lines(self, lines, letter):
        told = [self.order(line) if line.startswith("  ") else line for line in lines]
        return told + [f"  send {letter[0]} {self.token(letter)}"] if letter else told

    def order(self, line):
        _, verb, ident, run = line.split()
        return f"  stop {ident} {run}" if verb == "stop" else f"  start {ident} {run} {self.node.state.rows[self.node.kept[ident][0]][2]}"

    def token(self, letter):
        return self.world.letter_token((self.machine.name, letter))

    def whole(self, image, sender, to):
        """A letter with all that an image has."""
        return self.token((to, "push", (None, self.world.letter_of(image)[1][2][1])))
