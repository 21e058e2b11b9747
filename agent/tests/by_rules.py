#!/usr/bin/env python3
"""A stand-in for `supd`, by the rules of reference/rules.py: the same words, lines, answers and image, in Python, and nothing of it proved.

With it the agent is tried where `supd` isn't built yet: `agent/test.sh --supd agent/tests/by_rules.py`.
"""
import argparse
import fcntl
import os
import sys

TOP = os.path.dirname(os.path.dirname(os.path.dirname(os.path.abspath(__file__))))
sys.path.insert(0, os.path.join(TOP, "reference"))

import forms
import rules
import supd_lines

SHOWN = {"show": 0, "inspect": 0, "where": 1, "members": 0, "image": 0}


class Filter:
    def __init__(self, name, path, setting):
        self.path, self.node = path, rules.Node(name, setting)
        if os.path.exists(path):
            with open(path) as file:
                value = forms.read(file.read(), forms.IMAGES)
            self.node.boot, self.node.count, self.node.state = value["boot"] + 1, value["count"], supd_lines.state_of(value)
        self.first = [f"ok boot {self.node.boot}"] + [supd_lines.order(self.node, line) for line in self.node.bring_up_to_date()]
        self.save()

    def save(self):
        with open(self.path + ".new", "w") as file:
            file.write(forms.image(self.node))
            file.flush()
            os.fsync(file.fileno())
        os.rename(self.path + ".new", self.path)

    def can_save(self):
        try:
            open(self.path + ".new", "w").close()
        except OSError:
            return False
        return True

    def say(self, lines):
        sys.stdout.write("".join(line + "\n" for line in lines) + "\n")
        sys.stdout.flush()

    def answer(self, line):
        verb, *words = line.split(" ")
        if verb in SHOWN and len(words) == SHOWN[verb]:
            self.say(self.shown(verb, words))
            return
        before = self.node.count
        lines = supd_lines.answer(self.node, line, self.can_save())
        if self.node.count != before:
            self.save()
        self.say(lines)

    def shown(self, verb, words):
        if verb == "members":
            return [line for line in self.node.show() if line.startswith("member ")]
        return [forms.image(self.node)] if verb == "image" else getattr(self.node, verb)(*words)


def main():
    words = argparse.ArgumentParser()
    words.add_argument("name")
    words.add_argument("--image", required=True)
    words.add_argument("--weigh", default="sha256")
    for option, value in ("intensity", 1), ("period", 5), ("buffer", 64):
        words.add_argument("--" + option, type=int, default=value)
    given = words.parse_args()
    lock = open(given.image + ".lock", "w")
    try:
        fcntl.flock(lock, fcntl.LOCK_EX | fcntl.LOCK_NB)
    except OSError:
        print("image in use", file=sys.stderr)
        sys.exit(3)
    filter = Filter(given.name, given.image, rules.Setting(given.weigh, given.intensity, given.period, given.buffer))
    filter.say(filter.first)
    for line in sys.stdin:
        if not line.endswith("\n"):
            break
        filter.answer(line[:-1])


if __name__ == "__main__":
    main()
