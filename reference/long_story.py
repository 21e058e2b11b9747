#!/usr/bin/env python3
"""A long script for `supctl simulate`; what it has to print of it tells `rules.py`. Want of memory that is told on one rare path would pass
every contract, so each path has to be walked once with room for all. Usage: long_story.py > SCRIPT"""
from collections import Counter

NODES = ["a", "b", "c", "empty", "fifty", "full", *(f"n{i}" for i in range(10))]
LINES = 16_386


class Story:
    """The lines of a script, and how many messages each node has sent by them."""

    def __init__(self):
        self.lines, self.sent = ["nodes " + " ".join(NODES)], Counter()

    def say(self, *lines):
        self.lines += lines

    def send(self, verb, sender, to):
        self.sent[sender] += 1
        self.say(f"{verb} {sender} {to}", f"deliver {sender} {self.sent[sender]}")

    def ship(self, sender, to):
        """A ship, its delivery, and the delivery of the acknowledgement."""
        self.send("ship", sender, to)
        self.sent[to] += 1
        self.say(f"deliver {to} {self.sent[to]}")

    def one_child_thrice(self):
        for node in "abc":
            self.say(f"start {node} db kind={node}", f"register {node} main db")
        for sender, to in ("b", "a"), ("c", "a"), ("a", "b"), ("a", "c"):
            self.ship(sender, to)
        self.say("show a", "show b", "show c", "where a main", "join b")
        self.send("push", "b", "a")
        self.say("where a main", "replace a db kind=new restart=transient shutdown=brutal_kill", "show a", "delete a db", "show a")
        self.ship("a", "b")
        self.say("show b", "where b main")

    def from_an_empty_node(self):
        self.say("show empty", "start empty x", "delete empty x")
        self.send("push", "empty", "a")
        self.ship("empty", "a")
        self.say("show empty")

    def ten_into_fifty(self):
        self.say(*(f"start fifty f{i:02}" for i in range(50)), *(f"start n0 t{i}" for i in range(10)))
        self.ship("n0", "fifty")
        self.say("show fifty", *(f"delete n0 t{i}" for i in range(10)))
        self.ship("n0", "fifty")
        self.say("show fifty")

    def greatest_lengths(self):
        child, name, text = "i" * 128, "~" * 128, "!" * 1024
        self.say(f"join c label={text}", f"start c {child} kind={'k' * 128} arg={text} restart=permanent shutdown=infinity")
        self.say(f"register c {name} {child}", f"exit c {child} 1.1 shutdown:{'s' * 128} @9007199254740991", "show c", f"where c {name}")
        self.say(f"replace c {child} arg={text}", f"unregister c {name}", "drain c c !fail", "drain c c", "drain c c", "show c")
        self.say(f"delete c {child}", "leave c c", "drain c c", "show c")

    def many_rows(self):
        """Ten nodes of a thousand rows each, and one that takes them all in, with a member."""
        for i in range(10):
            self.say(*(f"start n{i} {i}-{j}" for j in range(1000)))
            self.ship(f"n{i}", "full")
        self.say("join empty")
        self.send("push", "empty", "full")
        self.say("start full one-more", "join full", "register full name 0-0", "replace full 0-0 kind=other", "drain full empty")
        self.say("drain full empty", "delete full 0-1", "delete full 0-2", "start full one-more", "stop full", "drain full empty")
        self.say("restart full", "restart full", "register full name 0-0", "where full name")

    def many_ships(self):
        self.say("start a again", *["ship a c"] * 1001)
        self.sent["a"] += 1001
        self.say(f"deliver a {self.sent['a']}", "show c")

    def repeats(self, count):
        """One child that is started again and again, and one message that comes again and again; then all nodes settle."""
        self.say("start b worker")
        self.send("push", "b", "a")
        self.say(*(f"exit b worker 1.{k} crash @{10 * k}" for k in range(1, count // 2)))
        self.say(*[f"deliver b {self.sent['b']}"] * (count - count // 2 - 6))
        self.say("show b", "settle", "where c name", "show c")


def main():
    story = Story()
    for part in story.one_child_thrice, story.from_an_empty_node, story.ten_into_fifty, story.greatest_lengths, story.many_rows, story.many_ships:
        part()
    story.repeats(LINES - len(story.lines))
    print(*story.lines, sep="\n")


if __name__ == "__main__":
    main()
