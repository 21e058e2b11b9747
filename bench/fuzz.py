#!/usr/bin/env python3
"""Hands real `supd` processes bytes that are nearly messages and images: of real ones, which random scripts send and keep, bits are flipped,
pieces cut, left out, doubled and spliced, and numbers changed. What comes of each has to be what the rules of reference/forms.py say of its text:

- delivered, a text that is no message is refused 17, a message to another node 18, and any other is known, absorbed or acknowledged (an
  acknowledgement of too much is refused 17); a line that isn't plain is a bad line;
- a message that a new node takes in is read as the text's value: the node's image then has its context and its rows;
- of an image the fault is told and the file stays, or the node begins its next boot, and the file has the text's value in that boot.

usage: fuzz.py [SUPD] [--messages N] [--images N] [--seed N]; SUPD by default crates/supd/out/supd. The text of which something else comes is
left in the file fuzzed.text, and the status is 1."""
import argparse
import pathlib
import random
import re
import signal
import sys
import tempfile

top = pathlib.Path(__file__).resolve().parent.parent
sys.path.insert(0, str(top / "reference"))
import forms
import random_scripts
from supd import Node, Wrong, demand

NUMBERS = [b"0", b"-0", b"1", b"2", b"1.0", b"1e0", b"-1", b"5000", b"4294967295", b"4294967296", b"9007199254740990", b"9007199254740991",
           b"9007199254740992", b"18446744073709551615", b"18446744073709551616", b"1e400", b"01"]
SIGNS = b'{}[]",:\\-0123456789abv '


# -- real texts

def as_version_1(text):
    return text.replace(b',"status":"open"', b"").replace(b'"v":2', b'"v":1')


def texts_of(number):
    """The messages and the images of a random script's nodes, and those that version 1 could say as well."""
    script = random_scripts.Script(number)
    for _ in range(script.chance.randint(10, 80)):
        script.grow()
    world = script.world
    messages = [forms.message(sender, letter).encode() for sender, letters in world.sent.items() for letter in letters]
    images = [forms.image(node).encode() for node in world.nodes.values()]
    return [texts + [as_version_1(it) for it in texts if b"draining" not in it] for texts in (messages, images)]


def material(seed, least):
    messages, images = [], []
    while len(messages) < least:
        more = texts_of(seed)
        messages += more[0]
        images += more[1]
        seed += 1
    return messages, images


# -- damage

class Damage:
    def __init__(self, chance, texts):
        self.chance, self.texts = chance, texts
        self.kinds = [self.flipped, self.signed, self.cut, self.beheaded, self.holed, self.doubled, self.spliced, self.grafted, self.numbered]

    def text(self):
        text = self.chance.choice(self.texts)
        for _ in range(self.chance.choice([0, 1, 1, 1, 1, 2, 3])):
            text = self.chance.choice(self.kinds)(text)
        return text

    def place(self, text):
        return self.chance.randrange(len(text) + 1)

    def piece(self, text):
        begin = self.place(text)
        return begin, min(len(text), begin + self.chance.choice([1, 1, 2, 8, 40, 200]))

    def with_byte(self, text, change):
        if not text:
            return text
        place = self.chance.randrange(len(text))
        return text[:place] + bytes([change(text[place])]) + text[place + 1:]

    def flipped(self, text):
        return self.with_byte(text, lambda byte: byte ^ (1 << self.chance.randrange(8)))

    def signed(self, text):
        return self.with_byte(text, lambda byte: self.chance.choice(SIGNS))

    def cut(self, text):
        return text[:self.place(text)]

    def beheaded(self, text):
        return text[self.place(text):]

    def holed(self, text):
        begin, end = self.piece(text)
        return text[:begin] + text[end:]

    def doubled(self, text):
        begin, end = self.piece(text)
        return text[:end] + text[begin:]

    def spliced(self, text):
        other = self.chance.choice(self.texts)
        return text[:self.place(text)] + other[self.place(other):]

    def grafted(self, text):
        other = self.chance.choice(self.texts)
        begin, end = self.piece(text)
        there, so_far = self.piece(other)
        return text[:begin] + other[there:so_far] + text[end:]

    def numbered(self, text):
        numbers = list(re.finditer(rb"\d+", text))
        if not numbers:
            return text
        found = self.chance.choice(numbers)
        return text[:found.start()] + self.chance.choice(NUMBERS) + text[found.end():]


# -- what the rules say

def value_of(text, kinds):
    """The text's value, or the name of its fault."""
    try:
        return forms.read(text.decode("utf-8"), kinds)
    except UnicodeDecodeError:
        return "NotJson"
    except forms.Fault as fault:
        return str(fault)


def in_version_2(rows):
    return [[*row[:3], {"status": "open", **row[3]}] if row[0] == "member" else row for row in rows]


def image_with(value, node, boot, count):
    return {"boot": boot, "count": count, "ctx": value["ctx"], "kind": "image", "node": node, "rows": in_version_2(value["rows"]), "v": 2}


def expected(text, node):
    """The answers that a delivery may have."""
    if not re.fullmatch(rb"[ -~]*", text):
        return ("bad line",)
    value = value_of(text, forms.MESSAGES)
    if isinstance(value, str):
        return ("refused 17 BadMessage",)
    if value["to"] != node:
        return ("refused 18 WrongReceiver",)
    if value["kind"] == "ack":
        return ("ok acked", "refused 17 BadMessage")
    return ("ok known", "ok absorbed", "refused 21 CountSpent")


class Fuzz:
    def __init__(self, asked, folder):
        self.asked, self.folder, self.chance = asked, folder, random.Random(asked.seed)
        self.number, self.seen = 0, {}

    def image(self):
        self.number += 1
        return self.folder / f"{self.number}.image"

    def note(self, what):
        self.seen[what] = self.seen.get(what, 0) + 1

    def wrong_of(self, text, *what):
        pathlib.Path("fuzzed.text").write_bytes(text)
        raise Wrong(" ".join(str(it) for it in what) + f", of the text in fuzzed.text: {text!r}")

    # -- messages

    def messages(self, seed, count):
        """Some texts, to one node of a script."""
        texts, _ = material(seed, 40)
        damage, name = Damage(self.chance, texts), forms.read(self.chance.choice(texts), forms.MESSAGES)["to"]
        node = Node(self.asked.program, name, self.image())
        for _ in range(count):
            text = damage.text().replace(b"\n", b"\r")
            node.send(b"deliver " + text + b"\n")
            self.judge(node, name, text)
        demand(node.end() == (0, ""), "a node's end")

    def judge(self, node, name, text):
        answer = node.answer()
        first = answer[0] if answer else "no answer"
        may = expected(text, name)
        if first not in may:
            self.wrong_of(text, "a node", name, "answered", first, "and by the rules", may)
        self.note(first)
        if first in ("ok known", "ok absorbed"):
            self.read_back(name, text)

    def read_back(self, name, text):
        """What a new node takes in of the message."""
        value, path = value_of(text, forms.MESSAGES), self.image()
        node = Node(self.asked.program, name, path)
        node.send(b"deliver " + text + b"\n")
        first = node.answer()[0]
        image = forms.read(path.read_text(), forms.IMAGES)
        is_empty = not value["ctx"]["vector"] and not value["ctx"]["cloud"]
        wanted = image_with(value, name, 1, 0 if is_empty else 1)
        if first != ("ok known" if is_empty else "ok absorbed") or image != wanted:
            self.wrong_of(text, "a new node", name, "answered", first, "and keeps", image)
        demand(node.end() == (0, ""), "a new node's end")
        for it in self.folder.glob(path.name + "*"):
            it.unlink()
        self.note("read back")

    # -- images

    def images(self, seed, count):
        _, texts = material(seed, 40)
        damage, path = Damage(self.chance, texts), self.image()
        for _ in range(count):
            text = damage.text()
            path.write_bytes(text)
            self.begin(path, text)

    def begin(self, path, text):
        value = value_of(text, forms.IMAGES)
        name = value["node"] if isinstance(value, dict) and self.chance.random() < 0.9 else self.chance.choice(random_scripts.NODES)
        node = Node(self.asked.program, name, path)
        if isinstance(value, str):
            told = value
        elif value["node"] != name:
            told = "OtherNode"
        elif value["boot"] == forms.MAX:
            told = "CountSpent"
        else:
            return self.begun(node, path, text, value)
        ended = node.end()
        if node.first is not None or ended != (1, f"bad image {told}\n") or path.read_bytes() != text:
            self.wrong_of(text, "of an image came", node.first, ended, "and by the rules", told)
        self.note(f"bad image {told}")

    def begun(self, node, path, text, value):
        boot = value["boot"] + 1
        image = image_with(value, value["node"], boot, value["count"])
        ended = node.end()
        if not node.first or node.first[0] != f"ok boot {boot}" or ended != (0, "") or forms.read(path.read_text(), forms.IMAGES) != image:
            self.wrong_of(text, "of an image came", node.first, ended, path.read_bytes())
        self.note("ok boot")


def main():
    words = argparse.ArgumentParser()
    words.add_argument("program", type=pathlib.Path, nargs="?", default=top / "crates/supd/out/supd")
    for name, count in ("messages", 95_000), ("images", 5_000), ("seed", 1):
        words.add_argument(f"--{name}", type=int, default=count)
    asked = words.parse_args()
    signal.signal(signal.SIGTERM, lambda number, _: sys.exit(128 + number))
    with tempfile.TemporaryDirectory() as folder:
        fuzz = Fuzz(asked, pathlib.Path(folder))
        try:
            for begun in range(0, asked.messages, 1000):
                fuzz.messages(asked.seed + begun, min(1000, asked.messages - begun))
            for begun in range(0, asked.images, 1000):
                fuzz.images(asked.seed + begun, min(1000, asked.images - begun))
        except Wrong as wrong:
            print(wrong)
            sys.exit(1)
        finally:
            for node in list(Node.begun):
                node.kill()
    print(", ".join(f"{count} {what}" for what, count in sorted(fuzz.seen.items())))


if __name__ == "__main__":
    main()
