#!/usr/bin/env python3
"""The picture that `supdraw` has to make of a good script, out of the script and of what `supctl simulate` printed of it: a second opinion,
which knows only the printed lines, so that it gives up at a message that left while the nodes settled. Usage: picture.py SCRIPT PRINTED, files
both; the picture goes to standard output."""
import re
import sys

LOOKS = ("show", "inspect", "image", "where", "message")
SHOWN = ("member", "child", "loser", "name", "kept", "count", "buffer", "vector", "cloud", "acked")


def style():
    """The part of the picture that is the same in all, from the program's own constant."""
    import os
    path = os.path.join(os.path.dirname(os.path.abspath(__file__)), "../crates/sup_svg/src/style.rt")
    with open(path) as file:
        text = file.read()
    return text[text.index('"') + 1:text.rindex('"')]


def escaped(text):
    for plain, named in (("&", "&amp;"), ("<", "&lt;"), (">", "&gt;"), ("'", "&apos;"), ('"', "&quot;")):
        text = text.replace(plain, named)
    return "".join(c if c == "\n" or " " <= c <= "~" else "?" for c in text)


def answers(lines, printed):
    """What each line printed, where it made a step or settled. To look prints one line, and of a node's tables those that are shown behind it."""
    printed, at = printed.split("\n")[:-1], 0
    for line in lines:
        words = line.split(" ")
        start = at
        if words[0] not in LOOKS:
            at += 1
            while at < len(printed) and printed[at].startswith("  "):
                at += 1
            yield "\n".join(printed[start:at]) + "\n"
            continue
        at += 1
        while words[0] in ("show", "inspect") and at < len(printed) and printed[at].split(" ")[0] in SHOWN:
            at += 1
        yield None


class Picture:
    def __init__(self, nodes):
        self.nodes, self.marks, self.arrows, self.turns, self.left, self.came = nodes, [], [], [], {}, []

    def note(self, row, line, said):
        words = line.split(" ")
        if said is None:
            self.marks.append((row, line, "", None, None))
        elif words[0] == "settle":
            self.marks.append((row, line, said, "*", None))
        elif said.startswith("refused "):
            self.refuse(row, line, words, said)
        else:
            self.answer(row, line, words, said)
        if said is not None:
            self.effects(row, said)

    def options(self, words):
        at, drop, rest = None, 0, words[3:]
        if rest[:1] == ["at"]:
            at, rest = rest[1], rest[2:]
        if rest[:1] == ["drop"]:
            drop = int(rest[1])
        return at, drop

    def answer(self, row, line, words, said):
        node = words[1]
        if words[0] == "deliver":
            key = (words[1], int(words[2]))
            at, drop = self.options(words)
            if not at and key not in self.left:
                sys.exit(f"{line}: the message left while the nodes settled, and what is printed doesn't say for whom")
            node = at or self.left[key][0]
            reply = said.split("\n")[0]
            way = "cut" if drop else {"ok known": "known", "ok acked": "acked"}.get(reply, "learned")
            self.came.append((row, key, node, way))
        self.marks.append((row, line, said, node, "done"))
        for sent in re.finditer(r"^  sent (\S+) (\d+) to (\S+) ", said, re.M):
            self.left[(sent[1], int(sent[2]))] = (sent[3], row)
        if words[0] == "exit":
            self.turns.append((row, node, "ended", (words[2], words[3])))
        if words[0] == "stop":
            self.turns.append((row, node, "down", None))
        if words[0] == "restart":
            self.turns.append((row, node, "up", None))

    def refuse(self, row, line, words, said):
        node = words[1]
        if words[0] == "deliver":
            key = (words[1], int(words[2]))
            at, drop = self.options(words)
            at = at or self.left.get(key, (None,))[0]
            node = at or node
            name = said.split()[2]
            if at and name not in ("NoSuchMessage", "UnknownNode"):
                way = "misdirected" if name == "WrongReceiver" else "cut" if drop else "came-refused"
                self.came.append((row, key, at, way))
        self.marks.append((row, line, said, node, "refused"))

    def effects(self, row, said):
        for node, verb, child, run in re.findall(r"^  (\S+) (start|stop) (\S+) (\d+\.\d+)$", said, re.M):
            self.turns.append((row, node, "began" if verb == "start" else "ended", (child, run)))

    def bars(self):
        for i, (row, node, turn, run) in enumerate(self.turns):
            if turn == "began":
                ends = (r for r, n, t, u in self.turns[i + 1:] if n == node and (t == "down" or t == "ended" and u == run))
                yield node, run, row, next(ends, len(self.marks))

    def gaps(self):
        for i, (row, node, turn, _) in enumerate(self.turns):
            if turn == "down":
                yield node, row, next((r for r, n, t, _ in self.turns[i + 1:] if n == node and t == "up"), len(self.marks))

    def text(self):
        bars, rows, out = list(self.bars()), len(self.marks), []
        children = list(dict.fromkeys(run[0] for _, run, _, _ in bars))
        room = 14 * min(len(children), 8)
        wide = room + 190 + 7 * max(map(len, self.nodes))
        x = lambda node: 350 + room + wide * (self.nodes.index(node) if node in self.nodes else len(self.nodes))
        y = lambda row: 70 + 26 * row
        width, height = 500 + wide * len(self.nodes), y(rows) + 20
        put = lambda text: out.append(text + "\n")
        put(f"<svg xmlns='http://www.w3.org/2000/svg' viewBox='0 0 {width} {height}' width='{width}' height='{height}'>")
        out.append(style())
        put(f"<path class='back' d='M0 0H{width}V{height}H0z'/>")
        for node in self.nodes:
            put(f"<path class='lane' d='M{x(node)} 48V{y(rows)}'/>")
            put(f"<text class='name' x='{x(node)}' y='38'>{node}</text>")
        for node, down, up in self.gaps():
            for kind in ("gap", "down"):
                put(f"<path class='{kind}' d='M{x(node)} {y(down)}V{y(up)}'/>")
        for node, (child, run), began, ended in bars:
            slot, tall = children.index(child) % 8, y(ended) - y(began)
            put(f"<svg x='{x(node) - 20 - 14 * slot}' y='{y(began)}' width='12' height='{tall}'><path class='bar c{slot}' d='M0 0H12V{tall}H0z'/>"
                f"<text class='child' x='3' y='-3' transform='rotate(90)'>{escaped(child)} {run}</text></svg>")
        for row, kind, key, end in self.ends():
            frm, title = x(key[0]), f"<title>{key[0]} {key[1]}</title></path>"
            if kind == "lost":
                put(f"<path class='lost' d='M{frm} {y(row)}L{frm + 90 if frm < x(end) else frm - 90} {y(row) + 20}'>{title}")
            else:
                top = y(self.left[key][1]) if key in self.left else y(row) - 13
                put(f"<path class='{kind}' d='M{frm} {top}L{x(end)} {y(row)}'>{title}")
        for row, line, said, node, kind in self.marks:
            first = escaped(said.split("\n")[0])
            put(f"<path class='rule' d='M340 {y(row)}H99999'/>")
            put(f"<text class='line' x='8' y='{y(row) + 4}'>{escaped(line)}</text>")
            if node == "*":
                put(f"<path class='all' d='M340 {y(row) - 8}H{width}v16H340z'><title>{escaped(said)}</title></path>")
                put(f"<text x='{360 + room}' y='{y(row) + 4}'>{first}</text>")
            elif node is not None:
                answer = "yes" if kind == "done" else "no"
                put(f"<circle class='{kind}' cx='{x(node)}' cy='{y(row)}' r='5'><title>{escaped(said)}</title></circle>")
                put(f"<text class='{answer}' x='{x(node) + 10}' y='{y(row) - 5}'>{first}</text>")
        put("</svg>")
        return "".join(out)

    def ends(self):
        """The ends of messages in the order of rows; in a row a message that came stands before the one that left."""
        whole = {(key, at) for _, key, at, way in self.came if way not in ("cut", "misdirected")}
        lost = [(row, 1, "lost", key, to) for key, (to, row) in self.left.items() if (key, to) not in whole]
        came = [(row, 0, way, key, at) for row, key, at, way in self.came]
        for row, _, kind, key, end in sorted(lost + came, key=lambda e: e[:2]):
            yield row, kind, key, end


def main():
    with open(sys.argv[1]) as script, open(sys.argv[2]) as printed:
        lines = [line for line in script.read().split("\n") if line and not line.startswith("#")]
        said = printed.read()
    picture = Picture(lines[0].split(" ")[1:])
    for row, (line, answer) in enumerate(zip(lines[1:], answers(lines[1:], said))):
        picture.note(row, line, answer)
    sys.stdout.write(picture.text())


if __name__ == "__main__":
    main()
