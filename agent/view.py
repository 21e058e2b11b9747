"""What people are told of the cluster, as one agent sees it.

It is made once for all who ask within a second, and in small pieces between the turns of the loop: with many children it takes longer than an agent
may be silent. What hasn't changed since it was made last isn't asked for or made again.
"""
import collections
import json

from clock import seconds
from core import word

GOOD_FOR = 1   # seconds for which what was made is told again
OLD_FROM = 3   # seconds from which on it isn't told while it is made anew
PIECE = 0.005  # seconds of a turn that are spent on it


class View:
    """Answers who asks for the status. What is told of the tables is never older than the question."""

    def __init__(self, agent):
        self.agent, self.shown, self.shown_at, self.pieces, self.is_making, self.texts = agent, {}, None, None, False, Texts()
        self.waiting, self.late = [], []  # who waits for what is being made, and for what is made next
        self.made, self.made_at, self.state = None, float("-inf"), None  # the last one; and of which state of the tables that is which is made
        # of the last one: commands that lost against another one; how many children there are of each state; machines
        self.losers, self.counts, self.machines = [], collections.Counter(), []

    def ask(self, answer):
        """`answer` takes the line that tells the status."""
        state = self.now()
        is_known, age = state == self.state, seconds() - self.made_at
        if self.made is not None and is_known and age < OLD_FROM:
            answer([self.made])
        else:
            (self.waiting if is_known or not self.is_making else self.late).append(answer)
        if not self.is_making and not (is_known and age < GOOD_FOR):
            self.state, self.is_making = state, True
            self.made = self.made if is_known else None
            self.look()

    def now(self):
        return [(group.core.letters.changes, group.core.node.boot, group.core.node.is_there) for group in self.agent.groups]

    def is_old(self):
        """Whether the tables may have changed since the last one."""
        return self.now() != self.state

    def look(self):
        """Has each node show its tables, where they may have changed. One that is away, or ends at this, shows none."""
        if self.shown_at != self.state:
            self.shown_at, self.shown = self.state, {group.number: [] for group in self.agent.groups if not group.shows(self.take)}
        self.begin()

    def take(self, group, lines):
        self.shown[group.number] = lines
        self.begin()

    def begin(self):
        if len(self.shown) == len(self.agent.groups) and self.pieces is None:
            self.pieces = self.make([(group, group.people(seconds()), self.shown[group.number]) for group in self.agent.groups])

    def work(self):
        """Makes some of it, where it is being made. Whether there is more to do at once."""
        until = seconds() + PIECE
        while (pieces := self.pieces) is not None and seconds() < until:
            if next(pieces, self) is self and self.pieces is pieces:
                self.pieces = None
        return self.pieces is not None

    def make(self, shown):
        """Makes it in pieces, and tells it at last."""
        children, names, losers, ending, counts = [], [], [], [], collections.Counter()
        history = self.agent.watch.history
        self.texts.begin()
        for group, people, lines in shown:
            heard, known = tuple(people.told), {line.split(" ", 2)[1] for line in lines if line.startswith("child ")}
            if lines:
                ending += [[ident, name] for name, told in people.told.items() for ident in told.keys() - known if told[ident].state != word.WAITS]
            for line in lines:
                verb, ident, _ = line.split(" ", 2)
                if verb == "child":
                    state, text = self.texts.of(group.number, ident, line, heard, people, history.of(ident))
                    children.append((ident, text))
                    counts[state] += 1
                    yield
                elif verb in ("name", "loser"):
                    (names if verb == "name" else losers).append(line.partition(" ")[2])
        yield
        children.sort()
        yield
        self.counts, self.losers = counts, [loser_of(line, self.agent.watch.events) for line in sorted(losers)]
        head = json.dumps({**self.head(shown), "counts": counts, "names": sorted(names), "losers": self.losers, "ending": sorted(ending)}, separators=(",", ":"))
        self.tell(head[:-1] + ',"children":[' + ",".join(text for _, text in children) + "]}")

    def head(self, shown):
        agent, nodes = self.agent, [group.core.node for group in self.agent.groups]
        self.machines = machines(agent.name, [(people, dict(member_of(line) for line in lines if line.startswith("member "))) for _, people, lines in shown],
                                 agent.watch.events)
        return {"name": agent.name, "groups": len(agent.groups), "boot": told_once(str(node.boot or "") for node in nodes),
                "node": told_once("runs" if node.is_there and lines else "gone" if node.boot else "begins" for node, (_, _, lines) in zip(nodes, shown)), "refused": dict(agent.refused), "logs": agent.logs.state(), "kinds": agent.kinds.state(),
                "machines": self.machines}

    def tell(self, made):
        self.made, self.made_at, self.is_making, self.pieces = made, seconds(), False, None
        waiting, self.waiting, late, self.late = self.waiting, [], self.late, []
        for answer in waiting:
            answer([made])
        for answer in late:
            self.ask(answer)


def told_once(values):
    """What all groups say, or what each says, with how many do."""
    counts = collections.Counter(values)
    return next(iter(counts)) if len(counts) == 1 else ", ".join(f"{value} in {count}" for value, count in sorted(counts.items()))


def machines(own, groups, events):
    """Each machine, where these are what people are told of each group, and its members."""
    told = [(people.machines(), members) for people, members in groups]
    names = {name for touch, members in told for name in [*touch, *members]}
    shown, out = [], ("out", "")
    for name in sorted(names):
        heard = [moment for people, _ in groups if (moment := people.contact(name)) is not None]
        one = {"name": name, "member": told_once(members.get(name, out)[0] for _, members in told), "label": max(members.get(name, out)[1] for _, members in told),
               **{word: told_once(touch.get(name, ("not heard yet", ""))[place] for touch, _ in told) for place, word in enumerate(("how", "hinders"))},
               "heard": 0 if name == own else round(max(0, min(heard)), 1) if heard else None}
        shown.append({**one, "reasons": reasons(one, events)})
    return shown


def reasons(machine, events):
    """Why a machine isn't as it should be, in words; none where it is."""
    told = [machine["hinders"]] if machine["hinders"] else []
    told += [machine["how"]] if machine["how"] not in ("here", "in touch") else []
    if machine["member"] != "open":
        told.append(events.why_of_member(machine["name"], machine["member"]))
    return told


def loser_of(line, events):
    """An entry that another one of its key has the better of, and the command that has added it, where that is known."""
    table, key, dot = line.split(" ")
    command = events.of_dot(table, dot) or {}
    return {"table": table, "key": key, "dot": dot, "at": dot[1:].split(",")[0], **{field: command.get(field, "") for field in ("line", "by", "whence")}, "when": command.get("at")}


def member_of(line):
    words = line.split(" ")
    return words[1], ("draining" if words[3] == "draining" else "open", words[-1].removeprefix("label="))


class Texts:
    """What is told of each child, as text. Of a child that runs at its place it is the same until its line or what machines say of it changes."""

    def __init__(self):
        self.texts, self.before = {}, {}  # of each id: what the text was made of, and the text

    def begin(self):
        """Forgets what wasn't asked for since the last begin."""
        self.texts, self.before = {}, self.texts

    def of(self, group, ident, line, heard, people, runs):
        """The state of a child, and the text. `runs` are its last ones."""
        made_of = line, heard, [told.get(ident) for told in people.told.values()], runs
        known = self.before.get(ident)
        if known is not None and known[0] == made_of:
            self.texts[ident] = known
            return word.RUNNING, known[1]
        child = child_of(group, line.split(" "), people, runs)
        text = json.dumps(child, separators=(",", ":"))
        if child["state"] == word.RUNNING:
            self.texts[ident] = made_of, text
        return child["state"], text


def child_of(group, words, people, last_runs):
    """A child, from its line of the node's tables and from what each machine says of it."""
    _, ident, _, kind, restart, shutdown, arg, *at = words
    place = at[1] if at[0] == "on" else None
    seen = people.child(ident, place)
    runs = [[name, *one[1:5]] for name, told in sorted(people.told.items()) if (one := told.get(ident)) is not None and one.state != word.WAITS]
    return {"id": ident, "group": group, "kind": kind, "restart": restart, "shutdown": shutdown, "arg": arg.removeprefix("arg="), "place": place,
            "runs": runs, **seen._asdict(), "history": [run.told() for run in last_runs]}
