"""What has happened, of which a number is kept: who commanded what from where, runs that begin, end and move, machines that come and go.

Commands are told to the other machines, each to all, and those that a machine has missed once there are lines to it again. All else each machine
sees by itself.
"""
import collections
import json
import re
import time

MOST_COMMANDS, MOST = 500, 2000  # that are kept: commands, and all else
LONGEST = 300                    # characters of a line, or of a word, that are kept
FIELDS = ("line", "answer", "by", "whence")
NUMBER = re.compile("[0-9]{1,18}")


class Events:
    def __init__(self, name, mark, log):
        self.name, self.mark, self.log, self.n, self.count = name, mark, log, 0, 0
        self.commands, self.others = collections.OrderedDict(), collections.deque(maxlen=MOST)  # of each the number under which it is known here, and what it was
        self.gone = {}                    # of each process the greatest count of a command of it that was kept here, and is no more
        self.unsaid, self.up = [], set()  # commands that the others aren't told yet; machines to which there are lines
        self.made = None, ""              # what was asked last, and when, and what was answered

    def note(self, what, machine, **more):
        self.n += 1
        self.others.append((self.n, {"at": time.time(), "what": what, "machine": machine, **more}))

    def note_and_log(self, what, machine, **more):
        self.note(what, machine, **more)
        self.log(text_of(self.others[-1][1]))

    # -- commands

    def command(self, line, answer, by, whence):
        """Somebody has said a line here."""
        self.count += 1
        event = {"at": time.time(), "what": "command", "machine": self.name, **dict(zip(FIELDS, (text[:LONGEST] for text in (line, answer, by, whence))))}
        self.keep((self.mark, self.count), event)
        self.log(text_of(event))

    def keep(self, key, event):
        """Keeps a command that isn't known, and wasn't, and has all others told of it. One that was pushed out and came back would push out the next one."""
        mark, count = key
        if key not in self.commands and count > self.gone.get(mark, 0):
            self.n += 1
            self.commands[key] = self.n, event
            self.unsaid.append((key, event))
            if len(self.commands) > MOST_COMMANDS:
                (mark, count), _ = self.commands.popitem(last=False)
                self.gone[mark] = max(count, self.gone.get(mark, 0))

    def link(self, name, is_up):
        """There are lines to a machine, which may have missed some commands, or there are none any more. What it is to be told."""
        (self.up.add if is_up else self.up.discard)(name)
        return self.line([(key, event) for key, (_, event) in self.commands.items()]) if is_up and self.commands else None

    def take_unsaid(self):
        """What all others are to be told, None where there is nothing."""
        unsaid, self.unsaid = self.unsaid[-MOST_COMMANDS:], []
        return self.line(unsaid) if unsaid and self.up else None

    def line(self, commands):
        return "events " + json.dumps([[*key, event["at"], event["machine"], *(event[field] for field in FIELDS)] for key, event in commands], separators=(",", ":"))

    def hear(self, text):
        """Takes commands that another machine tells of. ValueError where they are none."""
        try:
            for mark, count, at, machine, *words in json.loads(text)[:MOST_COMMANDS]:
                if not (type(count) is int and type(at) in (int, float) and abs(at) < 1e12 and len(words) == len(FIELDS)):
                    raise ValueError
                if not all(type(one) is str and len(one) <= LONGEST and one.isascii() and one.isprintable() for one in (mark, machine, *words)):
                    raise ValueError
                self.keep((mark, count), {"at": at, "what": "command", "machine": machine, **dict(zip(FIELDS, words))})
        except (TypeError, KeyError, RecursionError):  # of an object Python 3.12 and later take a slice for a key
            raise ValueError from None

    def of_dot(self, table, dot):
        """The command that has added an entry, None where it isn't known."""
        verbs = {"child": ("start", "replace"), "name": ("register",), "member": ("join", "drain")}[table]
        return next((event for _, event in reversed(self.commands.values()) if event["answer"].startswith(f"ok {dot}") and event["line"].startswith(verbs)), None)

    def why_of_member(self, name, member):
        """Since when a machine is out, or by whose command it drains, where that is known."""
        if member == "out":
            out = next((event for _, event in reversed(self.others) if event["what"] in ("in", "out") and event["machine"] == name), None)
            return f"no member since {moment(out['at'])}" if out and out["what"] == "out" else "no member"
        drain = next((event for _, event in reversed(self.commands.values()) if event["line"] == f"drain {name}" and event["answer"].startswith("ok")), None)
        return f"{member}, by {drain['by'] or 'somebody'} at {moment(drain['at'])}" if drain else member

    # -- what people are told

    def told(self, line):
        """The line that answers `events`, or `events MARK N`: those behind the event N of this process."""
        if self.made[0] == (line, self.n):
            return self.made[1]
        words = line.split(" ")
        base = int(words[2]) if len(words) == 3 and words[1] == self.mark and NUMBER.fullmatch(words[2]) else 0
        new = sorted((one for known in (self.others, self.commands.values()) for one in known if one[0] > base), key=lambda one: (one[1]["at"], one[0]))
        self.made = (line, self.n), json.dumps({"mark": self.mark, "last": self.n, "events": [event for _, event in new]}, separators=(",", ":"))
        return self.made[1]


def moment(at):
    """In the time of who reads it."""
    return "?" if at is None else time.strftime("%Y-%m-%d %H:%M:%S", time.localtime(at))


def span(began, ended):
    """From one moment to another; the day is said once."""
    first, last = moment(began), moment(ended)
    return f"{first} to {last[11:] if first[:11] == last[:11] and len(last) > 11 else last}"


def text_of(event):
    """An event in words."""
    what, machine = event["what"], event["machine"]
    run = f"run {event.get('run') or '?'}"
    if what == "command":
        return f"{event['by'] or 'somebody'} from {event['whence']} to {machine}: {event['line']} -> {event['answer']}"
    if what in ("begin", "move"):
        came = f", where it came from {event['before']}" if what == "move" else ""
        return f"{event['id']} began on {machine}{came}: {run}, process {event['process']}"
    if what == "end":
        return f"{event['id']} ended on {machine}: {run}, {event['how']}"
    if what == "lost":
        return f"of two commands for {event['id']} that of {machine} has lost: {event['dot']}{', ' + event['line'] if event['line'] else ''}"
    return {"in": f"{machine} is a member", "out": f"{machine} is no member any more"}.get(what) or f"{machine}: {event['how']}"
