"""A child as people want it, and what its words may be: the node's rules, told in words before it is asked."""
import dataclasses
import json
import re

import groups

RESTARTS = ("permanent", "transient", "temporary")
SHUTDOWNS = ("brutal_kill", "infinity")
MOST_MILLISECONDS = 4294967295
MOST_OF_A_WORD = 128  # bytes
MOST_OF_AN_ARGUMENT = 1024


@dataclasses.dataclass(frozen=True)
class Child:
    id: str
    kind: str
    arg: str = ""
    restart: str = "permanent"
    shutdown: str = "5000"

    def fields(self):
        """What is said of it beside its id, by the node's words."""
        return {"kind": self.kind, "arg": self.arg, "restart": self.restart, "shutdown": self.shutdown}

    def line(self, verb):
        """The node's line that starts it, or replaces another one by it."""
        return " ".join([verb, self.id, *(f"{key}={value}" for key, value in self.fields().items())])


class Tables:
    """Children by their ids, and of each name the child's id that it stands for."""

    def __init__(self, children=(), names=()):
        self.children, self.names = {child.id: child for child in children}, dict(names)

    def names_of(self, ident):
        return sorted(name for name, of in self.names.items() if of == ident)


class NotShown(Exception):
    """What a node that was to show its tables has answered instead."""


def tables_shown(lines):
    """The tables of what one node, or each of several, answers to `show`. NotShown where one of them shows nothing."""
    firsts = groups.first_lines(lines) or ["no node"]
    if not all(first.startswith("node ") for first in firsts):
        raise NotShown(next(first for first in firsts if not first.startswith("node ")))
    children, names = [], {}
    for line in lines:
        words = line.split(" ")
        if words[0] == "child":
            children.append(Child(words[1], words[3], words[6].partition("=")[2], words[4], words[5]))
        elif words[0] == "name":
            names[words[1]] = words[3]
    return Tables(children, names)


# -- why a word can't be one: None where it can

def fault_of_word(what, text, most=MOST_OF_A_WORD):
    """Of an id, a name or a kind; `what` says which."""
    if not text:
        return f"{what} has at least one character"
    return fault_of_characters(what, text, most)


def fault_of_argument(text):
    if " " in text:
        return f"an argument is one word without spaces, since the node keeps it so, and {quoted(text)} has some: further words belong to its kind"
    return fault_of_characters("an argument", text, MOST_OF_AN_ARGUMENT)


def fault_of_characters(what, text, most):
    if " " in text:
        return f"{what} has no spaces, and {quoted(text)} has some"
    strange = next((one for one in text if not "!" <= one <= "~"), None)
    if strange is not None:
        return f"{what} has visible ASCII alone, from ! to ~, and {quoted(text)} has {quoted(strange)}"
    return f"{what} has at most {most} characters, and this one has {len(text)}" if len(text) > most else None


def fault_of_restart(text):
    return None if text in RESTARTS else f"{quoted(text)} is none of {', '.join(RESTARTS)}"


def fault_of_shutdown(text):
    is_number = re.fullmatch("0|[1-9][0-9]{0,9}", text) and int(text) <= MOST_MILLISECONDS
    return None if is_number or text in SHUTDOWNS else f"{quoted(text)} is no number of milliseconds up to {MOST_MILLISECONDS}, nor {' or '.join(SHUTDOWNS)}"


def quoted(text):
    """A text between double quotes, with what nobody could see written out: in TOML and JSON it is the same for visible ASCII."""
    return json.dumps(text)
