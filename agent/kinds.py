"""The programs of kinds, from a file of JSON: `{"KIND": ["program", "word", ..]}`, or `{"KIND": {"command": ["program", ..], ..}}` with further keys.

In texts `{id}` and `{arg}` stand for the child's; where the kind splits the argument `{1}`, `{2}` .. stand for its parts, and a word that is
`{args}` for all of them. A kind with no words at all has no processes: its children are only noted, so that many can be tried.
"""
import dataclasses
import json
import os
import re
from typing import Optional, Union

import json_places
import kind_keys

PLACE = re.compile(r"\{(arg|id|[1-9][0-9]{0,3})\}")
MOST_TOLD = 20  # mistakes
MOST_DIGITS = 100
LOOK_EACH = 2   # seconds between two looks whether the file has changed


@dataclasses.dataclass(frozen=True)
class Kind:
    """A kind as the file has it, or with a child's words in it."""
    command: list
    split: Optional[str] = None
    environment: dict = dataclasses.field(default_factory=dict)
    folder: Optional[str] = None
    user: Optional[str] = None
    group: Optional[str] = None
    stop: Union[str, list] = "SIGTERM"
    limits: dict = dataclasses.field(default_factory=dict)
    max_runtime: Optional[float] = None
    delay: float = 0
    overlap: bool = False
    log: dict = dataclasses.field(default_factory=dict)
    health: Optional[dict] = None
    ready: Optional[dict] = None

    def of_child(self, ident, arg):
        """With a child's words. OSError where its argument has too few parts."""
        parts = arg.split(self.split) if self.split and arg else []
        stands_for = {"arg": arg, "id": ident, **({str(number): part for number, part in enumerate(parts, 1)} if self.split else {})}

        def fill(value):
            if isinstance(value, str):
                return PLACE.sub(word, value)
            if isinstance(value, dict):
                return {key: fill(one) for key, one in value.items()}
            if isinstance(value, list):
                return [filled for one in value for filled in (parts if one == "{args}" and self.split else [fill(one)])]
            return value

        def word(found):
            if found[1] not in stands_for and self.split:
                raise OSError(0, f"its argument has {len(parts)} parts, and its kind wants {found[1]}")
            return stands_for.get(found[1], found[0])
        filled = dataclasses.replace(self, **{field.name: fill(getattr(self, field.name)) for field in dataclasses.fields(self) if field.name != "split"})
        if self.command and not filled.command:
            raise OSError(0, "its argument has no parts, and its kind's command is made of them alone")
        return filled


def whole(digits):
    """A whole number; where it has so many digits that Python takes none such, one that no key takes."""
    return int(digits) if len(digits) <= MOST_DIGITS else float("inf")


def kind_of(value):
    return Kind(value) if isinstance(value, list) else Kind(**{key.replace("-", "_"): one for key, one in value.items()})


class Kinds:
    def __init__(self, path, log):
        """ValueError, with the file's name and the place in it, where it is none."""
        self.path, self.log, self.fault, self.look_at = path, log, "", 0
        self.changed, self.kinds = self.seen(), self.read()

    def seen(self):
        """What is another one once the file has changed; None where it isn't there. Two changes may have one moment, but hardly one size."""
        try:
            seen = os.stat(self.path)
            return seen.st_mtime_ns, seen.st_size, seen.st_ino
        except OSError:
            return None

    def read(self):
        try:
            with open(self.path, encoding="utf-8-sig") as file:
                text = file.read()
            value = json.loads(text, parse_int=whole)
            return {kind: kind_of(one) for kind, one in self.right(value, text).items()}
        except OSError as fault:
            raise ValueError(f"{self.path}: {fault.strerror}") from None
        except UnicodeDecodeError as fault:
            raise ValueError(f"{self.path}: byte {fault.start} is no UTF-8") from None
        except json.JSONDecodeError as fault:
            raise ValueError(f"{self.path}: line {fault.lineno}, column {fault.colno}: {fault.msg}") from None
        except RecursionError:
            raise ValueError(f"{self.path}: too many brackets in one another") from None

    def right(self, value, text):
        """The value itself, where it is of kinds. ValueError, with each mistake and its place."""
        places = json_places.Places(text)
        found = [(places.of(path), path, fault) for path, fault in kind_keys.faults(value)]
        found += [(places.words(at), path, "it is said twice") for path, at in places.twice]
        lines = [f"{place}: {' '.join(['kind', *map(str, path[:1]), *map(str, path[1:])]) + ': ' if path else ''}{fault}" for place, path, fault in found]
        if lines:
            more = [f"and {len(lines) - MOST_TOLD} more"] * (len(lines) > MOST_TOLD)
            raise ValueError(f"{self.path}: " + "; ".join(lines[:MOST_TOLD] + more))
        return value

    def tick(self, now):
        if now >= self.look_at:
            self.look_at = now + LOOK_EACH
            self.look_again()

    def look_again(self):
        """Reads the file where it has changed. While it is broken, which is told once, what it said before counts."""
        changed = self.seen()
        if changed == self.changed:
            return
        self.changed, self.fault = changed, ""
        try:
            self.kinds = self.read()
            self.log("kinds:", self.path, "is read again")
        except ValueError as fault:
            self.fault = str(fault).encode("ascii", "backslashreplace").decode("ascii")
            self.log("kinds:", self.state())

    def state(self):
        """Why what was read before goes on, "" where the file is as it should be."""
        return f"what was read before goes on, since {self.fault}" if self.fault else ""

    def of(self, ident, kind, arg):
        """What begins a child, with its words. OSError where its kind has none."""
        self.look_again()
        if kind not in self.kinds:
            raise OSError(0, f"no kind {kind} in {os.path.basename(self.path)}")
        return self.kinds[kind].of_child(ident, arg)
