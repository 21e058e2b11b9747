"""A script: which machines there are, and which fault or command comes when, as values and as text that can be played again.

    flavour any
    machines a b c
    chance 17
    at 0.000 begin a
    at 9.312 cut 4 a>b b>a
    at 12.500 ask c start g3 kind=good shutdown=300
    end 30

What the script leaves open (how late each line and each end of a process is) comes from the number `chance`.
"""
from typing import NamedTuple


NO_FAULTS = "names", "begin", "ask"  # verbs


class Step(NamedTuple):
    at: float
    verb: str
    words: tuple  # texts

    def __str__(self):
        return " ".join([f"at {self.at:.3f}", self.verb, *self.words])


class Script(NamedTuple):
    flavour: str
    machines: tuple  # names
    chance: int
    end: float       # when all faults end
    options: dict    # of the agents, where they aren't the usual ones
    steps: tuple

    def __str__(self):
        return "\n".join([f"flavour {self.flavour}", "machines " + " ".join(self.machines), f"chance {self.chance}",
                          *(f"option {name} {value}" for name, value in self.options.items()), *map(str, self.steps), f"end {self.end:g}"])

    def faults(self):
        return [step for step in self.steps if step.verb not in NO_FAULTS]


def step(at, verb, *words):
    return Step(round(at, 3), verb, tuple(map(str, words)))


def read(text):
    """The script that a text tells."""
    told = {"options": {}, "steps": []}
    for line in text.splitlines():
        first, *words = line.split() or ["#"]
        if first == "at":
            told["steps"].append(step(float(words[0]), *words[1:]))
        elif first == "option":
            told["options"][words[0]] = float(words[1]) if "." in words[1] else int(words[1])
        elif first == "machines":
            told["machines"] = tuple(words)
        elif first in ("flavour", "chance", "end"):
            told[first] = {"flavour": str, "chance": int, "end": float}[first](words[0])
        elif not first.startswith("#"):
            raise ValueError(f"no line of a script: {line}")
    return Script(**{**told, "steps": tuple(told["steps"])})
