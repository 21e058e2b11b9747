"""What a machine tells of itself, as one value: its word. Each word is newer than the one before, and the newest alone counts.

A word goes to every machine, and is handed on to those that don't hear its sender. So whoever holds a word need not have it from its sender. Of
the children it tells only what has changed since a word that its receiver has heard (`told.py`).
"""
import dataclasses
import functools
import json
from typing import NamedTuple, Optional

BEGINS, EMPTY, OLD, UNHEARD, RIVAL, SETTING, SECRET = "begins", "empty", "old", "unheard", "rival", "setting", "secret"  # what hinders a machine, or ""
FULL, LATER, LEFT = "full", "later", "left"
THERE = "", FULL                          # those of another setting that come later give way to it
OPEN = *THERE, LATER                      # it begins what its node orders, and takes commands
ASIDE = EMPTY, RIVAL, SETTING, SECRET     # it runs nothing
ANEW = *ASIDE, UNHEARD                    # it goes on as one that begins
TAKES_NONE = OLD, UNHEARD, RIVAL, SETTING, FULL  # no child is placed there, not for a moment
WHY = {
    BEGINS: "begins",
    EMPTY: "its image is empty, and no peer is heard: it waits for a peer, or for `begin alone`, lest it was lost",
    OLD: "its image is lost or old",
    UNHEARD: "it hears machines that don't hear it, and that may know more than its image",
    RIVAL: "another process of this name lives: this one runs nothing",
    SETTING: "another setting than those that were there before: it runs nothing",
    SECRET: "the peers' lines are sealed by another secret: it runs nothing",
    FULL: "its disk keeps nothing new: others take over its children",
    LATER: "those with another setting that were there before are silent: it gives way when they come back",
    LEFT: "it has left",
}
RUNNING, STOPPING, WAITS = "running", "stopping", "waits"
TOO_GREAT = 1 << 63  # a number from which on it is none that an agent counted


class Child(NamedTuple):
    """What is told of a child that was ordered at a machine."""
    state: str
    run: str
    process: int
    restarts: int
    last: str              # how it ended last, and "" where it didn't
    due: Optional[float]   # in how many seconds one that waits may begin


@dataclasses.dataclass
class Word:
    name: str
    session: tuple     # (epoch, mark): of two processes of a machine the later one has the greater epoch
    n: int             # rises with each word of a session: the sign of life
    state: str
    setting: str       # how it places and counts
    base: int          # the number of the word since which `children` tells changes; 0 where it tells all
    children: dict     # of each id that was ordered here a Child, None where it is here no more
    claims: frozenset  # the ids that are to begin here
    heard: dict        # of each other machine the session and number of its newest word that is known here
    sees: frozenset    # whose words come straight and in time; those of others are handed on to this one
    whole: frozenset   # whose whole state this process has taken up

    @functools.cached_property
    def text(self):
        return json.dumps([self.name, self.session, self.n, self.state, self.setting, self.base, self.children, sorted(self.claims), self.heard,
                           sorted(self.sees), sorted(self.whole)], separators=(",", ":"))


def text_of(words):
    return "[" + ",".join(one.text for one in words) + "]"


def words_of(text):
    """The words that a text tells, () where it tells none."""
    try:
        return tuple(word_of(*one) for one in json.loads(text))
    except (ValueError, TypeError, AttributeError, RecursionError):
        return ()


def word_of(name, session, n, state, setting, base, children, claims, heard, sees, whole):
    if not (is_text(name, state, setting) and is_number(n, base) and base <= n and is_text(*claims, *sees, *whole)):
        raise ValueError
    known = {of: (session_of(one), number) for of, (one, number) in heard.items() if is_number(number)}
    told = {ident: one if one is None else child_of(*one) for ident, one in children.items()}
    return Word(name, session_of(session), n, state, setting, base, told, frozenset(claims), known, frozenset(sees), frozenset(whole))


def child_of(state, run, process, restarts, last, due):
    if not (type(state) is type(run) is type(last) is str and type(process) is type(restarts) is int
            and (due is None or type(due) in (int, float) and 0 <= due < TOO_GREAT)):
        raise ValueError  # said at length, since there may be thousands
    return Child(state, run, process, restarts, last, due)


def session_of(value):
    epoch, mark = value
    if not (is_number(epoch) and is_text(mark)):
        raise ValueError
    return epoch, mark


def is_text(*values):
    return all(isinstance(value, str) for value in values)


def is_number(*values):
    return all(type(value) is int and 0 <= value < TOO_GREAT for value in values)
