"""What is to be said so that a cluster's children become those of a file, and the saying of it."""
import dataclasses

import client
import groups
import refusals

PAST = {"start": "started", "replace": "replaced", "restart": "restarted", "delete": "deleted", "register": "registered",
        "unregister": "unregistered", "drain": "drained", "undrain": "undrained"}


@dataclasses.dataclass(frozen=True)
class Step:
    """A line for the node, and what it does, in words."""
    verb: str
    line: str
    about: str
    note: str = ""  # for who has done it

    def plan(self):
        return f"{self.verb} {self.about}"

    def done(self):
        return f"{PAST[self.verb]} {self.about}" + ("; " + self.note if self.note else "")


class Halted(Exception):
    """A step that wasn't done, after others were: why, what to do, and whether it may have been done all the same."""

    def __init__(self, why, advice, is_unsure, done, step, left):
        super().__init__(why)
        self.why, self.advice, self.is_unsure, self.done, self.step, self.left = why, advice, is_unsure, done, step, left


def steps_to(wanted, shown, prunes):
    """The steps from the tables that are shown to those that are wanted. Only who prunes takes away what isn't wanted.

    Deletions stand first, so that what they hold (a port, a place in the tables) is free for what starts, in the order in which it is wanted.
    """
    gone = [ident for ident in sorted(shown.children) if prunes and ident not in wanted.children]
    named = {name: ident for name, ident in shown.names.items() if ident not in gone}  # a deletion takes its child's names along
    moved = {name for name, ident in named.items() if wanted.names.get(name) != ident and (prunes or name in wanted.names)}
    return [*(Step("delete", "delete " + ident, ident) for ident in gone),
            *(Step("unregister", "unregister " + name, f"{name} of {named[name]}") for name in sorted(moved)),
            *(step for child in wanted.children.values() for step in step_of_child(child, shown.children.get(child.id))),
            *(Step("register", f"register {name} {ident}", f"{name} for {ident}") for name, ident in wanted.names.items() if name in moved or name not in named)]


def step_of_child(child, before):
    """The one step that a child takes, or none."""
    if before is None:
        return [Step("start", child.line("start"), f"{child.id}: {', '.join(f'{key} {value}' for key, value in child.fields().items() if value)}")]
    changes = [f"{key} {said(before.fields()[key])} -> {said(value)}" for key, value in child.fields().items() if value != before.fields()[key]]
    return [Step("replace", child.line("replace"), f"{child.id}: {', '.join(changes)}")] if changes else []


def said(value):
    return value or "none"


def do(steps, agent, tell):
    """Says them, one after the other; `tell` is called with each that was done. Halted where one isn't."""
    for number, step in enumerate(steps):
        try:
            told = agent.ask(step.line)
        except client.NoAnswer as fault:
            raise Halted(*agent.words_of(fault), agent.may_have_heard(fault), steps[:number], step, steps[number + 1:]) from None
        answer = next((first for first in groups.first_lines(told) if not first.startswith("ok")), None)
        if answer is not None:
            raise Halted(*refusals.words_of(step.line, answer), answer.startswith(refusals.UNSURE), steps[:number], step, steps[number + 1:])
        tell(step)
