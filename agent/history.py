"""The last runs of each child, as this machine saw them: its own as they begin and end, those of other machines by their words.

A run that began and ended between two words is missed, but for `restarts`, which counts it.
"""
from typing import NamedTuple, Optional

from core import word

KEPT = 5          # runs of each child
MOST_GONE = 1000  # children of which no machine tells any more, and whose runs are known yet
ENDED, TOLD_TO_END, AGENT_ENDED = "ended", "told to end", "its agent ended"


class Run(NamedTuple):
    machine: str
    number: str
    process: int
    began: Optional[float]  # a moment of the wall clock; None where that was before this agent
    ended: Optional[float]  # None while it runs, as far as is known
    how: str                # it ended, "" while it runs
    restarts: int = 0       # what was told of the child when it was heard last
    last: str = ""
    stops: bool = False

    def told(self):
        began, ended = (None if moment is None else round(moment, 1) for moment in (self.began, self.ended))
        return [self.machine, self.number, self.process, began, ended, self.how]


class History:
    def __init__(self, note):
        """`note(what, machine, **more)` takes what happens."""
        self.note, self.runs = note, {}  # of each child its last runs, the newest last

    def of(self, ident):
        return self.runs.get(ident, ())

    def newest(self, machine, ident):
        """The last run of a child at a machine, None where none is known."""
        return next((run for run in reversed(self.of(ident)) if run.machine == machine), None)

    def live(self, machine, ident):
        """The run of a child that goes on at a machine, None where none does."""
        run = self.newest(machine, ident)
        return None if run is None or run.how else run

    def add(self, ident, run):
        self.runs[ident] = (*self.of(ident)[1 - KEPT:], run)

    def began(self, ident, run):
        before = next((one.machine for one in reversed(self.of(ident)) if one.process or not one.how), run.machine)
        self.add(ident, run)
        if run.began is not None:
            more = {"before": before} if before != run.machine else {}
            self.note("move" if more else "begin", run.machine, id=ident, run=run.number, process=run.process, **more)

    def ended(self, machine, ident, how, now, **fields):
        run = self.live(machine, ident)
        if run is not None:
            self.change(ident, run, ended=now, how=how, **fields)
            self.note("end", machine, id=ident, run=run.number, how=how)

    def failed(self, ident, run):
        """A run that couldn't be begun."""
        self.add(ident, run)
        self.note("end", run.machine, id=ident, run=run.number, how=run.how)

    def change(self, ident, run, **fields):
        self.runs[ident] = tuple(run._replace(**fields) if one is run else one for one in self.of(ident))

    # -- what words tell

    def hear(self, machine, ident, child, now, is_first):
        """Takes what a machine tells of a child now. `is_first`: it was so before this agent heard that machine."""
        run, before, began = self.live(machine, ident), self.newest(machine, ident), None if is_first else now
        if child is None or child.state == word.WAITS:
            if run is not None:
                self.ended(machine, ident, how_of(run, child), now, **told_of(child))
            elif child is not None and child.last and child.restarts > (before.restarts if before else 0):  # it was tried again since it was heard last
                self.failed(ident, Run(machine, "", 0, began, began, child.last, child.restarts, child.last))
        elif child.process == 0 and before is not None and before.process and before.number == child.run:
            self.ended(machine, ident, child.last or ENDED, now, restarts=child.restarts + 1, last=child.last)  # its node isn't told of it yet, and counts it then
        elif run is not None and is_same(run, child):
            self.change(ident, run, number=child.run, process=child.process, stops=child.state == word.STOPPING)
        else:
            if run is not None:
                self.ended(machine, ident, how_of(run, child), now, **told_of(child))
            self.began(ident, Run(machine, child.run, child.process, began, None, "", child.restarts, child.last, child.state == word.STOPPING))

    def lose(self, machine, told, now, is_of_group=lambda ident: True):
        """Of a machine another process, or program, tells now of the children of a group: what the earlier one ran of these has ended with it, but for what
        goes on. In pieces."""
        for ident in list(self.runs):
            run = self.live(machine, ident) if is_of_group(ident) else None
            if run is not None and not (run.process and ident in told and told[ident].process == run.process):
                self.ended(machine, ident, AGENT_ENDED, now)
            yield

    def forget(self, told):
        """Forgets children of which nobody tells, once they are many. `told` are what machines tell of children."""
        if len(self.runs) > MOST_GONE + 2 * max(map(len, told), default=0):
            here = set().union(*told)
            if len(self.runs) > MOST_GONE + len(here):
                for ident in [ident for ident in self.runs if ident not in here]:
                    del self.runs[ident]


def is_same(run, child):
    """Whether a run goes on: a machine that joins again gives its runs new numbers."""
    return run.process == child.process != 0 or run.number == child.run and run.process in (0, child.process)


def told_of(child):
    return {} if child is None else {"restarts": child.restarts, "last": child.last}


def how_of(run, child):
    """How a run ended, of which what is told of its child now tells no more."""
    if run.stops or child is not None and (child.restarts, child.last) == (run.restarts, run.last):
        return TOLD_TO_END
    return ENDED if child is None else child.last or ENDED
