"""Runs of kinds that overlap: where a child moves, its earlier run goes on until the next one is ready on another machine.

Nobody begins a child while a machine tells that it runs there. So the core is told that the run has ended as soon as another machine claims the child;
its process goes on for a while, of which no word tells. A child that is deleted is claimed by nobody, and one that is replaced begins here.
"""
from clock import seconds
from core import word
from health import NOT_READY

CLAIMED_WITHIN = 3  # times `--every` in which another machine claims a child that moves
STEADY = 2          # times `--every` for which its next run is ready, or gone: what is told first of one that has just begun says nothing of that yet
READY_WITHIN = 60   # seconds at most for which two run
CLAIMED, READY = "claimed", "ready"


class Overlaps:
    """Of one group; `carrier` has its core and its processes."""

    def __init__(self, carrier):
        self.carrier, self.asked, self.freed = carrier, {}, {}  # of each key (id, spec, until when): of which a claim is waited for; that go on
        self.found = {}  # of each key what was found of it last, and since when
        self.ending = {}  # of each key that was told to end at last, until when this machine waits for that before it goes

    def takes(self, key):
        """Takes a run that is told to end, if it may have to go on. Whether it does."""
        run, known = self.carrier.children.runs.get(key), self.carrier.core.runs.live.get(key)
        if not (run and known and run.kind.overlap) or run.is_ending or known.id in self.carrier.core.runs.waiting:
            return False
        within = CLAIMED_WITHIN * self.carrier.core.options.every
        self.asked[key] = known.id, known.spec, seconds() + (min(within, int(run.shutdown) / 2000) if run.shutdown.isdecimal() else within)
        return True

    def look(self, now):
        self.ending = {key: until for key, until in self.ending.items() if key in self.carrier.children.runs and now < until}
        for key, (ident, spec, until) in list(self.asked.items()):
            found = self.elsewhere(ident, now)
            if key not in self.carrier.core.runs.live or key not in self.carrier.children.runs:  # it has just ended: the core may be told that next
                del self.asked[key]
            elif now > until:
                del self.asked[key]
                self.carrier.children.term(key)
            elif found:
                self.free(key, ident, spec, now)
        for key, (ident, _, until) in list(self.freed.items()):
            found = self.elsewhere(ident, now)
            lasts = self.lasts(key, found, now)
            if key not in self.carrier.children.runs:
                self.forget(key)
            elif now > until or self.carrier.host.stops > 1 or found != CLAIMED and lasts:
                self.end(key, now)

    def elsewhere(self, ident, now):
        """Whether another machine is to run a child, or has a run of it that is ready; "" where none does."""
        sight, names = self.carrier.core.sight, self.carrier.core.sight.touch(now)
        states = [sight.told[name].children[ident].state for name in names if ident in sight.told[name].children]
        if any(state.partition(", ")[0] == word.RUNNING and NOT_READY not in state for state in states):
            return READY
        return CLAIMED if states or any(ident in sight.words[name].claims for name in names) else ""

    def lasts(self, key, found, now):
        """Whether it has been so for a while."""
        if self.found.get(key, (None, now))[0] != found:
            self.found[key] = found, now
        return now - self.found[key][1] >= STEADY * self.carrier.core.options.every

    def free(self, key, ident, spec, now):
        del self.asked[key]
        leaves = self.carrier.core.leave_at is not None
        self.freed[key] = ident, spec, now + (min(READY_WITHIN, self.carrier.core.options.leave_time) if leaves else READY_WITHIN)
        self.carrier.log("goes on beside its next run", ident, self.carrier.children.runs[key].process.pid)
        self.carrier.note_end(key, 0)

    def end(self, key, now):
        self.forget(key)
        self.carrier.children.runs[key].end_by_itself("its next run is there", now)
        self.ending[key] = now + self.carrier.core.options.leave_time
        self.carrier.children.wake()

    def forget(self, key):
        del self.freed[key]
        self.found.pop(key, None)

    def are_over(self):
        """Whether this machine may go: what it has is killed then. Who is told twice to go waits for nothing."""
        return not self.freed and (not self.ending or self.carrier.host.stops > 1)

    def end_all(self):
        for key in self.asked:
            self.carrier.children.term(key)
        self.asked.clear()
        for key in list(self.freed):
            self.end(key, seconds())

    def take_back(self, key, ident, spec):
        """The process of a child that is to begin here again, and went on here; 0 where there is none. One in another form ends."""
        for old, (of, form, _) in list(self.freed.items()):
            if of == ident and form == spec and old in self.carrier.children.runs:
                self.forget(old)
                return self.carrier.children.rename(old, key)
            if of == ident:
                self.end(old, seconds())
        return 0

    def moment(self):
        """When it wants to look again, though nothing happens."""
        return min((until for *_, until in [*self.asked.values(), *self.freed.values()]), default=float("inf"))
