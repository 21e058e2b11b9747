"""The runs of children at one machine: those that run, those that were told to end, and those that wait for their begin.

It has no process: `begin`, `term` and `kill` are said by actions, under a key that a process keeps when its run's number becomes another one.
"""
from core import answer, backoff, word

NEVER, NONE = float("inf"), (0, "")


class Run:
    def __init__(self, key, ident, number, spec, now):
        self.key, self.id, self.number, self.spec, self.begun, self.process = key, ident, number, spec, now, 0
        self.stops, self.kill_at, self.status = False, NEVER, None  # whether it was told to end; its status once it has ended by itself
        self.note, self.delay = "", 0  # what is told of it beside; the seconds at least from its end to the next begin


def reason_of(status):
    return "normal" if status == 0 else "failed" if status in (126, 127) else "crash"


class Runs:
    def __init__(self, options, act):
        self.act, self.keys = act, 0
        self.here, self.waiting = {}, {}  # id to run: those with a process, or of whose end the node isn't told yet; id to (number, spec)
        self.live, self.ending = {}, {}   # key to run: those with a process; of these the ones that were told to end
        self.kill_from = NEVER            # before this moment none of these is to be killed
        self.over, self.unkept = [], []   # runs that ended by themselves, and of which the node is still to be told; those of which it couldn't keep that
        self.again_at, self.again = 0, options.silent  # when it is told of these once more
        self.touched = set()              # the ids of which there is something new to be told
        self.backoff, self.window = backoff.Backoff(options.backoff, options.stable), backoff.Window(options.intensity, options.period)
        self.ends = {}                    # of each id that ended (its restarts, how it ended last)

    def running(self):
        return [run for run in self.here.values() if not run.stops]

    # -- orders

    def do(self, orders, now):
        """Takes the node's orders, in their order. What starts waits for `begin`."""
        for verb, ident, number, spec in orders:
            self.touched.add(ident)
            if verb == "start":
                self.waiting[ident] = (number, spec)
            elif self.waiting.get(ident, ("", ""))[0] == number:
                del self.waiting[ident]
            elif ident in self.here and self.here[ident].number == number:
                self.end(self.here[ident], now)

    def go_on(self, before, behind, now):
        """Takes orders before which and behind which this machine left and joined again: what stops and starts in the same form goes on."""
        starts = {ident: (number, spec) for verb, ident, number, spec in behind if verb == "start"}
        kept, over = set(), set(self.over)
        for verb, ident, number, _ in before:
            run = self.here.get(ident)
            if verb == "stop" and run and not run.stops and run.number == number and starts.get(ident, ("", ""))[1] == run.spec and (run.status is None or run in over):
                run.number = starts[ident][0]
                kept.add(ident)
        self.touched |= kept
        self.do([order for order in before + behind if order[1] not in kept], now)

    def adopt(self, orders, now):
        """Takes the orders of a node that was begun anew: what runs in the same form goes on under its new number, all else ends. An end of which
        no node has answered is told under that number too: else what ended for good would run again."""
        self.touched.update(self.waiting)
        self.waiting, self.unkept, self.over = {}, [], [run for run in self.here.values() if run.status is not None]
        self.go_on([("stop", run.id, run.number, "") for run in self.running()], orders, now)

    def end(self, run, now):
        self.touched.add(run.id)
        if run.status is not None:
            del self.here[run.id]
        elif not run.stops:
            self.act("log", "stop", run.id, run.number, run.process)
            shutdown, run.stops, self.ending[run.key] = run.spec.split(" ", 3)[2], True, run
            self.act("kill" if shutdown == "brutal_kill" else "term", run.key)
            run.kill_at = now + int(shutdown) / 1000 if shutdown.isdecimal() else NEVER
            self.kill_from = min(self.kill_from, run.kill_at)

    def end_all(self, now):
        self.touched.update(self.waiting)
        self.waiting = {}
        if len(self.ending) < len(self.here):
            for run in reversed(self.running()):
                self.end(run, now)

    def put_off(self, idents, now):
        """Ends these runs, of which the node knows nothing: each waits until it may begin here again. One that has ended stays: its end is told yet."""
        for run in [run for run in reversed(self.running()) if run.id in idents and run.status is None]:
            self.waiting.setdefault(run.id, (run.number, run.spec))
            self.end(run, now)

    def kill_all(self):
        for key in self.ending:
            self.act("kill", key)

    def kill_late(self, now):
        if now < self.kill_from:
            return
        for run in self.ending.values():
            if run.kill_at <= now:
                run.kill_at = NEVER
                self.act("kill", run.key)
        self.kill_from = min((run.kill_at for run in self.ending.values()), default=NEVER)

    # -- processes

    def due(self, now):
        return [ident for ident, (_, spec) in self.waiting.items() if ident not in self.here and self.backoff.due((ident, spec)) <= now]

    def begin(self, idents, now):
        for ident in idents:
            number, spec = self.waiting.pop(ident)
            self.keys += 1
            self.here[ident] = self.live[self.keys] = Run(self.keys, ident, number, spec, now)
            self.act("begin", self.keys, ident, number, spec)
        self.touched.update(idents)

    def began(self, key, process):
        if key in self.live:
            self.live[key].process = process
            self.touched.add(self.live[key].id)

    def note(self, key, note, delay):
        if key in self.live:
            self.live[key].note, self.live[key].delay = note, delay
            self.touched.add(self.live[key].id)

    def ended(self, key, status, reason, now):
        """A process and all of its group have ended, or it couldn't be begun (None), for this reason."""
        run = self.live.pop(key, None)
        if run is None:
            return
        self.touched.add(run.id)
        if run.stops:
            del self.here[run.id], self.ending[key]
            return
        run.status, run.process = 127 if status is None else status, 0
        last = ("failed: " + reason if reason else "failed") if status is None else f"status {status}" if status >= 0 else f"signal {-status}"
        self.ends[run.id] = self.ends.get(run.id, NONE)[0], last
        self.act("log", "ended", run.id, run.number, last)
        self.backoff.note((run.id, run.spec), now - run.begun, now, run.delay)
        self.over.append(run)

    def to_tell(self, now):
        """The runs of whose end the node is to be told now. Until it has answered they count as running here."""
        told = []
        if now >= self.again_at:
            self.over, self.unkept = self.over + self.unkept, []
        while self.over and self.window.is_open(now):
            run = self.over.pop(0)
            if self.here.get(run.id) is run:
                self.window.note(now)
                told.append(run)
        return told

    def told_end(self, run, reply, now):
        """Takes the node's answer. An end that it couldn't take is told it again: else the child would stand in the tables, with a run that nobody ends."""
        if reply.startswith((answer.NOT_KEPT, "refused 19")):
            self.unkept.append(run)
            self.again_at = now + self.again
        elif self.here.get(run.id) is run:
            del self.here[run.id]
            self.touched.add(run.id)
            restarts, last = self.ends.get(run.id, NONE)
            self.ends[run.id] = restarts + (reply == "ok restarted"), last

    # -- what is told, and when

    def child(self, ident, now):
        """What others are told of a child, None where it isn't here."""
        run, more = self.here.get(ident), self.ends.get(ident, NONE)
        if run is not None:
            state = word.STOPPING if run.stops else f"{word.RUNNING}, {run.note}" if run.note else word.RUNNING
            return word.Child(state, run.number, run.process, *more, None)
        if ident in self.waiting:
            number, spec = self.waiting[ident]
            return word.Child(word.WAITS, number, 0, *more, round(max(0, self.backoff.due((ident, spec)) - now), 1))
        return None

    def forget(self):
        self.backoff.keep({*((run.id, run.spec) for run in self.here.values()), *self.forms()})
        self.ends = {ident: told for ident, told in self.ends.items() if ident in self.here or ident in self.waiting}

    def forms(self):
        return [(ident, spec) for ident, (_, spec) in self.waiting.items()]

    def moments(self, now, has_node):
        """When there is something to be done here, though nothing happens. Without a node nobody is told of ends."""
        moments = [due for form in self.forms() if (due := self.backoff.due(form)) > now]
        moments += [self.kill_from] if self.ending else []
        moments += [self.again_at] if has_node and self.unkept else []
        return moments + [self.window.opens() or NEVER] if has_node and self.over else moments
