"""The runs of one group as processes, each under the key that the core gave it, in a session and a process group of its own, and in a cgroup of
its own where there are such.
"""
import os
import subprocess

import beside
import cgroups
import health
import leftovers
import limits
import one_run
import users
from clock import seconds

LINGER = 0.02    # seconds between two looks at killed processes, where no signal tells of their end
KEPT = ("PATH", "HOME", "LANG", "LANGUAGE", "TZ", "USER", "LOGNAME", "SHELL", "TMPDIR")  # of the agent's variables, those that its children get
HELD = 2         # seconds without a look from which on this process didn't listen, and no check is to blame
NEVER = float("inf")


class Children:
    def __init__(self, name, group, kinds, mark, cgroup, loop, logs, log):
        """`mark` is the image's path. `cgroup` is the folder in which each run gets a cgroup of its own, None where there is none."""
        self.name, self.group, self.kinds, self.mark, self.cgroup, self.loop, self.logs, self.log = name, group, kinds, mark, cgroup, loop, logs, log
        self.runs, self.watched = {}, set()  # of each key its run; the keys of those that are to be looked at though they haven't ended
        self.sessions = leftovers.Sessions(mark + ".sessions")
        self.lingers = False  # whether what was killed hasn't ended yet
        self.look_at, self.looked_at = 0, 0  # when the watched ones want to be looked at, and when that was asked for last
        self.told = set()     # what nothing limits here, of which the log has told
        self.goes_on = False  # whether an earlier program of this agent has handed on what runs

    def begin(self, key, ident, number, spec):
        """Begins a run. Its process's number, 0 where it has none. OSError or ValueError where it can't be begun."""
        name, _, shutdown, arg = spec.split(" ", 3)
        kind = self.kinds.of(ident, name, arg.removeprefix("arg="))
        if not kind.command:
            self.runs[key] = one_run.Note(kind)
            return 0
        user, cgroup, stream = users.of(kind.user, kind.group), self.cgroup_of(key), None
        try:
            bounds, unkept = limits.words(kind.limits, cgroup)
            place = beside.Place([*(cgroup.before() if cgroup else ()), *bounds], user, folder_of(kind), self.environment(kind, user, ident, number))
            watch = health.Health(kind, place, self.loop, self.wake, seconds()) if kind.health or kind.ready else None
            stream = self.logs.stream(ident, number, kind)
            process = place.begin(kind.command, stream.output if stream else subprocess.DEVNULL)
        except (OSError, ValueError, subprocess.SubprocessError):
            if stream:
                stream.close()
            if cgroup:
                cgroup.remove()
            raise
        if stream:
            stream.has_begun()
        place.environment["SEBRAKT_PROCESS"] = str(process.pid)  # for the programs beside it
        self.take(key, one_run.Run(process, kind, shutdown, place, cgroup, stream, watch))
        self.tell_unkept(name, unkept)
        return process.pid

    def take(self, key, run):
        self.runs[key] = run
        self.sessions.note(run.process.pid)
        if run.is_watched:
            self.watched.add(key)
            self.wake()

    def resume(self, key, run):
        """Takes a run that an earlier program of this agent has begun."""
        self.runs[key], self.goes_on = run, True
        if run.is_watched:
            self.watched.add(key)

    def rename(self, old, key):
        """Has a run go on under another key. Its process's number."""
        self.runs[key] = self.runs.pop(old)
        self.watched = {key if one == old else one for one in self.watched}
        return self.runs[key].process.pid

    def wake(self):
        self.look_at = 0

    def environment(self, kind, user, ident, number):
        kept = {name: value for name, value in os.environ.items() if name in KEPT or name.startswith("LC_")}
        own = {"SEBRAKT_ID": ident, "SEBRAKT_RUN": number, "SEBRAKT_NODE": self.name, leftovers.MARK: self.mark}
        return {**kept, **(user.variables if user else {}), **kind.environment, **own}

    def tell_unkept(self, kind, limits_unkept):
        """Tells once of a kind what nothing limits here."""
        if limits_unkept and kind not in self.told:
            self.told.add(kind)
            self.log("nothing limits", ", ".join(limits_unkept), "of kind", kind, "here: the agent has no cgroup with a controller for it")

    def cgroup_of(self, key):
        try:
            return cgroups.make(self.cgroup, f"{os.getpid()}.{self.group}.{key}") if self.cgroup else None
        except OSError:
            return None

    def term(self, key):
        if key in self.runs:
            self.runs[key].term()
            self.wake()
            self.lingers = self.lingers or self.runs[key].lingers()

    def kill(self, key):
        if key in self.runs:
            self.runs[key].kill()
            self.lingers = self.lingers or self.runs[key].lingers()

    def ended(self):
        """Of each run that has ended since the last call (key, status, why it failed)."""
        ends = [(key, run) for key, run in self.runs.items() if run.has_ended()]
        told = [(key, *run.end()) for key, run in ends]
        for key, run in ends:
            del self.runs[key]
            self.watched.discard(key)
            run.close(self.sessions)
        self.lingers = any(run.lingers() for run in self.runs.values())
        return told

    def look(self, now, some_ended):
        """Looks at the runs that are checked or timed, where it is time. Of each of which there is something new to be told (key, note, the
        seconds for which its child waits at least when it has ended).
        """
        was_held, self.looked_at = now - self.looked_at > HELD, now
        if not (self.watched and (some_ended or now >= self.look_at)):
            return []
        for run in [self.runs[key] for key in self.watched if was_held and self.runs[key].health]:
            run.health.excuse(now)
        self.look_at = NEVER
        for key in self.watched:
            self.runs[key].look(now)
        self.look_at = min(self.look_at, *(self.runs[key].moment() for key in self.watched))
        return [(key, note, self.runs[key].kind.delay) for key in self.watched if (note := self.runs[key].note()) is not None]

    def next_moment(self, now):
        """When it wants to be looked at again, though nothing happens; None where it doesn't."""
        moments = [now + LINGER] * self.lingers + [self.look_at] * bool(self.watched)
        return min(moments, default=None)

    def rest(self):
        """Makes no more checks: another program does, of the same process."""
        for run in [self.runs[key] for key in self.watched if self.runs[key].health]:
            run.health.close()

    def end_leftovers(self):
        """Ends what an agent that was killed has left running. How many processes that were. Only who has the image's lock may say this."""
        ended = 0 if self.goes_on else leftovers.end(self.mark, *self.sessions.left())
        self.sessions.begin()
        return ended


def folder_of(kind):
    if kind.folder is not None and not os.path.isdir(kind.folder):
        raise OSError(0, f"no folder {kind.folder}")
    return kind.folder
