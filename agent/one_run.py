"""One run of a child: its first process, and what that has begun. It has ended when its first process has, and with it all of its group: what is left
of it then is killed.
"""
import os
import signal

import processes
from clock import seconds

GONE_WITHIN = 5  # seconds in which killed processes end, if they ever do
NEVER = float("inf")


class Run:
    def __init__(self, process, kind, shutdown, place, cgroup, stream, health):
        """`place` is how programs beside it begin (`beside.py`); `cgroup`, `stream` and `health` are None where it has none."""
        self.process, self.kind, self.shutdown, self.place, self.cgroup, self.stream, self.health = process, kind, shutdown, place, cgroup, stream, health
        self.given_up_at, self.is_ending, self.reason, self.stopper, self.noted = None, False, "", None, None if kind.delay else ""
        self.kill_at, self.ends_at = NEVER, seconds() + (kind.max_runtime or NEVER)
        self.is_watched = bool(health or kind.max_runtime or kind.delay or kind.overlap or isinstance(kind.stop, list))

    # -- its end

    def term(self):
        """Asks it to end, in its kind's way."""
        if isinstance(self.kind.stop, list) and not self.is_ending:
            try:
                self.stopper = self.place.beside(self.kind.stop)
            except (OSError, ValueError):
                self.signal(signal.SIGTERM)
        elif not isinstance(self.kind.stop, list):
            self.signal(signal.Signals[self.kind.stop])
        self.signal(signal.SIGCONT)  # one that is stopped hears it then
        self.is_ending = True

    def end_by_itself(self, reason, now):
        """Ends it though nobody has told so: it counts as failed, for this reason."""
        self.reason = reason
        if self.shutdown == "brutal_kill":
            self.kill()
        else:
            self.term()
            self.kill_at = now + int(self.shutdown) / 1000 if self.shutdown.isdecimal() else NEVER

    def kill(self):
        self.is_ending = True
        self.signal(signal.SIGKILL)
        if self.cgroup is not None:
            self.cgroup.kill()

    def signal(self, number):
        """Signals the whole process group. Its number stays this run's until its first process is reaped."""
        if self.process.returncode is None:
            try:
                os.killpg(self.process.pid, number)
            except (ProcessLookupError, PermissionError):
                pass

    def has_ended(self):
        if self.process.returncode is None:
            if os.waitid(os.P_PID, self.process.pid, os.WEXITED | os.WNOHANG | os.WNOWAIT) is None:
                return False
            self.kill()
            self.process.wait()
            self.given_up_at = seconds() + GONE_WITHIN
        return not self.has_any() or seconds() > self.given_up_at

    def has_any(self):
        return processes.has_any(self.process.pid) or self.cgroup is not None and self.cgroup.has_any()

    def lingers(self):
        """Whether its first process has ended, and others were there still."""
        return self.process.returncode is not None

    def end(self):
        """(status, why it failed) once it has ended; where this machine has ended it, or the kernel for its memory, there is no status."""
        is_killed = self.process.returncode == -signal.SIGKILL and not self.reason
        if is_killed and "memory" in self.kind.limits and self.cgroup is not None and self.cgroup.ran_out_of_memory():
            self.reason = "it took more memory than its limit"
        return (None, self.reason) if self.reason else (self.process.returncode, "")

    def close(self, sessions):
        sessions.forget(self.process.pid)
        for one in (self.stopper, self.health, self.stream):
            if one is not None:
                one.close()
        if self.cgroup is not None:
            self.cgroup.remove()

    # -- while it runs

    def look(self, now):
        """Ends it where it has run for too long or isn't well, and kills it where it doesn't end."""
        if now >= self.kill_at:
            self.kill_at = NEVER
            self.kill()
        if self.stopper is not None and (why := self.stopper.result()) is not None:
            self.stopper = None
            if why:
                self.signal(signal.SIGTERM)
        if self.is_ending:
            return
        reason = f"its max-runtime of {self.kind.max_runtime:g} s is over" if now >= self.ends_at else self.health.look(now) if self.health is not None else ""
        if reason:
            self.end_by_itself(reason, now)

    def note(self):
        """What is to be told of it anew, None where that is nothing."""
        note = self.health.note() if self.health is not None and not self.is_ending else self.reason and "ends, since " + self.reason
        if note == self.noted:
            return None
        self.noted = note
        return note

    def moment(self):
        """When it wants to be looked at again, though nothing happens."""
        return min(self.kill_at, NEVER if self.is_ending else self.ends_at, self.health.moment() if self.health is not None and not self.is_ending else NEVER)


class Note:
    """A run of a kind without a program: it has no process, and ends when it is told to."""

    is_watched, is_ending = False, True  # it needs no time for its end

    def __init__(self, kind):
        self.is_over, self.kind = False, kind

    def term(self):
        self.is_over = True

    def kill(self):
        self.is_over = True

    def has_ended(self):
        return self.is_over

    def lingers(self):
        return self.is_over

    def end(self):
        return 0, ""

    def close(self, sessions):
        pass
