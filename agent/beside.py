"""How the programs of a run begin: the child's own, and those beside it that check it or stop it, of the same user, folder, environment and cgroup."""
import os
import signal
import subprocess

import processes


class Place:
    """`before` are words of a program that becomes the next one, `user` is of `users.py`."""

    def __init__(self, before, user, folder, environment):
        self.before, self.user, self.folder, self.environment = before, user, folder, environment

    def begin(self, words, output):
        """OSError or ValueError where it can't be begun."""
        return processes.begin(words, self.before, self.user, stdin=subprocess.DEVNULL, stdout=output, stderr=subprocess.STDOUT, cwd=self.folder,
                               env=self.environment)

    def beside(self, words):
        return Beside(self.begin(words, subprocess.DEVNULL))


class Beside:
    """A program beside a run."""

    def __init__(self, process):
        self.process = process

    def result(self):
        """None while it goes on, then why it failed, "" where it didn't."""
        if self.process.returncode is None and os.waitid(os.P_PID, self.process.pid, os.WEXITED | os.WNOHANG | os.WNOWAIT) is not None:
            self.close()
            self.process.wait()
        status = self.process.returncode
        return None if status is None else "" if status == 0 else f"status {status}" if status > 0 else f"signal {-status}"

    def close(self):
        """Ends it, and what it has begun. Its group's number stays its own until it is reaped."""
        if self.process.returncode is None:
            try:
                os.killpg(self.process.pid, signal.SIGKILL)
            except (ProcessLookupError, PermissionError):
                pass
