"""Processes that die with the agent.

The kernel ends a process with its agent, asked by util-linux's `setpriv`, which then becomes the program; where there is no `setpriv`, by the
agent itself between fork and exec, which takes longer. What such a process has begun isn't ended by that (`leftovers.py` finds it). It is left to
the agent when the process ends, so that the agent hears of its end, too.
"""
import ctypes
import os
import shutil
import signal
import subprocess
import weakref

import users

PR_SET_PDEATHSIG, PR_SET_CHILD_SUBREAPER = 1, 36
LIBRARY = ctypes.CDLL(None)
SETPRIV = shutil.which("setpriv")
OWN = "-setuid,-setgid,-kill"  # what an agent that isn't root's may be given so that its children are other users: they get nothing of it
IS_GIVEN = os.geteuid() != 0 and users.may_change()
begun = weakref.WeakSet()


def begin(words, before=(), user=None, **options):
    """Begins a program in a session of its own, that dies with this process; `before` are words of a program that becomes the next one, `user` is
    whom it runs as (`users.py`).

    OSError where there is no such program.
    """
    if not words:
        raise OSError(0, "no program: it has no words")
    if shutil.which(words[0], path=options.get("env", os.environ).get("PATH")) is None:
        raise OSError(0, f"no program {words[0]}")
    if SETPRIV is not None:
        words, promise = [SETPRIV, *rights(user), "--pdeathsig", "KILL", "--", *words], None
    else:
        promise = die_with_parent(os.getpid())
        options = {**options, **({"user": user.user, "group": user.group, "extra_groups": user.groups} if user else {})}
    process = subprocess.Popen([*before, *words], start_new_session=True, preexec_fn=promise, **options)
    begun.add(process)
    return process


class Begun:
    """A process that an earlier program of this agent has begun: its child still. `status` is that with which it has ended, where it is reaped."""

    def __init__(self, pid, status=None):
        self.pid, self.returncode = pid, status
        begun.add(self)

    def wait(self):
        if self.returncode is None:
            self.returncode = os.waitstatus_to_exitcode(os.waitpid(self.pid, 0)[1])


def rights(user):
    """The options by which `setpriv` becomes a user, who keeps nothing of what this process may do."""
    if user is None:
        return [f"--inh-caps={OWN}", f"--ambient-caps={OWN}"] if IS_GIVEN else []
    return [f"--reuid={user.user}", f"--regid={user.group}", "--groups=" + ",".join(map(str, user.groups)), "--inh-caps=-all", "--ambient-caps=-all"]


def die_with_parent(parent):
    """What a new process does so that the kernel kills it when its parent ends."""
    def promise():
        LIBRARY.prctl(PR_SET_PDEATHSIG, signal.SIGKILL)
        if os.getppid() != parent:
            os._exit(1)
    return promise


def take_orphans():
    """Has the kernel leave to this process what its children have begun, once those have ended."""
    LIBRARY.prctl(PR_SET_CHILD_SUBREAPER, 1)


def has_any(group):
    """Whether there is a process in a process group. Those that were left to this one and have ended are reaped."""
    try:
        while os.waitid(os.P_PGID, group, os.WEXITED | os.WNOHANG) is not None:
            pass
    except ChildProcessError:
        pass
    try:
        os.killpg(group, 0)
    except ProcessLookupError:
        return False
    except PermissionError:
        pass
    return True


def reap_orphans():
    """Reaps what was left to this process and has ended, whatever its process group."""
    own = {process.pid for process in begun}
    for process in children_here():
        if process not in own:
            try:
                os.waitid(os.P_PID, process, os.WEXITED | os.WNOHANG)
            except ChildProcessError:
                pass


def children_here():
    """The processes whose parent is this one; none where the kernel doesn't list them."""
    try:
        with open(f"/proc/self/task/{os.getpid()}/children") as file:
            return [int(word) for word in file.read().split()]
    except OSError:
        return []
