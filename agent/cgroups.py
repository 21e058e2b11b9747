"""A cgroup for each run, where the system gives the agent one of its own (cgroup v2; `Delegate=yes` of a systemd unit).

A process can't leave it, so the run's cgroup tells whether anything of the run lives, and ends it all at once, also what left its session or
process group.
"""
import os
import time

ENTERS = ["/bin/sh", "-c", 'echo 0 2>/dev/null >"$0"; exec "$@"']  # becomes the program that follows, in the cgroup whose file is named before it
PREFIX = "run."
OF_AGENT = "agent"                      # the cgroup of the agent itself, where those of runs keep limits
CONTROLLERS = "memory", "pids", "cpu"   # which keep them
LOOKS, LOOK_EACH = 100, 0.01  # seconds between two looks whether what was killed has ended


def own():
    """The folder of this process's cgroup, in which it may make others, and in which it is alone; None where there is none."""
    try:
        with open("/proc/self/cgroup", errors="surrogateescape") as file:
            path = next(line.rstrip("\n").split(":", 2)[2] for line in file if line.startswith("0::"))
        with open("/proc/self/mountinfo", errors="surrogateescape") as file:
            mounts = [line.split(" ") for line in file]
        mount = next(words for words in mounts if words[words.index("-") + 1] == "cgroup2")
        folder = os.path.join(mount[4], os.path.relpath(path, mount[3]))
        with open(os.path.join(folder, "cgroup.procs")) as file:
            is_alone = file.read().split() == [str(os.getpid())]
    except (OSError, StopIteration, ValueError):
        return None
    may_end = os.path.exists(os.path.join(folder, "cgroup.kill"))
    return folder if path != "/" and is_alone and may_end and os.access(folder, os.W_OK) else None


def take_controllers(folder, wanted=CONTROLLERS):
    """Has the cgroups of runs keep limits, where the system gives controllers. The kernel wants a cgroup with such ones below it to have no process
    itself; so this process goes into one of its own.
    """
    try:
        with open(os.path.join(folder, "cgroup.controllers")) as file:
            given = [one for one in file.read().split() if one in wanted]
        if not given:
            return
        own = os.path.join(folder, OF_AGENT)
        os.makedirs(own, exist_ok=True)
    except OSError:
        return
    for one in given if put(os.path.join(own, "cgroup.procs"), "0") else ():
        put(os.path.join(folder, "cgroup.subtree_control"), "+" + one)


def put(path, text):
    """Says something to the kernel. Whether it took it."""
    try:
        file = os.open(path, os.O_WRONLY)
    except OSError:
        return False
    try:
        return os.write(file, text.encode("ascii")) > 0
    except OSError:
        return False
    finally:
        os.close(file)


def take_own():
    """The folder in which runs get cgroups, None where there is none; what an earlier agent has left there is ended."""
    folder = own()
    if folder:
        end_all(folder)
        take_controllers(folder)
    return folder


def make(folder, name):
    """The cgroup of a new run. OSError where it can't be made."""
    made = Cgroup(os.path.join(folder, PREFIX + name))
    os.mkdir(made.folder)
    return made


class Cgroup:
    """The cgroup of one run."""

    def __init__(self, folder):
        self.folder = folder

    def before(self):
        """The words that have a program begin in it."""
        return [*ENTERS, os.path.join(self.folder, "cgroup.procs")]

    def limit(self, name, text):
        """Whether it keeps a limit now."""
        return put(os.path.join(self.folder, name), text)

    def ran_out_of_memory(self):
        try:
            with open(os.path.join(self.folder, "memory.events")) as file:
                return any(line.split()[0] == "oom_kill" and int(line.split()[1]) > 0 for line in file)
        except (OSError, ValueError, IndexError):
            return False

    def kill(self):
        end(self.folder)

    def has_any(self):
        try:
            with open(os.path.join(self.folder, "cgroup.events")) as file:
                return "populated 1" in file.read()
        except OSError:
            return False

    def remove(self):
        remove(self.folder)


def end(folder):
    """Kills all that is in a cgroup, and below it."""
    put(os.path.join(folder, "cgroup.kill"), "1")


def remove(folder):
    try:
        os.rmdir(folder)
    except OSError:
        pass  # something in it has not ended, or has made cgroups of its own


def end_all(folder):
    """Ends what an earlier agent has left in the cgroups of its runs: this process is alone in its own."""
    for _ in range(LOOKS):
        left = [one.path for one in os.scandir(folder) if one.name.startswith(PREFIX) and one.is_dir()]
        for one in left:
            end(one)
            remove(one)
        if not left:
            break
        time.sleep(LOOK_EACH)
