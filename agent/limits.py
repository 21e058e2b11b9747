"""What a run may take: by its cgroup, where it has one with the controllers, else by `prlimit`, which bounds each of its processes, or its user's."""
import resource
import shutil

import kind_keys

PERIOD = 100_000   # microseconds in which a run has its share of processors
MOST_FILES = 65536  # that an agent may have open: each run has a pipe to it
OF_FILES = {"memory": "memory.max", "processes": "pids.max", "processor": "cpu.max"}
OF_WORDS = {"memory": "--as", "processes": "--nproc"}
PRLIMIT = shutil.which("prlimit")
files_of_children = None  # (soft, hard), where the agent may have more files open than its children are to have


def take_files(handed=None):
    """Has this process open as many files as it may. `handed` is what children are to have, where an earlier program of it did this."""
    global files_of_children
    files_of_children = handed
    soft, hard = resource.getrlimit(resource.RLIMIT_NOFILE)
    most = min(hard if hard != resource.RLIM_INFINITY else MOST_FILES, MOST_FILES)
    if soft != resource.RLIM_INFINITY and soft < most:
        resource.setrlimit(resource.RLIMIT_NOFILE, (most, hard))
        files_of_children = soft, hard


def text_of(name, value):
    return str(kind_keys.size_of(value)) if name == "memory" else f"{max(1000, int(value * PERIOD))} {PERIOD}" if name == "processor" else str(value)


def words(limits, cgroup):
    """Sets the limits of a run's cgroup. The words that have a program begin under the others, and the names of those that nothing keeps here."""
    if cgroup and "memory" in limits:
        cgroup.limit("memory.oom.group", "1")  # all of a run ends, and not one process of it
    left = [name for name in limits if name in OF_FILES and not (cgroup and cgroup.limit(OF_FILES[name], text_of(name, limits[name])))]
    options = [f"{OF_WORDS[name]}={text_of(name, limits[name])}" for name in left if name in OF_WORDS]
    if "files" in limits:
        options.append(f"--nofile={limits['files']}")
    elif files_of_children and PRLIMIT:
        options.append("--nofile={}:{}".format(*files_of_children))
    if options and not PRLIMIT:
        raise OSError(0, "no program prlimit")
    return [PRLIMIT, *options, "--"] if options else [], [name for name in left if name not in OF_WORDS]
