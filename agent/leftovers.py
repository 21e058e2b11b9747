"""What an agent that was killed has left running, found by who begins anew at its image.

Whatever a child begins carries the mark of its agent's image in its environment. A program may write over that (nginx does), but it leaves its
session only for a new one of its own. So each run's session is noted in a file beside the image, and whoever is in such a session is one of ours.
A session's number may be given again once nobody is in it; so a session counts only where its leader is the one that was noted, or where one of
it had begun when the agent was last known to live: until then the number was the run's.
"""
import os
import queue
import signal
import threading
import time

from clock import seconds

MARK = "SEBRAKT_AGENT"
TICKS = os.sysconf("SC_CLK_TCK")  # a second
LIVES_EACH = 2   # seconds between two signs of life in the file
MOST_LINES = 1000  # behind which the file is written anew
LOOKS, LOOK_EACH = 100, 0.01  # seconds between two looks for what is left


class Process:
    """A process as the kernel shows it. OSError where there is none."""

    def __init__(self, pid):
        with open(f"/proc/{pid}/stat", "rb") as file:  # a name may be of any bytes
            words = file.read().rsplit(b")", 1)[1].split()
        self.pid, self.lives, self.session, self.begun = int(pid), words[0] not in b"ZX", int(words[3]), int(words[19])  # `begun` in ticks since the boot

    def kill(self):
        """Kills it, and no other one that was given its number meanwhile. Whether it did."""
        try:
            handle = os.pidfd_open(self.pid)
        except OSError:
            return False
        try:
            if Process(self.pid).begun != self.begun:
                return False
            signal.pidfd_send_signal(handle, signal.SIGKILL)
            return True
        except OSError:
            return False
        finally:
            os.close(handle)


def environment(pid):
    """The environment with which a process began, as words of bytes; none where there is no such process, or it is another user's."""
    try:
        with open(f"/proc/{pid}/environ", "rb") as file:
            return file.read().split(b"\0")
    except OSError:
        return []


def boot():
    with open("/proc/sys/kernel/random/boot_id") as file:
        return file.read().strip()


def ticks():
    return int(seconds() * TICKS)


class Sessions:
    """The sessions of the runs that live, in a file. Where that can't be written, only the mark tells of what is left. A thread writes it: a disk may hang, or
    stand still while it is copied, and who waits for it is silent."""

    def __init__(self, path):
        self.path, self.live, self.lines, self.lives_at = os.path.abspath(path), {}, 0, 0
        self.file, self.todo, self.thread = None, queue.Queue(), None  # `file` is the thread's own

    def left(self):
        """The sessions that an earlier agent has noted since this machine began, each with the begin of its leader, and when that agent lived last."""
        try:
            with open(self.path, "rb") as file:
                head, *lines = os.fsdecode(file.read()).split("\n")[:-1]
            of_boot, lived, path = head.split(" ", 2)
            return (sessions_of(lines), int(lived)) if (of_boot, path) == (boot(), self.path) else ({}, 0)
        except (OSError, ValueError):
            return {}, 0

    def do(self, *what):
        """Has the thread do something behind all that it was told before."""
        self.todo.put(what)
        if self.thread is None:
            thread = threading.Thread(target=self.work, daemon=True)
            try:
                thread.start()
                self.thread = thread
            except RuntimeError:
                pass  # no room for it now: the next line tries again

    def work(self):
        while True:
            do, *words = self.todo.get()
            do(*words)
            self.todo.task_done()

    def settle(self):
        """Waits until all is written."""
        self.todo.join()

    def begin(self):
        """Has the file written anew, with what lives."""
        self.lines = len(self.live)
        self.do(self.write_anew)

    # -- the thread's

    def write_anew(self):
        live = self.live.copy()  # at once, whatever the loop does
        try:
            file = open(self.path + ".new", "wb")
            file.write(os.fsencode(self.head() + "".join(f"+ {number} {begun}\n" for number, begun in live.items())))
            file.flush()
            os.rename(self.path + ".new", self.path)
        except OSError:
            return
        self.close()
        self.file = file

    def append(self, line):
        if self.file is None:
            self.write_anew()
            return
        try:
            os.write(self.file.fileno(), line.encode("ascii"))
        except OSError:
            pass

    def sign(self):
        if self.file is not None:
            try:
                os.pwrite(self.file.fileno(), os.fsencode(self.head()), 0)
            except OSError:
                pass

    def close(self):
        if self.file is not None:
            self.file.close()

    # -- the loop's

    def head(self):
        """It names the file, since a copy of it tells of another agent's runs, which may live."""
        return f"{boot()} {ticks():020d} {self.path}\n"

    def note(self, number):
        """A run has begun a session. It is noted before its program has the time to do much."""
        try:
            self.live[number] = Process(number).begun
        except OSError:
            return
        self.write(f"+ {number} {self.live[number]}\n")

    def forget(self, number):
        if self.live.pop(number, None) is not None:
            self.write(f"- {number}\n")

    def write(self, line):
        self.lines += 1
        if self.lines > MOST_LINES + 2 * len(self.live):
            self.begin()
        else:
            self.do(self.append, line)

    def tick(self, now):
        if self.live and now >= self.lives_at and self.todo.empty():
            self.lives_at = now + LIVES_EACH
            self.do(self.sign)


def sessions_of(lines):
    sessions = {}
    for line in lines:
        sign, number, *begun = line.split(" ")
        if sign == "-":
            sessions.pop(int(number), None)
        else:
            sessions[int(number)], = map(int, begun)
    return sessions


def end(mark, sessions=None, lived=0):
    """Ends whatever an earlier agent of this mark has left, and tells how many processes that were."""
    ended = set()
    for _ in range(LOOKS):
        found = find(mark, sessions or {}, lived)
        if not found:
            break
        ended |= {process.pid for process in found if process.kill()}
        time.sleep(LOOK_EACH)
    return len(ended)


def find(mark, sessions, lived):
    word, here = os.fsencode(f"{MARK}={mark}"), look()
    of_mark = {process.pid for process in here.values() if word in environment(process.pid)}
    ours = {number for number in sessions if is_ours(number, sessions[number], lived, here)} | of_mark
    return [process for process in here.values() if process.lives and (process.pid in of_mark or process.session in ours)]


def is_ours(number, begun, lived, here):
    if number in here:
        return here[number].begun == begun
    return any(process.session == number and process.begun <= lived for process in here.values())


def look():
    """All processes but this one."""
    here = {}
    for name in os.listdir("/proc"):
        if name.isdecimal() and int(name) != os.getpid():
            try:
                here[int(name)] = Process(name)
            except OSError:
                pass
    return here
