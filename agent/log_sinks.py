"""Where lines of children are kept: the system's journal, or a file a child. A thread writes them, since a disk may be slow, or hang.

What waits to be written is bounded: of what comes beside that nothing is kept, and nobody waits for it.
"""
import collections
import os
import re
import socket
import threading

from clock import seconds

JOURNAL = "/run/systemd/journal/socket"
MOST_WAITING = 8 << 20  # bytes that wait to be written
TAIL = 32 << 10         # bytes of an earlier file that are looked at again
BAD_FOR = 10            # seconds from the last fault on for which it counts
ENDS_WITHIN = 2         # seconds in which the rest is written where the agent ends
PRIORITY = re.compile(rb"<([0-7])>")


class File:
    """A file of lines, which is renamed FILE.1 once it has so many bytes, and the one before FILE.2, up to so many."""

    def __init__(self, path, size, keep, take_before):
        """`take_before` is called with the end of what the file has, once that is known."""
        self.path, self.place, self.size, self.keep, self.take_before, self.file = path, os.path.dirname(path), size, keep, take_before, None

    def write(self, data):
        """OSError where it can't be: then nothing of it stands there."""
        if self.file is not None and os.fstat(self.file).st_nlink == 0:
            self.close()  # it was removed: what is written to it nobody finds, and it takes room
        if self.file is None:
            self.open()
        at = os.fstat(self.file).st_size
        if at and at + len(data) > self.size:
            self.turn()
            at = 0
        done = 0
        try:
            while done < len(data):
                done += os.write(self.file, data[done:])
        except OSError:
            os.ftruncate(self.file, at)
            raise

    def open(self):
        if not os.path.isdir(self.place):
            os.mkdir(self.place, 0o750)
        self.file = os.open(self.path, os.O_RDWR | os.O_APPEND | os.O_CREAT | os.O_CLOEXEC, 0o640)
        take, self.take_before = self.take_before, None
        if take is not None:
            take(os.pread(self.file, TAIL, max(0, os.fstat(self.file).st_size - TAIL)))

    def turn(self):
        """Begins a new file, and drops the oldest one."""
        self.close()
        for number in range(self.keep, 0, -1):
            try:
                os.replace(self.path if number == 1 else f"{self.path}.{number - 1}", f"{self.path}.{number}")
            except FileNotFoundError:
                pass
        if self.keep == 0:
            os.unlink(self.path)
        self.open()

    def close(self):
        if self.file is not None:
            os.close(self.file)
            self.file = None


class Journal:
    """The system's journal, by its own protocol of fields; each line has the child's."""

    def __init__(self, fields):
        self.fields = "".join(f"{name}={value}\n" for name, value in fields.items()).encode("utf-8", "replace")
        self.place, self.link = JOURNAL, None

    def write(self, data):
        if self.link is None:
            self.link = socket.socket(socket.AF_UNIX, socket.SOCK_DGRAM)
            self.link.settimeout(ENDS_WITHIN)
        for line in data.split(b"\n")[:-1]:
            said = PRIORITY.match(line)
            text, priority = (line[said.end():], said[1]) if said else (line, b"6")
            self.link.sendto(self.fields + b"PRIORITY=" + priority + b"\nMESSAGE=" + text + b"\n", self.place)

    def close(self):
        if self.link is not None:
            self.link.close()
            self.link = None


class Writer:
    """Writes what is put, in its order."""

    def __init__(self):
        self.waiting, self.size, self.lost = collections.deque(), 0, 0
        self.fault, self.place, self.bad_at, self.good_at = "", None, 0, 1  # the last fault: where, when, and when that place took something last
        self.some, self.ends, self.thread = threading.Condition(), False, None

    def put(self, sink, data):
        """`data` is None where nothing more comes for a sink."""
        with self.some:
            if data is not None and self.size + len(data) > MOST_WAITING:
                self.note_fault(sink, "they come faster than they can be written", len(data))
                return
            self.waiting.append((sink, data))
            self.size += len(data or b"")
            self.some.notify()
        if self.thread is None:
            self.begin(sink)

    def begin(self, sink):
        """Where there is no room for a thread now, what waits is written once there is."""
        thread = threading.Thread(target=self.work, daemon=True)
        try:
            thread.start()
            self.thread = thread
        except RuntimeError as fault:
            self.note_fault(sink, str(fault), 0)

    def work(self):
        while True:
            with self.some:
                while not self.waiting:
                    if self.ends:
                        return
                    self.some.wait()
                sink, data = self.waiting.popleft()
            try:
                sink.close() if data is None else sink.write(data)
                self.good_at = seconds() if data and sink.place == self.place else self.good_at
            except OSError as fault:
                self.note_fault(sink, fault.strerror or str(fault), len(data or b""))
            with self.some:
                self.size -= len(data or b"")

    def note_fault(self, sink, why, lost):
        self.fault, self.place, self.bad_at, self.lost = f"{sink.place}: {why}", sink.place, seconds(), self.lost + lost

    def state(self, now):
        """Why lines aren't kept, "" where they are; a fault counts for a while, so that one that comes and goes is one."""
        return "" if self.good_at > self.bad_at and now - self.bad_at > BAD_FOR else self.fault

    def end(self):
        with self.some:
            self.ends = True
            self.some.notify()
        if self.thread is not None:
            self.thread.join(ENDS_WITHIN)
