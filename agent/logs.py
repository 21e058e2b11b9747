"""What children print: each run's output comes over a pipe of its own, is cut into lines, and is kept in the journal or in a file of its child.

Each line has its moment and its run's number. The last ones of each child stay in memory, for who asks. The pipe is always read, whatever becomes of
what it brings, so no child waits for a reader.
"""
import os
import selectors
import stat
import time

import kind_keys
import log_sinks
from clock import seconds
from log import moment

CHUNK = 1 << 16       # bytes that are read in one turn of one run, as many as a pipe holds
CHUNKS_AT_END = 32    # that are read at most when a run has ended
LONGEST = 32 << 10    # bytes of a line, which is cut there
LAST = 32 << 10       # bytes of a child that stay in memory
MOST = 32 << 20       # and of all children
SIZE, KEEP = "4M", 1  # of a file, where its kind says nothing, and how many earlier ones stay
MOST_LINES = 10_000   # that somebody may ask for
LOOK_EACH = 5         # seconds between two looks whether it is too much


def pipe():
    """The ends of a run's pipe. A child that is another user may open its own by its name, as /dev/stdout; nobody else finds it."""
    ends = os.pipe()
    os.fchmod(ends[1], 0o622)
    return ends


def has_journal():
    try:
        return stat.S_ISSOCK(os.stat(log_sinks.JOURNAL).st_mode)
    except OSError:
        return False


class Tail:
    """The last lines of a child, as bytes; `end` counts all that there ever were here, behind those of an earlier file."""

    def __init__(self):
        self.before, self.text, self.end, self.where, self.streams, self.said_at = b"", b"", 0, "", 0, 0

    def add(self, lines):
        self.end, self.said_at = self.end + len(lines), seconds()
        self.text = last(self.text + lines)

    def take_before(self, text):
        """The end of a file that was there. Another thread says so, once."""
        self.before = text[text.find(b"\n") + 1:] if len(text) == log_sinks.TAIL else text

    def since(self, at):
        """What came behind a place, all where it is None, and how many bytes of it are here no more."""
        if at is None or at > self.end:
            return last(self.before + self.text), 0
        behind = self.end - at
        return self.text[max(0, len(self.text) - behind):], max(0, behind - len(self.text))

    def forget(self):
        self.before = self.text = b""


def last(text):
    """The last lines of a text, which have so many bytes together."""
    return text if len(text) <= LAST else text[text.find(b"\n", len(text) - LAST - 1, -1) + 1 or -LAST:]


class Logs:
    """Of all runs of one machine. `to` is `journal`, or the folder of files; where it is None, the journal where there is one, else `folder`."""

    def __init__(self, loop, name, to, folder, log):
        self.loop, self.name, self.log = loop, name, log
        self.target, self.folder = ("journal" if to == "journal" or to is None and has_journal() else "file"), (to if to not in (None, "journal") else folder)
        self.writer, self.tails, self.told, self.look_at = log_sinks.Writer(), {}, "", 0

    def path(self, ident):
        """An id may have any visible character; a name of a file has no slash, and may have a space, which no id has."""
        return os.path.join(self.folder, ident.replace("/", " ") + ".log")

    def stream(self, ident, number, kind, ends=None):
        """The output of a run, None where its kind wants none. `ends` are those of its pipe, where it was begun before. OSError where there is no pipe left."""
        target = kind.log.get("to", self.target)
        if target == "none":
            return None
        tail = self.tails.setdefault(ident, Tail())
        if target == "journal":
            sink, tail.where = log_sinks.Journal({"SYSLOG_IDENTIFIER": ident, "SEBRAKT_ID": ident, "SEBRAKT_RUN": number, "SEBRAKT_NODE": self.name}), "journal"
        else:
            tail.where, size = os.path.abspath(self.path(ident)), kind_keys.size_of(kind.log.get("size", SIZE))
            sink = log_sinks.File(tail.where, size, kind.log.get("keep", KEEP), None if tail.end else tail.take_before)
        return Stream(self, number, tail, sink, ends or pipe())

    def keep_few(self):
        """Forgets the lines of children that have said nothing for longest, where there are many."""
        size = sum(len(tail.before) + len(tail.text) for tail in self.tails.values())
        for ident, tail in sorted(self.tails.items(), key=lambda one: one[1].said_at) if size > MOST else ():
            if size > MOST // 2:
                size -= len(tail.before) + len(tail.text)
                tail.forget()
                if tail.streams == 0:
                    del self.tails[ident]

    def state(self):
        fault = self.writer.state(seconds())
        return f"lines of children aren't kept: {fault}" if fault else ""

    def tick(self, now):
        state = self.state()
        if bool(state) != bool(self.told):
            self.log("logs:", state or f"lines of children are kept again; {self.writer.lost} bytes were not")
        self.told = state
        if now >= self.look_at:
            self.look_at = now + LOOK_EACH
            self.keep_few()

    def lines(self, ident, count, at=None):
        """The last lines of a child, or those behind a place, as a value of JSON. None where nothing of it is here."""
        tail = self.tails.get(ident)
        if tail is None:
            return None
        text, lost = tail.since(at)
        lines = text.decode("utf-8", "replace").split("\n")[:-1]
        return {"lines": lines[max(0, len(lines) - count):], "at": tail.end, "lost": lost, "where": tail.where}

    def close(self):
        self.writer.end()


class Stream:
    """The output of one run, over a pipe: the end that is read, None once that came to its end, and the run's own, None once it has that."""

    def __init__(self, logs, number, tail, sink, ends):
        self.logs, self.number, self.tail, self.sink, self.rest = logs, number.encode("ascii"), tail, sink, b""
        self.pipe, self.output = ends
        tail.streams += 1
        if self.pipe is not None:
            os.set_blocking(self.pipe, False)
            logs.loop.register(self.pipe, selectors.EVENT_READ, lambda _: self.read())

    def has_begun(self):
        """The run has the other end, and nobody else."""
        os.close(self.output)
        self.output = None

    def read(self):
        """Whether there may be more."""
        try:
            chunk = os.read(self.pipe, CHUNK)
        except BlockingIOError:
            return False
        if not chunk:
            self.logs.loop.unregister(self.pipe)
            os.close(self.pipe)
            self.pipe = None
            return False
        whole, line_feed, self.rest = (self.rest + chunk).rpartition(b"\n")
        if line_feed:
            self.take(whole)
        while len(self.rest) > LONGEST:
            self.take(self.rest[:LONGEST])
            self.rest = self.rest[LONGEST:]
        return True

    def take(self, lines):
        """Takes lines with line feeds between them."""
        if isinstance(self.sink, log_sinks.Journal):
            self.logs.writer.put(self.sink, lines + b"\n")
        head = moment(time.time()).encode("ascii") + b" " + self.number + b" "
        text = head + lines.replace(b"\n", b"\n" + head) + b"\n"
        self.tail.add(text)
        if not isinstance(self.sink, log_sinks.Journal):
            self.logs.writer.put(self.sink, text)

    def close(self):
        """Takes what the run has left in the pipe."""
        if self.output is not None:
            self.has_begun()
        for _ in range(CHUNKS_AT_END):
            if self.pipe is None or not self.read():
                break
        if self.pipe is not None:
            self.logs.loop.unregister(self.pipe)
            os.close(self.pipe)
            self.pipe = None
        if self.rest:
            self.take(self.rest)
            self.rest = b""
        self.tail.streams -= 1
        self.logs.writer.put(self.sink, None)
