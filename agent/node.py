"""A node: the proved program `supd`, which answers each line by some lines and an empty one, over two pipes.

Nothing waits for it. Lines that it is asked leave as soon as they can be written; each answer that has come whole is told, in the order of the
lines; its end is told once.
"""
import collections
import os
import selectors
import signal
import subprocess

import processes
from clock import seconds

FIRST_ANSWER = 60  # seconds in which a node begins: it reads its whole image
ENDS_WITHIN = 0.2  # seconds between the end of its answers and its own, after which it is killed
LOOK_EACH = 0.02   # seconds between two looks whether it has ended
STUCK_FOR = 1      # seconds from its kill on, after which it is gone though the system still has it: it waits for a disk
CHUNK = 1 << 20
MOST_SAID = 2000   # bytes of what it prints to its standard error that are kept


class Node:
    """A node that begins. `began(lines)` is called with its first answer, which comes unasked, and `gone(why)` once when it has ended."""

    def __init__(self, words, loop, began, gone):
        """OSError where there is no such program."""
        self.loop, self.began, self.gone = loop, began, gone
        self.process = processes.begin(words, stdin=subprocess.PIPE, stdout=subprocess.PIPE, stderr=subprocess.PIPE)
        self.input, self.output, self.errors = self.process.stdin.fileno(), self.process.stdout.fileno(), self.process.stderr.fileno()
        self.heard, self.looked, self.unsaid, self.printed = bytearray(), 0, bytearray(), ""
        self.asked = collections.deque()  # who takes the answer of each line that was asked
        self.has_begun, self.is_open, self.begin_until, self.end_at, self.why = False, True, seconds() + FIRST_ANSWER, None, None
        for pipe in (self.input, self.output, self.errors):
            os.set_blocking(pipe, False)
        loop.register(self.output, selectors.EVENT_READ, lambda _: self.read())
        loop.register(self.errors, selectors.EVENT_READ, lambda _: self.read_errors())

    def ask(self, line, then):
        """Asks a line of visible ASCII and single spaces; `then` takes the lines of its answer, or is never called where the node ends before."""
        self.asked.append(then)
        is_idle = not self.unsaid
        self.unsaid += line.encode("ascii") + b"\n"
        if is_idle:
            self.write()

    def write(self):
        if not self.is_open:
            return
        try:
            del self.unsaid[:os.write(self.input, self.unsaid)]
        except BlockingIOError:
            pass
        except OSError:
            self.unsaid = bytearray()  # it has ended, which its output tells
        is_waiting = self.input in self.loop.get_map()
        if self.unsaid and not is_waiting:
            self.loop.register(self.input, selectors.EVENT_WRITE, lambda _: self.write())
        elif is_waiting and not self.unsaid:
            self.loop.unregister(self.input)

    def read(self):
        try:
            come = os.read(self.output, CHUNK)
        except BlockingIOError:
            return
        except OSError:
            come = b""
        if not come:
            self.end_soon(seconds() + ENDS_WITHIN)
            return
        self.heard += come
        while self.is_open and (lines := self.next_answer()) is not None:
            self.take(lines)

    def next_answer(self):
        """The next answer that was heard whole, None where there is none."""
        end = 0 if self.heard.startswith(b"\n") else self.heard.find(b"\n\n", max(0, self.looked - 1)) + 1
        if end == 0 and not self.heard.startswith(b"\n"):
            self.looked = len(self.heard)
            return None
        lines = self.heard[:end].decode("ascii", "replace").splitlines()
        del self.heard[:end + 1]
        self.looked = 0
        return lines

    def take(self, lines):
        if not self.has_begun:
            self.has_begun = True
            self.began(lines)
        elif self.asked:
            self.asked.popleft()(lines)
        else:
            self.kill("it answers what nobody asked")

    def read_errors(self):
        """Keeps what it prints, which may tell why it ends."""
        try:
            come = os.read(self.errors, CHUNK)
        except BlockingIOError:
            return
        except OSError:
            come = b""
        if not come:
            self.loop.unregister(self.errors)
        self.printed = (self.printed + come.decode("ascii", "replace"))[-MOST_SAID:]

    def kill(self, why):
        """Ends it at once: for this reason it is no use any more."""
        self.why = self.why or why
        self.process.kill()
        self.end_soon(seconds())

    def end_soon(self, moment):
        """No more of it is taken; it is killed at a moment, unless it has ended by itself."""
        if self.is_open:
            self.is_open, self.end_at = False, moment
            for pipe in (self.output, self.input):
                if pipe in self.loop.get_map():
                    self.loop.unregister(pipe)

    def tick(self, now):
        """Notices its end, and that it doesn't begin."""
        if self.is_open and not self.has_begun and now > self.begin_until:
            self.kill("it doesn't begin")
        if self.is_open:
            return
        if self.process.poll() is None and now >= self.end_at + STUCK_FOR:
            self.process.returncode = -signal.SIGKILL  # so it will end, and is reaped then as orphans are; its image stays locked until then
        if self.process.returncode is not None:
            self.close_pipes()
            self.gone(self.why_gone())
        elif now >= self.end_at:
            self.process.kill()

    def next_moment(self, now):
        """When it wants a `tick`, None where something wakes the loop before."""
        if self.is_open:
            return None if self.has_begun else self.begin_until
        return now + LOOK_EACH

    def why_gone(self):
        """Its last words where it had some, else how it ended."""
        printed = "; ".join(self.printed.split("\n")).strip("; ")
        how = self.why or (f"status {self.process.returncode}" if self.process.returncode >= 0 else f"signal {-self.process.returncode}")
        return f"{how}: {printed}" if printed else how

    def close_pipes(self):
        if self.errors in self.loop.get_map():
            self.read_errors()
        if self.errors in self.loop.get_map():
            self.loop.unregister(self.errors)
        for pipe in (self.process.stdin, self.process.stdout, self.process.stderr):
            pipe.close()

    def close(self):
        """Lets the program end by the end of its input, at most for a second."""
        self.end_soon(seconds())
        for end in (self.process.stdin.close, self.process.kill):
            try:
                end()
                self.process.wait(1)
                break
            except (OSError, subprocess.TimeoutExpired):
                pass
        self.close_pipes()
