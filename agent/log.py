"""What an agent tells of itself, a line for each thing."""
import os
import select
import time

LONGEST = 2000  # bytes: so many go into a pipe at once or not at all


def moment(seconds):
    """A moment of the wall clock, in the time that all machines share (UTC), with its thousandths."""
    return time.strftime("%Y-%m-%dT%H:%M:%S", time.gmtime(seconds)) + f".{int(seconds * 1000) % 1000:03d}Z"


class Log:
    """Lines to standard error. One that can't be written now is dropped: a full disk, or a reader that has stopped, holds no child up."""

    def __init__(self, name, output=2):
        self.name, self.output = name, output

    def __call__(self, *words):
        line = " ".join([moment(time.time()), self.name, *map(str, words)])[:LONGEST] + "\n"
        poll = select.poll()
        poll.register(self.output, select.POLLOUT)
        try:
            if poll.poll(0):
                os.write(self.output, line.encode("ascii", "replace"))
        except OSError:
            pass

    def of(self, group):
        """What tells of a group."""
        return lambda *words: self("group", group, *words)
