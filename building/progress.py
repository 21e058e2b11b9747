"""What is under way, told on standard error."""
import sys
import time


class Progress:
    """On a terminal one line, written again as it goes on; elsewhere a line for each new thing. The time gone by stands in front."""

    def __init__(self, name, unit="s", seconds=1):
        self.name = name
        self.unit = unit
        self.seconds = seconds
        self.began = time.monotonic()
        self.is_terminal = sys.stderr.isatty()
        self.told = None

    def show(self, what):
        """Tells what is under way now. It is to be called again while that lasts."""
        gone = int((time.monotonic() - self.began) / self.seconds)
        line = f"{self.name}: {gone} {self.unit}: {what}"
        if self.is_terminal:
            print(f"\r{line}\x1b[K", end="", file=sys.stderr, flush=True)
        elif what != self.told:
            print(line, file=sys.stderr, flush=True)
        self.told = what

    def close(self):
        """Ends the line, so that what comes next begins a new one."""
        if self.is_terminal and self.told is not None:
            print(file=sys.stderr, flush=True)
        self.told = None

    def tell(self, what):
        """Tells something that lasts no time, in a line of its own."""
        self.close()
        print(f"{self.name}: {what}", file=sys.stderr, flush=True)
