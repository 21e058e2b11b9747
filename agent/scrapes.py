"""Answers `GET /metrics` over HTTP at an address of its own, in the agent's loop. Whoever reaches the address may ask, and can do nothing else: what
is told has no id, argument or label.
"""
import selectors

import metrics
import wires
from clock import seconds

MOST = 50  # connections; of more the oldest gives way
TIME = 10  # seconds that one may take
LINES = 200  # of a question
HEAD = "HTTP/1.0 {}\r\nContent-Type: {}\r\nContent-Length: {}\r\nConnection: close\r\n\r\n"


class Scrape(wires.Wire):
    """A connection, over which one question comes."""

    def __init__(self, loop, link, ask, closed):
        self.ask, self.first, self.is_answered, self.since, self.lines = ask, None, False, seconds(), 0
        super().__init__(loop, link, self.hear, lambda why: closed(self), wires.OF_STRANGERS)

    def hear(self, line):
        """A line of the question, which an empty one ends."""
        self.lines += 1
        if self.lines > LINES:
            self.close("too long")
        elif self.first is None:
            self.first = line.split(b" ")
        elif line.strip() == b"" and not self.is_answered:
            self.is_answered = True
            if self.first[0] == b"GET" and self.first[1:2] and self.first[1].partition(b"?")[0] == b"/metrics":
                self.ask(lambda lines: self.answer("200 OK", metrics.KIND, "\n".join(lines) + "\n"))
            else:
                self.answer("404 Not Found", "text/plain", "GET /metrics\n")

    def answer(self, status, kind, text):
        self.send((HEAD.format(status, kind, len(text)) + text).removesuffix("\n"))  # to which a line feed is put
        self.end()

    def write(self):
        super().write()
        self.end()

    def end(self):
        if self.open and self.is_answered and not self.unsent:
            self.close()

    def tell(self, line):
        """Who says too much is told nothing."""


class Scrapes:
    def __init__(self, loop, address, ask, file=None):
        """`ask(answer)` has the lines told; `file` is a socket that listens at the address already. OSError where that can't be had."""
        self.loop, self.ask, self.all = loop, ask, []
        self.socket = wires.listen(address, MOST, file)
        loop.register(self.socket, selectors.EVENT_READ, self.accept)

    def accept(self, _):
        try:
            link, _ = self.socket.accept()
        except OSError:
            return
        self.all.append(Scrape(self.loop, link, self.ask, self.all.remove))
        if len(self.all) > MOST:
            self.all[0].close()

    def tick(self, now):
        for one in [one for one in self.all if now - one.since > TIME]:
            one.close()

    def close(self):
        self.loop.unregister(self.socket)
        self.socket.close()
        for one in list(self.all):
            one.close()
