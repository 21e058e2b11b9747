"""Lines over TCP: one connection that each machine makes to each other one, and connections of those who ask.

Whoever accepts a connection says `hello NAME CHALLENGE` first, and all that comes over it is sealed under that challenge. A machine that has made
one says `hello CHALLENGE` over it, sealed, and what it is told over it is sealed under this. So lines go both ways over each connection. One that
hasn't brought one right line may hold few bytes and a few seconds, so that strangers cost little. Who is refused is told why, and no more.
"""
import resource
import selectors
import socket

import seals
import wires
from clock import seconds

MOST_HELD = 128 << 20  # bytes of lines that have not come whole, of all connections
MOST_CALLERS = 400    # connections that were accepted, or half as many as the files that a process may have open
STRANGERS_TIME = 5    # seconds until the first right line
MOST_UNSENT = 4 << 20  # bytes to a machine, behind which no further letter is taken; or to who asks


class TcpWay:
    """A connection with a process of another machine."""

    def __init__(self, name, mark, wire, seal, is_own):
        self.name, self.mark, self.wire, self.seal, self.is_own = name, mark, wire, seal, is_own

    @property
    def came(self):
        return self.wire.came

    @property
    def said(self):
        return self.wire.said

    def say(self, text):
        self.wire.send(self.seal.line(text))

    def is_ready(self):
        return len(self.wire.unsent) <= MOST_UNSENT

    def close(self):
        self.wire.close()


class Caller:
    """A connection that was accepted: of somebody who asks, or of a machine, and then a way to it."""

    def __init__(self, server, link, host):
        self.server, self.host, self.since, self.known = server, host, seconds(), False
        self.guard, self.answers, self.way = seals.Guard(server.secret, server.name, seals.fresh()), {}, None  # of each session that asks what seals its answers
        self.by = ""  # who asks, by his own word
        self.wire = wires.Wire(server.loop, link, self.heard, self.lost, wires.OF_STRANGERS)
        server.callers.add(self)
        self.wire.send(f"hello {server.name} {self.guard.challenge}")

    def heard(self, line):
        try:
            sender, session, text = self.guard.open(line)
            if sender == seals.CLIENT:
                self.take_question(session, text)
            else:
                self.take_line(sender, session, text)
        except seals.Refused as refusal:
            self.wire.close(str(refusal))
            return
        self.known, self.wire.longest = True, wires.LONGEST

    def take_question(self, session, text):
        word, _, line = text.partition(" ")
        if word == "ask":
            self.server.hearer.asked(line, lambda lines: self.answer(session, lines), self.by, self.host)
        elif word == "hello":
            self.by = line
        else:
            raise seals.Refused("no question")

    def answer(self, session, lines):
        """Answers one who asked, by lines sealed under the session that it named. Who reads no answers is given no more."""
        if len(self.wire.unsent) > MOST_UNSENT:
            self.wire.close("reads no answers")
        seal = self.answers.setdefault(session, seals.Seal(self.server.secret, self.server.name, self.guard.challenge, seals.CLIENT, session))
        for line in lines:
            self.wire.send(seal.line("line " + line))
        self.wire.send(seal.line("end"))

    def take_line(self, sender, session, text):
        if self.way is None:
            self.way = self.server.way_of(sender, session, text, self.wire)
            self.way.say("hello")
            if self.wire.open:  # else it was lost meanwhile
                self.server.ways.add(self.way)
        elif (sender, session) != (self.way.name, self.way.mark):
            raise seals.Refused("another machine's line")
        elif text != "hello":
            self.server.hearer.take(sender, session, text)

    def lost(self, why):
        if why:
            self.server.hearer.refuse(self.host, why)
        self.server.callers.discard(self)
        if self.way is not None:
            self.server.ways.drop(self.way)


class Server:
    """Accepts connections at an address. The hearer has `asked(line, answer, by, whence)`, `take(sender, mark, text)` and `refuse(where, why)`."""

    def __init__(self, loop, address, name, mark, secret, hearer, file=None):
        """`file` is a socket that listens there already. OSError where the address can't be had."""
        self.loop, self.name, self.mark, self.secret, self.hearer = loop, name, mark, secret, hearer
        self.ways, self.known = None, ()  # where this server's connections are ways, too: these, of these machines
        self.callers, self.most = set(), min(MOST_CALLERS, resource.getrlimit(resource.RLIMIT_NOFILE)[0] // 2)
        self.socket = wires.listen(address, 128, file)
        self.listens(True)

    def listens(self, whether):
        """Takes connections, or takes none for a while: who connects then waits."""
        if whether != (self.socket in self.loop.get_map()):
            self.loop.register(self.socket, selectors.EVENT_READ, self.accept) if whether else self.loop.unregister(self.socket)

    def way_of(self, sender, mark, text, wire):
        """The way to a machine that has begun a connection by `hello CHALLENGE`. Refused where it is none."""
        word, _, challenge = text.partition(" ")
        may_come_later = self.ways is not None and self.secret is not None and sender != self.name  # who has the secret and no peer's name
        if not (sender in self.known or may_come_later) or word != "hello" or not seals.SESSION.fullmatch(challenge):
            raise seals.Refused("no line of a machine of this cluster")
        return TcpWay(sender, mark, wire, seals.Seal(self.secret, self.name, self.mark, sender, challenge), False)

    def accept(self, _):
        for _ in range(self.most // 2):
            try:
                link, address = self.socket.accept()
            except OSError:
                break
            link.setsockopt(socket.IPPROTO_TCP, socket.TCP_NODELAY, 1)
            link.setsockopt(socket.SOL_SOCKET, socket.SO_KEEPALIVE, 1)
            for option, value in (socket.TCP_KEEPIDLE, 60), (socket.TCP_KEEPINTVL, 10), (socket.TCP_KEEPCNT, 6):
                link.setsockopt(socket.IPPROTO_TCP, option, value)
            Caller(self, link, address[0])
        self.have_fewer()

    def have_fewer(self):
        """Closes what is too many: connections of strangers first, and of these the oldest."""
        more = len(self.callers) - self.most
        if more > 0:
            for caller in sorted(self.callers, key=lambda caller: (caller.known, caller.since))[:more]:
                caller.wire.close("too many connections")

    def tick(self, now):
        for caller in [caller for caller in self.callers if not caller.known and now - caller.since > STRANGERS_TIME]:
            caller.wire.close("said nothing")
        while sum(len(caller.wire.come) for caller in self.callers) > MOST_HELD:
            max(self.callers, key=lambda caller: len(caller.wire.come)).wire.close("too many bytes")

    def close(self):
        self.listens(False)
        self.socket.close()
        for caller in list(self.callers):
            caller.wire.close()
