"""Lines over channels of a server, of Redis or NATS: machines need not know one another's addresses, nor names.

Each machine listens at `CLUSTER:to:NAME` and at `CLUSTER:all`. To all it says `hello`, sealed, by which they know its token: that is made anew by each
agent, is the challenge under which lines to it are sealed, and marks its own. A hello may be an old one that somebody says again; so it is answered by
a line under its token, and only who then says a line under this machine's own token is there, and has a way. Machines that have gone silent have none.
A hello that another secret has sealed is told once, since anybody may write there, and in any name.

Two threads move lines, and the loop is woken by a pipe. What can't be sent is dropped, as the network may do. Each second this machine hears
its own hello, if it is heard at all; so a connection over which nothing comes for some seconds is dead, and begun anew.
"""
import itertools
import os
import queue
import selectors
import threading
import time

import channels
import seals
from clock import seconds
from ways import Ways

HELLO_EACH = 1  # seconds between two hellos to all, and to a machine of which there is only a hello
MOST_WAITING = 4000  # lines that wait to leave
BUSY = 100  # lines that wait to leave, behind which no letters are taken
MOST_COME, MOST_BYTES = 10_000, 128 << 20  # lines that have come and wait to be opened, and their bytes; what comes beside them is lost
PIECE = 0.05  # seconds of a turn that are spent on them, since anybody may write there, without end
ALL = "all"


class ChannelWay:
    """The way to a process of another machine, whose token is known, and which has said a line under this machine's token."""

    def __init__(self, links, name, token):
        self.links, self.name, self.mark, self.is_own = links, name, token, True
        self.seal = seals.Seal(links.secret, links.me, links.token, name, token, links.counts)
        self.came = self.said = seconds()

    def say(self, text):
        self.said = seconds()
        self.links.put(self.name, self.seal.line(text))

    def is_ready(self):
        return self.links.leave.qsize() < BUSY

    def close(self):
        self.links.ways.drop(self)


class ChannelLinks:
    def __init__(self, loop, options, me, token, secret, hearer):
        """The hearer has `take(sender, mark, text)`, `link(name, is_up)`, `unsealed(name)`, `refuse(where, why)` and a `log`. ImportError or ValueError as
        of the channels."""
        self.channels, self.via = channels.of_url(options.via), options.via.partition(":")[0]
        self.cluster, self.me, self.secret, self.hearer = options.cluster, me, secret, hearer
        self.token, self.ways = token, Ways(max(channels.DEAD, options.silent), options.every, hearer.link)
        self.guard, self.greeter = seals.Guard(secret, me, token), seals.Seal(secret, me, token, ALL, ALL)
        self.counts = itertools.count(1)  # of all lines under a token: of one way after another to a machine, too, the counts only rise
        self.greeted, self.hello_at, self.is_open, self.state = {}, 0, True, ""  # of each token of a hello when it was answered
        self.has_told_unsealed, self.brought, self.opened = False, 0, 0  # bytes of lines: one thread counts what it brought, the loop what it opened
        self.come, self.leave = queue.Queue(MOST_COME), queue.Queue(MOST_WAITING)
        self.wake, self.woken = os.pipe()
        os.set_blocking(self.wake, False)
        os.set_blocking(self.woken, False)
        loop.register(self.wake, selectors.EVENT_READ, self.arrived)
        self.has_begun = False

    def begin(self):
        self.has_begun = True
        for work in (self.hear, self.publish):
            threading.Thread(target=work, daemon=True).start()

    def handed(self):
        """What another program needs to go on under this token: counts that only rise, and the ways that there are."""
        return {"count": next(self.counts), "heard": [[*whose, count] for whose, count in self.guard.counts.items()],
                "ways": [[way.name, way.mark] for ways in self.ways.of.values() for way in ways]}

    def go_on(self, handed):
        self.counts = itertools.count(handed["count"] + 1)
        self.guard.counts = {(name, token): count for name, token, count in handed["heard"]}
        for name, token in handed["ways"]:
            self.ways.add(ChannelWay(self, name, token))

    # -- the two threads

    def hear(self):
        to_all = f"{self.cluster}:{ALL}"
        while self.is_open:
            try:
                for message in self.channels().listen([f"{self.cluster}:to:{self.me}", to_all]):
                    self.bring(*((None, "listens") if message is None else (message[0] == to_all, message[1])))
            except Exception as fault:  # whatever a library raises, this thread goes on
                self.bring(None, str(fault))
                time.sleep(0.5)

    def bring(self, to_all, line):
        """Hands a line to the loop, and wakes it."""
        size = 0 if to_all is None else len(line)
        if self.brought - self.opened + size > MOST_BYTES:
            return
        try:
            self.come.put_nowait((to_all, line))
        except queue.Full:
            return
        if size:  # who brings a state, in the other thread, counts nothing
            self.brought += size
        self.wake_loop()

    def wake_loop(self):
        try:
            os.write(self.woken, b".")
        except OSError:
            pass

    def publish(self):
        server, told = self.channels(), ""
        while True:
            channel, line = self.leave.get()
            try:
                server.publish(channel, line)
                told = ""
            except channels.TooLong as fault:
                self.bring(None, str(fault))
            except Exception as fault:
                if str(fault) != told:  # once, since each line may fail
                    told = str(fault)
                    self.bring(None, f"no line leaves: {told}")
                time.sleep(0.1)

    # -- the loop's side

    def arrived(self, _):
        os.read(self.wake, 65536)
        until = seconds() + PIECE
        while not self.come.empty():
            self.open(*self.come.get())
            if seconds() > until:
                self.wake_loop()  # the rest is for the next turn
                return

    def open(self, to_all, line):
        if to_all is None:
            self.tell_state(line)
            return
        self.opened += len(line)
        try:
            self.hello(line) if to_all else self.line(line)
        except seals.Refused as refusal:
            self.hearer.refuse(self.via, refusal)

    def tell_state(self, state):
        if state != self.state:
            self.hearer.log(f"{self.via}:", state)
        self.state = state

    def line(self, line):
        sender, token, text = self.guard.open(line)
        if sender in (self.me, seals.CLIENT):
            raise seals.Refused("no line of another machine")
        way = self.way_of(sender, token)
        if way is None:
            way = ChannelWay(self, sender, token)
            self.ways.add(way)
            way.say("hello")
        way.came = seconds()
        if text != "hello":
            self.hearer.take(sender, token, text)

    def way_of(self, name, token):
        return next((way for way in self.ways.of.get(name, ()) if way.mark == token), None)

    def hello(self, line):
        """Answers the hello of a machine to which there is no way yet, so that it says a line under this machine's token."""
        try:
            sender, token, text = seals.Guard(self.secret, ALL, ALL).open(line)
        except seals.Refused as refusal:
            if str(refusal) == seals.WRONG_SEAL and not self.has_told_unsealed:
                self.has_told_unsealed = True
                self.hearer.unsealed(seals.words_of(line)[0])
            raise
        if text != "hello":
            raise seals.Refused("no hello")
        if sender in (self.me, seals.CLIENT) or self.way_of(sender, token):
            return
        if seconds() - self.greeted.get(token, 0) >= HELLO_EACH / 2:
            self.greeted[token] = seconds()
            ChannelWay(self, sender, token).say("hello")

    def put(self, name, line):
        try:
            self.leave.put_nowait((f"{self.cluster}:to:{name}" if name else f"{self.cluster}:{ALL}", line))
        except queue.Full:
            pass

    # -- what links offer

    def known(self):
        """Over channels any machine may show up."""
        return None

    def learn(self, group, labels):
        """Addresses tell nothing here."""

    def tell(self, name, text):
        self.ways.tell(name, text, seconds())

    def send(self, name, text):
        self.ways.send(name, text, seconds())

    def tick(self, now):
        if not self.has_begun:
            self.begin()
        self.ways.tick(now)
        self.greeted = {token: moment for token, moment in self.greeted.items() if now - moment < channels.DEAD}
        if now >= self.hello_at:
            self.hello_at = now + HELLO_EACH
            self.put(None, self.greeter.line("hello"))

    def close(self):
        self.is_open = False
