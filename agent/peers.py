"""The connections that a machine makes to others: to its peers, and to members whose labels are addresses, which it has heard of by any of these."""
import socket

import seals
import wires
from clock import seconds
from links import TcpWay
from ways import Ways


class Peer:
    """The connection that this machine makes to another one, begun anew where it is lost. It is a way once a right line came over it."""

    def __init__(self, links, name, address):
        self.links, self.name, self.address = links, name, address
        self.wire, self.seal, self.guard, self.way, self.again_at = None, None, None, None, 0

    def tick(self, now):
        if self.wire is None and now >= self.again_at:
            self.again_at = now + min(0.5, self.links.silent / 4)
            self.connect()
        elif self.wire is not None and self.way is None and now - self.wire.said > self.links.silent:
            self.wire.close()

    def connect(self):
        """Begins a connection, to an address in numbers, since a look-up may wait."""
        try:
            link = socket.socket(wires.family_of(self.address), socket.SOCK_STREAM)
        except OSError:
            return
        link.setblocking(False)
        link.setsockopt(socket.IPPROTO_TCP, socket.TCP_NODELAY, 1)
        link.setsockopt(socket.IPPROTO_TCP, socket.TCP_USER_TIMEOUT, int(self.links.silent * 1000))
        try:
            link.connect(self.address)
        except BlockingIOError:
            pass
        except OSError:
            link.close()
            return
        self.wire = wires.Wire(self.links.loop, link, self.heard, self.lost, wires.OF_STRANGERS)

    def heard(self, line):
        if self.seal is None:
            self.greet(line.decode("ascii", "replace").split(" "))
        else:
            try:
                self.take(*self.guard.open(line))
            except seals.Refused as refusal:
                self.refuse(line.decode("ascii", "replace"), str(refusal))

    def greet(self, words):
        if not (len(words) == 3 and words[:2] == ["hello", self.name] and seals.SESSION.fullmatch(words[2])):
            self.links.log(f"what answers at the address of {self.name} says no hello of it")
            self.give_up()
            return
        me, challenge = self.links.server, seals.fresh()
        self.seal, self.guard = seals.Seal(me.secret, me.name, me.mark, self.name, words[2]), seals.Guard(me.secret, me.name, challenge)
        self.wire.send(self.seal.line("hello " + challenge))  # a short line: until a right one has come a long one is taken for a stranger's

    def take(self, sender, mark, text):
        if sender != self.name or self.way is not None and mark != self.way.mark:
            raise seals.Refused("another machine's line")
        if self.way is None:
            self.way, self.wire.longest = TcpWay(self.name, mark, self.wire, self.seal, True), wires.LONGEST
            self.links.ways.add(self.way)
        if text != "hello":
            self.links.server.hearer.take(sender, mark, text)

    def refuse(self, line, why):
        """A line without a right seal: who was refused for its own seal hasn't the secret of that machine."""
        if self.way is None and seals.WRONG_SEAL in (why, line.removeprefix(wires.REFUSED)):
            self.links.server.hearer.unsealed(self.name)
        self.links.server.hearer.refuse(self.name, f"refused by {self.name}" if line.startswith(wires.REFUSED) else why)
        self.give_up()

    def give_up(self):
        self.again_at = seconds() + 5
        self.wire.close()

    def close(self):
        if self.wire is not None:
            self.wire.close()

    def lost(self, _):
        if self.way is not None:
            self.links.ways.drop(self.way)
        self.wire = self.seal = self.guard = self.way = None


class TcpLinks:
    """All connections between this machine and the others, each of which has an address. The hearer has `link(name, is_up)` and `unsealed(name)`, too."""

    def __init__(self, loop, addresses, server, silent, every, log):
        self.loop, self.server, self.silent, self.log = loop, server, silent, log
        self.ways = server.ways = Ways(silent, every, server.hearer.link)
        server.known = set(addresses)
        self.peers = [Peer(self, name, address) for name, address in addresses.items()]
        self.learned = {}  # of machines that are no peers, and of which a label has told the address
        self.labels = {}   # of each group those of its members

    def handed(self):
        """Connections belong to one program: another one makes its own."""

    def known(self):
        """The machines to which there are to be connections, whatever is heard of others."""
        return [peer.name for peer in self.peers]

    def learn(self, group, labels):
        """Takes the labels of a group's members. A member that is no peer, and whose label is an address, is connected to. Only who has the secret makes a
        member, so without one nothing is learned."""
        if self.server.secret is None or self.labels.get(group) == labels:
            return
        self.labels[group] = labels
        of_members = {name: label for of_group in self.labels.values() for name, label in of_group.items()}
        known = {self.server.name, *self.known()}
        wanted = {name: wires.address_in_numbers(label) for name, label in of_members.items() if name not in known}
        for name, peer in list(self.learned.items()):
            if wanted.get(name) != peer.address:
                self.learned.pop(name).close()
        for name, address in wanted.items():
            if address is not None and name not in self.learned:
                self.learned[name] = Peer(self, name, address)

    def tell(self, name, text):
        """Says something to a machine, whatever waits to leave before it."""
        self.ways.tell(name, text, seconds())

    def send(self, name, text):
        """Says something to a machine, if it would leave soon."""
        self.ways.send(name, text, seconds())

    def all_peers(self):
        return [*self.peers, *self.learned.values()]

    def tick(self, now):
        for peer in self.all_peers():
            peer.tick(now)
        self.ways.tick(now)

    def close(self):
        for peer in self.all_peers():
            peer.close()
