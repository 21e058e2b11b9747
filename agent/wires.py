"""Connections whose bytes are cut into lines. Nothing here waits: the loop's selector tells what can be read and written."""
import ipaddress
import selectors
import socket

from clock import seconds

LONGEST = 64 << 20    # bytes of a line
OF_STRANGERS = 4096   # bytes of a line, as long as no right one came
CHUNK = 1 << 18
CHUNKS = 32  # that are read in one turn of one connection
REFUSED = "refused "  # how the last line begins that isn't sealed


def address_of(text):
    """A host and a port. ValueError where the text is none."""
    host, colon, port = text.rpartition(":")
    if not colon or not port.isdecimal() or not 0 < int(port) < 65536:
        raise ValueError(f"{text}: not of the form HOST:PORT")
    return host.strip("[]"), int(port)


def address_in_numbers(text):
    """The address that a text is, if it needs no look-up; else None."""
    try:
        host, port = address_of(text)
        return str(ipaddress.ip_address(host)), port
    except ValueError:
        return None


def family_of(address):
    return socket.AF_INET6 if ":" in address[0] else socket.AF_INET


def listen(address, backlog, file=None):
    """A socket that listens at an address; `file` is one that does already. OSError where the address can't be had."""
    listening = socket.create_server(address, family=family_of(address), backlog=backlog) if file is None else socket.socket(fileno=file)
    listening.setblocking(False)
    return listening


class Wire:
    """A connection: `heard` is called with each line that comes, without its line feed, `lost` once when it ends."""

    def __init__(self, loop, link, heard, lost, longest):
        self.loop, self.link, self.heard, self.lost, self.longest = loop, link, heard, lost, longest
        self.come, self.unsent, self.open = bytearray(), bytearray(), True
        self.came = self.said = seconds()  # when bytes came last, and when a line was said
        link.setblocking(False)
        loop.register(link, selectors.EVENT_READ, self.ready)

    def ready(self, events):
        if self.open and events & selectors.EVENT_WRITE:
            self.write()
        if self.open and events & selectors.EVENT_READ:
            self.read()

    def read(self):
        """Takes what has come; from one who is known more than one chunk, so that a loop whose turns are long keeps up."""
        for _ in range(CHUNKS if self.longest == LONGEST else 1):
            if not (self.open and self.read_chunk()):
                return

    def read_chunk(self):
        """Whether there may be more."""
        try:
            chunk = self.link.recv(min(CHUNK, 4 * self.longest))  # of a stranger little: nothing else happens until it is cut
        except BlockingIOError:
            return False
        except OSError:
            chunk = b""
        if not chunk:
            self.close()
            return False
        self.came = seconds()
        self.take(chunk)
        return len(chunk) == CHUNK

    def take(self, chunk):
        *lines, rest = chunk.split(b"\n")
        for line in lines:
            self.come += line
            line, self.come = bytes(self.come), bytearray()
            self.cut(line)
            if not self.open:
                return  # and nothing of it is kept
        self.come += rest
        if len(self.come) > self.longest:
            self.close("too long")

    def cut(self, line):
        if len(line) > self.longest:
            self.close("too long")
        else:
            self.heard(line)

    def send(self, line):
        """Sends a line, now or as soon as it goes."""
        if not self.open:
            return
        self.said = seconds()
        self.unsent += line.encode("ascii") + b"\n"
        if len(self.unsent) > 2 * LONGEST:
            self.close("too slow")
        else:
            self.write()

    def write(self):
        try:
            sent = self.link.send(self.unsent) if self.unsent else 0
        except BlockingIOError:
            sent = 0
        except OSError:
            self.close()
            return
        del self.unsent[:sent]
        self.loop.modify(self.link, selectors.EVENT_READ | (selectors.EVENT_WRITE if self.unsent else 0), self.ready)

    def close(self, why=None):
        """Ends it. The other end is told the reason, if there is one, and that leaves at once."""
        if self.open:
            if why and not self.unsent:
                self.tell(REFUSED + why)
            self.open, self.come, self.unsent = False, bytearray(), bytearray()
            self.loop.unregister(self.link)
            self.link.close()
            self.lost(why)

    def tell(self, line):
        try:
            self.link.send(line.encode("ascii") + b"\n")
        except OSError:
            pass
