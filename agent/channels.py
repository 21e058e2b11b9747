"""Channels of a server by which machines reach one another: whoever listens at a channel hears what is published there from then on.

Each has `listen(names)`, which gives None once it listens, and then (channel, line), and which raises where the server goes away or is silent; and
`publish(channel, line)`, which raises where the line may not have left.
"""
import json
import re
import socket
import time
import urllib.parse

DEAD = 5  # seconds of silence of a connection
CONNECT_TIME = 2
NATS_PORT = 4222
MESSAGE = re.compile(rb"MSG (\S+) \S+ (?:\S+ )?(\d+)")


def of_url(url):
    """A maker of channels at a server, each with connections of its own. ImportError without python3-redis; ValueError where the server is of no kind."""
    kind = urllib.parse.urlsplit(url).scheme
    if kind == "nats":
        return lambda: Nats(url)
    if kind not in ("redis", "rediss", "unix"):
        raise ValueError(f"{url}: neither redis://HOST:PORT nor nats://HOST:PORT")
    import redis
    return lambda: Redis(redis.Redis.from_url(url, socket_connect_timeout=CONNECT_TIME, socket_timeout=DEAD))


class Redis:
    def __init__(self, client):
        self.client = client

    def listen(self, names):
        channels = self.client.pubsub(ignore_subscribe_messages=True)
        channels.subscribe(*names)
        yield None
        for message in channels.listen():
            yield message["channel"].decode(), message["data"]

    def publish(self, channel, line):
        self.client.publish(channel, line)


class TooLong(OSError):
    """A line that the server takes from nobody."""


class Nats:
    """By the text protocol of NATS, whose subjects the names of channels are."""

    def __init__(self, url):
        self.url, self.link, self.lines, self.most = urllib.parse.urlsplit(url), None, None, 0
        self.asked_at = None  # since when an answer of the server is waited for

    def connect(self):
        """Begins a connection. OSError where the server isn't there, or refuses it."""
        self.close()
        self.link = socket.create_connection((self.url.hostname, self.url.port or NATS_PORT), CONNECT_TIME)
        self.link.settimeout(DEAD)
        self.link.setsockopt(socket.IPPROTO_TCP, socket.TCP_NODELAY, 1)
        self.lines = self.link.makefile("rb")
        told = self.line()
        if not told.startswith(b"INFO "):
            raise OSError("what answers there is no NATS server")
        self.most = json.loads(told[5:]).get("max_payload", 1 << 20)
        who = {key: urllib.parse.unquote(word) for key, word in (("user", self.url.username), ("pass", self.url.password)) if word}
        self.say(b"CONNECT " + json.dumps({"verbose": False, "pedantic": False, **who}).encode() + b"\r\nPING\r\n")
        while self.line() != b"PONG":
            pass

    def line(self):
        """What the server says next, but for what asks whether this side lives. OSError where it refuses, or ends."""
        while True:
            told = self.lines.readline().rstrip(b"\r\n")
            if not told or told.startswith(b"-ERR"):
                raise OSError(told.decode("ascii", "replace") or "the server has ended the connection")
            if told != b"PING":
                return told
            self.say(b"PONG\r\n")

    def say(self, what):
        self.link.sendall(what)

    def listen(self, names):
        self.connect()
        for number, name in enumerate(names):
            self.say(f"SUB {name} {number}\r\n".encode())
        yield None
        while True:
            message = MESSAGE.fullmatch(self.line())
            if message:
                line = self.lines.read(int(message[2]) + 2)
                yield message[1].decode("ascii", "replace"), line[:-2]

    def publish(self, channel, line):
        if self.link is None:
            try:
                self.connect()
            except Exception:
                self.close()  # half a connection is none
                raise
        line = line.encode() if isinstance(line, str) else line
        if len(line) > self.most:
            raise TooLong(f"a line of {len(line)} bytes: the server's max_payload is {self.most}")
        try:
            self.answer()
            asks = b"" if self.asked_at is not None else b"PING\r\n"
            self.asked_at = self.asked_at if self.asked_at is not None else time.monotonic()
            self.say(f"PUB {channel} {len(line)}\r\n".encode() + line + b"\r\n" + asks)
        except OSError:
            self.close()
            raise

    def answer(self):
        """Answers what the server has asked meanwhile, and takes its answers. OSError where it has ended, or is silent."""
        self.link.setblocking(False)
        try:
            while True:
                come = self.link.recv(4096)
                if not come:
                    raise OSError("the server has ended the connection")
                if b"-ERR" in come:
                    raise OSError(come[come.index(b"-ERR"):].partition(b"\r\n")[0].decode("ascii", "replace"))
                if b"PONG" in come:
                    self.asked_at = None
                if b"PING" in come:
                    self.link.settimeout(DEAD)
                    self.say(b"PONG\r\n")
                    self.link.setblocking(False)
        except BlockingIOError:
            if self.asked_at is not None and time.monotonic() - self.asked_at > DEAD:
                raise OSError("the server is silent") from None
        finally:
            self.link.settimeout(DEAD)

    def close(self):
        if self.link is not None:
            self.lines.close()
            self.link.close()
            self.link = self.asked_at = None
