"""Lines that carry who says them, sealed by a secret that all machines of a cluster share.

A sealed line is `SENDER SESSION COUNT SEAL TEXT`. The seal is HMAC-SHA-256, in hexadecimal, over the receiver's challenge, the receiver, and
the line's other words. The challenge is made anew by whoever receives, so a line that was said to somebody else, or to an earlier process, is
refused; and of each session of each sender the counts only rise, so a line that comes twice is refused the second time. Lines may be lost.
Nothing is hidden by this: whoever sees the network reads all lines.
"""
import hashlib
import hmac
import itertools
import os
import re
import secrets

CLIENT = "?"  # who asks and is no machine: no node has this name
WITHOUT_SECRET = "-"
LEAST_SECRET = 16  # bytes
WRONG_SEAL = "wrong seal"
SENDER = re.compile(r"[a-z0-9_-]{1,64}|\?")
SESSION = re.compile(r"[0-9a-f]{32}")
COUNT = re.compile(r"[1-9][0-9]{0,15}")


class Refused(Exception):
    """A line that nobody with the secret said, or that was said to somebody else or before."""


class BadSecret(Exception):
    """A file that can't be a secret: the reason."""


def fresh():
    """A challenge, or the name of a session: 128 bits at random, in hexadecimal."""
    return secrets.token_hex(16)


def read_secret(path):
    """The secret in a file, without white space round it; None without a path. BadSecret where others may read it, or it is short."""
    if path is None:
        return None
    try:
        with open(path, "rb") as file:
            others_may = os.fstat(file.fileno()).st_mode & 0o077
            secret = file.read(4096).strip()
    except OSError as fault:
        raise BadSecret(f"{path}: {fault.strerror}") from None
    if others_may:
        raise BadSecret(f"{path}: others than its owner may use it (chmod 600 {path})")
    if len(secret) < LEAST_SECRET:
        raise BadSecret(f"{path}: a secret has at least {LEAST_SECRET} bytes")
    return secret


def seal_of(secret, challenge, to, sender, session, count, text):
    if secret is None:
        return WITHOUT_SECRET
    said = " ".join([challenge, to, sender, session, count, text])
    return hmac.new(secret, said.encode("ascii"), hashlib.sha256).hexdigest()


class Seal:
    """Seals what one sender says to one receiver, under the receiver's challenge."""

    def __init__(self, secret, sender, session, to, challenge, counts=None):
        """`counts` gives the counts, where several seals of one session may be under one challenge."""
        self.secret, self.sender, self.session, self.to, self.challenge = secret, sender, session, to, challenge
        self.counts = counts or itertools.count(1)

    def line(self, text):
        """The sealed line of a text of visible ASCII and spaces, without a line feed."""
        count = str(next(self.counts))
        seal = seal_of(self.secret, self.challenge, self.to, self.sender, self.session, count, text)
        return f"{self.sender} {self.session} {count} {seal} {text}"


class Guard:
    """Opens lines that are sealed for one receiver under its challenge, each once."""

    def __init__(self, secret, receiver, challenge, misses_none=False):
        """`misses_none`: a line before which another one is missing is refused, too."""
        self.secret, self.receiver, self.challenge, self.misses_none = secret, receiver, challenge, misses_none
        self.counts = {}  # of each session of each sender, the greatest count that came

    def open(self, line):
        """Who said a line (bytes), in which session, and its text. Refused, with the reason, for any other."""
        sender, session, count, seal, text = words_of(line)
        right = seal_of(self.secret, self.challenge, self.receiver, sender, session, count, text)
        if not hmac.compare_digest(seal.encode("ascii"), right.encode("ascii")):
            raise Refused(WRONG_SEAL)
        last = self.counts.get((sender, session), 0)
        if int(count) <= last:
            raise Refused("said before")
        if self.misses_none and int(count) > last + 1:
            raise Refused("a line before it is missing")
        self.counts[sender, session] = int(count)
        return sender, session, text


def words_of(line):
    try:
        words = line.decode("ascii").split(" ", 4)
    except UnicodeDecodeError:
        raise Refused("no text") from None
    if not (len(words) == 5 and SENDER.fullmatch(words[0]) and SESSION.fullmatch(words[1]) and COUNT.fullmatch(words[2]) and words[4].isprintable()):
        raise Refused("no sealed line")
    return words
