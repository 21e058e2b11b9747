"""Whether a run is well: it is asked again and again by a program, by a connection, or by a question over HTTP."""
import errno
import os
import re
import selectors
import socket

import wires

NOT_READY = "not ready"  # how it begins what is told of a run that isn't
PERIOD, READY_PERIOD, TIMEOUT, FAILURES = 10, 1, 5, 3  # where the kind says nothing
OWN_FAULTS = {errno.EMFILE, errno.ENFILE, errno.ENOMEM, errno.EAGAIN}  # of this machine, and not of the run
MOST_READ = 4096  # bytes of an answer that are looked at
STATUS = re.compile(rb"HTTP/1\.[01] ([0-9]{3})\b[^\n]*\n")


class Connection:
    """A connection to an address, over which a question may be asked. Nothing waits for it."""

    def __init__(self, loop, wake, address, question):
        """`wake` is called when it has come to its end. Without a question it has when the connection is there."""
        self.loop, self.wake, self.question, self.come, self.why = loop, wake, question, b"", None
        self.link = socket.socket(wires.family_of(address), socket.SOCK_STREAM)
        self.link.setblocking(False)
        fault = self.link.connect_ex(address)
        if fault in (0, errno.EINPROGRESS):
            loop.register(self.link, selectors.EVENT_WRITE, lambda _: self.connected())
        else:
            self.end(os.strerror(fault))

    def connected(self):
        fault = self.link.getsockopt(socket.SOL_SOCKET, socket.SO_ERROR)
        if fault or self.question is None:
            self.end(os.strerror(fault) if fault else "")
            return
        try:
            self.link.send(self.question)
            self.loop.modify(self.link, selectors.EVENT_READ, lambda _: self.read())
        except OSError as fault:
            self.end(fault.strerror)

    def read(self):
        try:
            chunk = self.link.recv(MOST_READ)
        except OSError as fault:
            self.end(fault.strerror)
            return
        self.come += chunk
        said = STATUS.match(self.come)
        if said:
            self.end("" if b"200" <= said[1] < b"400" else f"HTTP status {said[1].decode()}")
        elif not chunk or b"\n" in self.come or len(self.come) > MOST_READ:
            self.end("no answer of HTTP")

    def end(self, why):
        self.why = why
        self.close()
        self.wake()

    def result(self):
        return self.why

    def close(self):
        self.why = "closed" if self.why is None else self.why
        if self.link.fileno() >= 0:
            if self.link in self.loop.get_map():
                self.loop.unregister(self.link)
            self.link.close()


def address_of(text):
    """ValueError where it is none that needs no look-up."""
    host, port = wires.address_of(text)
    host = "127.0.0.1" if host == "localhost" else host
    socket.inet_pton(wires.family_of((host, port)), host)
    return host, port


class Check:
    """One way to ask, made once in each period from a moment on."""

    def __init__(self, spec, period, place, loop, wake, at):
        """OSError where it names no address."""
        self.period, self.timeout = spec.get("period", period), spec.get("timeout", TIMEOUT)
        self.begin = self.maker(spec, place, loop, wake)
        self.trial, self.at, self.is_over = None, at, False  # `at`: when the next trial begins, or this one has taken too long

    def maker(self, spec, place, loop, wake):
        if "command" in spec:
            return lambda: place.beside(spec["command"])
        text = spec.get("tcp") or spec["http"].removeprefix("http://").partition("/")[0]
        try:
            address, path = address_of(text), spec.get("http", "").removeprefix("http://").partition("/")[2]
        except (OSError, ValueError):
            raise OSError(0, f"{text} is no address in numbers") from None
        question = f"GET /{path} HTTP/1.1\r\nHost: {text}\r\nConnection: close\r\nUser-Agent: sebrakt\r\n\r\n".encode("utf-8") if "http" in spec else None
        return lambda: Connection(loop, wake, address, question)

    def look(self, now):
        """Why the trial that has come to its end failed, "" where it didn't; None where none has."""
        if self.trial is None:
            return self.start(now) if now >= self.at else None
        why = self.trial.result()
        if why is not None:
            self.trial.close()
            why, self.trial, self.at, self.is_over = None if self.is_over else why, None, self.at if self.is_over else now + self.period, False
        elif now >= self.at:
            self.trial.close()
            self.is_over, self.at = True, now + self.period
            why = f"no answer in {self.timeout:g} s"
        return why

    def excuse(self, now):
        """Gives a trial its whole time: nobody listened to it."""
        self.at = max(self.at, now + self.timeout) if self.trial is not None and not self.is_over else self.at

    def start(self, now):
        try:
            self.trial, self.at = self.begin(), now + self.timeout
        except (OSError, ValueError) as fault:
            self.at = now + self.period
            return None if getattr(fault, "errno", None) in OWN_FAULTS else getattr(fault, "strerror", None) or str(fault)
        return None

    def close(self):
        if self.trial is not None:
            self.trial.close()
            self.trial = None


class Health:
    """Of one run: whether it is ready, and whether it has failed so often that it is to end."""

    def __init__(self, kind, place, loop, wake, now):
        """`place` is how programs beside the run begin; `wake` has it looked at soon. OSError where a check names no address."""
        self.ready = Check(kind.ready, READY_PERIOD, place, loop, wake, now) if kind.ready else None
        self.check = Check(kind.health, PERIOD, place, loop, wake, now + kind.health.get("period", PERIOD)) if kind.health else None
        self.failed, self.why, self.unready = 0, "", "" if self.ready is None else "not asked yet"
        self.most, self.counts_from = (kind.health or {}).get("failures", FAILURES), now + (kind.health or {}).get("start", 0)

    def look(self, now):
        """Asks, where it is time. Why the run is to end, "" where it isn't."""
        if self.ready is not None:
            why = self.ready.look(now)
            self.unready = self.unready if why is None else why
            if why == "":
                self.ready = None
        why = self.check.look(now) if self.check is not None else None
        if why == "":
            self.failed, self.counts_from = 0, now
        elif why is not None and now >= self.counts_from:
            self.failed, self.why = self.failed + 1, why
        return f"its check failed{f' {self.failed} times' if self.failed > 1 else ''}: {self.why}" if self.check is not None and self.failed >= self.most else ""

    def excuse(self, now):
        for one in (self.ready, self.check):
            if one is not None:
                one.excuse(now)

    def note(self):
        """What people are told of a run that isn't as it should be."""
        if self.ready is not None:
            return f"{NOT_READY}: {self.unready}"
        return f"its check failed {self.failed} of {self.most} times: {self.why}" if self.failed else ""

    def moment(self):
        """When it wants to look again, though nothing happens."""
        return min((one.at for one in (self.ready, self.check) if one is not None), default=float("inf"))

    def close(self):
        for one in (self.ready, self.check):
            if one is not None:
                one.close()
