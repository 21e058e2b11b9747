"""Servers beside the agents of a test: one of Redis or NATS, and proxies that bring lines from one machine to another, or drop them."""
import random
import shutil
import socket
import subprocess
import tempfile
import threading

from machines import begin, end_process, free_ports
from pulse import until


class Server:
    """A server of the test's own, that keeps nothing. FileNotFoundError where there is none on this machine."""

    kind = None

    def __init__(self):
        self.port = free_ports(1)[0]
        self.folder = tempfile.mkdtemp(prefix=f"sebrakt-{self.kind}-")
        self.url = f"{self.kind}://127.0.0.1:{self.port}"
        self.begin()

    def words(self):
        raise NotImplementedError

    def begin(self):
        self.process = begin(self.words(), stdout=subprocess.DEVNULL, stderr=subprocess.DEVNULL)
        until(10, self.answers, f"the server of {self.kind} answers")

    def answers(self):
        try:
            socket.create_connection(("127.0.0.1", self.port), 1).close()
            return True
        except OSError:
            return False

    def stop(self):
        end_process(self.process)

    def end(self):
        self.stop()
        shutil.rmtree(self.folder, ignore_errors=True)


class Redis(Server):
    kind = "redis"

    def words(self):
        return ["redis-server", "--port", str(self.port), "--bind", "127.0.0.1", "--save", "", "--appendonly", "no", "--dir", self.folder]


class Nats(Server):
    kind = "nats"

    def __init__(self, *routes):
        """`routes` are other servers, which bring lines of these subjects to one another."""
        self.routes, self.route_port = routes, free_ports(1)[0]
        super().__init__()

    def words(self):
        words = ["nats-server", "--addr", "127.0.0.1", "--port", str(self.port), "--cluster_name", "c", "--cluster", f"nats://127.0.0.1:{self.route_port}"]
        return words + [word for other in self.routes for word in ("--routes", f"nats://127.0.0.1:{other.route_port}")]


class Proxy:
    """Brings lines from one machine to another and back, or drops them: each line with some chance, or all in the directions in which it is cut."""

    def __init__(self, to):
        """`to` is the port of that machine."""
        self.to, self.loss, self.chance = to, 0, random.Random(to)
        self.cut = {"there": False, "back": False}  # from who made the connection, and to it
        self.links, self.silent, self.brought = set(), set(), 0
        self.server = socket.create_server(("127.0.0.1", 0))
        self.port = self.server.getsockname()[1]
        threading.Thread(target=self.accept, daemon=True).start()

    def accept(self):
        while True:
            try:
                link, _ = self.server.accept()
                other = socket.create_connection(("127.0.0.1", self.to), 2)
                other.settimeout(None)  # a line may come late
            except OSError:
                if self.server.fileno() < 0:
                    return
                link.close()
                continue
            self.links.add(link)
            for way, come, leave in (("there", link, other), ("back", other, link)):
                threading.Thread(target=self.pump, args=(way, link, come, leave), daemon=True).start()

    def forget(self):
        """From now on brings nothing over the connections that there are; new ones are as ever."""
        self.silent = set(self.links)

    def pump(self, way, link, come, leave):
        with come, leave, come.makefile("rb") as lines:
            try:
                for line in lines:
                    self.brought += len(line)
                    if not self.cut[way] and link not in self.silent and (line.startswith(b"hello ") or self.chance.random() >= self.loss):
                        leave.sendall(line)
            except OSError:
                pass
