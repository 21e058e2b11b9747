"""Machines of a test: agents on the loopback in a folder of their own.

All that a test ends it has started itself: agents, nodes and servers by their processes' numbers, children by the mark of its own folder.
"""
import atexit
import contextlib
import json
import os
import random
import shutil
import signal
import socket
import subprocess
import sys
import tempfile
import time
import unittest

TESTS = os.path.dirname(os.path.abspath(__file__))
AGENT = os.path.join(os.path.dirname(TESTS), "agent.py")
sys.path.insert(0, os.path.dirname(TESTS))

import client
import groups
import leftovers
from promises import need
from pulse import PACE, bound, judges, until
from watcher import Watcher, command, parent

SUPD = os.environ["SUPD"]  # the node's program; agent/test.sh names it
KINDS = {"sleep": ["sleep", "{arg}"], "none": ["/nonexistent"], "nested": ["sh", "-c", "sleep 100000 & wait"],
         "leaves": ["sh", "-c", "(setsid sleep 0.5 &); exec sleep 100000"],
         "stubborn": ["sh", "-c", "trap '' TERM; echo ready; while :; do sleep 0.1; done"], "bad": ["false"], "talks": ["sh", "-c", "seq 101 130; echo '<b>&'; exec sleep 100000"], "short": ["sh", "-c", "sleep 1; exit 1"],
         "titled": [sys.executable, os.path.join(TESTS, "titled.py"), "{arg}"]}
IDS = [f"w{number}" for number in range(1, 7)]
SECRET = b"a secret of this test alone"


signal.signal(signal.SIGTERM, signal.default_int_handler)  # who is too slow ends as by an interrupt, and ends what it started


def begin(words, **options):
    """Begins a process of the test, which ends with it in any case."""
    process = subprocess.Popen(words, **options)
    atexit.register(end_process, process)
    return process


def end_process(process):
    """Ends a process, if it hasn't ended: asked to, and killed 5 seconds later."""
    if process.poll() is None:
        process.send_signal(signal.SIGCONT)
        process.terminate()
        try:
            process.wait(5)
        except subprocess.TimeoutExpired:
            process.kill()
            process.wait()


def free_ports(count):
    """Ports of the loopback that nobody has now. They are below those that the system gives to connections, one of which might have one by the time
    that it is listened at; and as long as this process lives no other test is given them.
    """
    ports = []
    while len(ports) < count:
        port, taken = random.randrange(10_000, 32_000), socket.socket(socket.AF_UNIX)
        try:
            taken.bind(f"\0sebrakt-test-{port}")
            socket.create_server(("127.0.0.1", port)).close()
            ports.append(port)
            TAKEN.append(taken)
        except OSError:
            taken.close()
    return ports


TAKEN = []  # what has the names of the ports that were given here


def closed_port(test):
    """A port at which nobody listens as long as a test lasts."""
    taken = socket.socket()
    test.addCleanup(taken.close)
    taken.bind(("127.0.0.1", 0))
    return taken.getsockname()[1]


class Machines:
    """Agents with some names, over TCP or over a server of the test's own."""

    def __init__(self, names, via=None, options=(), secret=True, addresses=None):
        self.names, self.via, self.vias, self.options = names, via, {}, list(options)  # `vias` of some machines another server
        self.folder = tempfile.mkdtemp(prefix="sebrakt-agents-")
        self.ports, self.agents, self.supd = dict(zip(names, free_ports(len(names)))), {}, {}
        self.addresses = addresses or (lambda sender, to: "{}:{}".format(*self.address(to)))
        self.secret, self.secrets = SECRET if secret else None, {}  # of some machines the file of another secret
        with open(self.path("kinds.json"), "w") as file:
            json.dump(KINDS, file)
        with open(self.path("secret"), "wb") as file:
            os.chmod(file.fileno(), 0o600)
            file.write(SECRET)
        self.watcher, self.asked = Watcher(self.folder), []  # `asked`: the children that were to run once when it was asked for last
        judges.append(self)
        atexit.register(self.end)

    def path(self, name):
        return os.path.join(self.folder, name)

    def address(self, name):
        return "127.0.0.1", self.ports[name]

    def words(self, name):
        words = [sys.executable, AGENT, "run", "--name", name, "--image", self.path(name + ".image"), "--kinds", self.path("kinds.json"),
                 "--listen", "{}:{}".format(*self.address(name)), "--supd", self.supd.get(name, SUPD),
                 "--logs", self.path(name + ".image.logs"),  # also where there is a journal
                 "--silent", str(1.5 * PACE), "--every", str(0.25 * PACE), "--grace", str(1.5 * PACE)]
        words += ["--secret", self.secrets.get(name, self.path("secret"))] if self.secret else []
        if self.via:
            words += ["--via", self.vias.get(name, self.via)]
        else:
            words += [word for other in self.names if other != name for word in ("--peer", f"{other}={self.addresses(name, other)}")]
        return words + self.options

    def begin(self, *names, environment=None):
        for name in names:
            with open(self.path(name + ".log"), "a") as log:
                self.agents[name] = begin(self.words(name), stderr=log, env={**os.environ, **(environment or {})})

    def begin_all(self):
        self.begin(*self.names)
        for name in self.names:
            until(60, lambda: self.members(name) == self.names * self.count(), f"{name} knows all members")

    def count(self):
        return int(self.options[self.options.index("--groups") + 1]) if "--groups" in self.options else 1

    def log(self, name):
        with open(self.path(name + ".log")) as file:
            return file.read()

    # -- asking

    def ask(self, name, line):
        """What an agent answers, once it is there and takes commands."""
        end = time.monotonic() + 30 * PACE
        while True:
            try:
                told = client.ask(self.address(name), self.secret, line, 10 * PACE)
                if not groups.is_early(told) or time.monotonic() > end:
                    return told
            except client.NoAnswer:
                if time.monotonic() > end or self.agents[name].poll() is not None:
                    raise
            time.sleep(0.05)

    def child(self, name, ident):
        """What an agent tells of a child, once it knows it."""
        found = []
        until(10, lambda: found.extend(child for child in self.status(name)["children"] if child["id"] == ident) or found, f"{name} knows {ident}")
        return found[0]

    def hindered(self, name, of):
        """What hinders a machine, as an agent tells it; "" also where it isn't there."""
        try:
            return next((machine["hinders"] for machine in self.status(name)["machines"] if machine["name"] == of), "")
        except client.NoAnswer:
            return ""

    def status(self, name):
        return client.status(self.address(name), self.secret, 10 * PACE)

    def members(self, name):
        return [line.split(" ")[1] for line in self.ask(name, "members") if line.startswith("member ")]

    def tables(self, name):
        return [line for line in self.ask(name, "show") if not line.startswith(("node ", "kept "))]

    def tables_equal(self):
        tables = [self.tables(name) for name in self.names]
        return all(table == tables[0] for table in tables)

    def start(self, at, idents, **options):
        options = {"kind": "sleep", "arg": "100000", **options}
        for ident in idents:
            told = self.ask(at, f"start {ident} kind={options['kind']} arg={options['arg']}" + (f" shutdown={options['shutdown']}" if "shutdown" in options else ""))
            assert told[0].startswith("ok"), told

    # -- what runs

    def each_once(self, idents):
        """Whether at the newest look each of these children has one process."""
        self.asked = idents
        moment, seen = self.watcher.now()
        return time.monotonic() - moment < bound(1, moment) and all(len(seen.get(ident, ())) == 1 for ident in idents)

    def where(self, idents):
        """Of each of these children the machine that runs it."""
        seen = self.watcher.now()[1]
        return {ident: next(iter(seen[ident]))[1] if seen.get(ident) else None for ident in idents}

    def process(self, ident):
        return next(iter(self.watcher.now()[1][ident]))[0]

    def gap(self, began, idents):
        return max(self.watcher.longest(began, ident, lambda count: count == 0) for ident in idents)

    def both(self, began, idents):
        return max(self.watcher.longest(began, ident, lambda count: count > 1) for ident in idents)

    # -- what real children rely on

    def need_one_at_most(self, began, idents):
        """No child has two processes at once."""
        longest = {ident: self.watcher.longest(began, ident, lambda count: count > 1) for ident in idents}
        need(max(longest.values()) < 0.001, f"two processes of a child at once, of each for so many seconds: {longest}")

    def need_one_at_least(self, began, idents):
        """No child is down."""
        longest = {ident: self.watcher.longest(began, ident, lambda count: count == 0) for ident in idents}
        need(max(longest.values()) == 0, f"a child was down, each for so many seconds: {longest}")

    def need_same(self, before):
        """Children go on as the same processes, as a look has shown them."""
        seen = self.watcher.now()[1]
        need({ident: seen.get(ident) for ident in before} == before, f"a child that should go on is another process: {before}, now {seen}")

    def need_each_once(self, idents):
        """Each child runs, once."""
        seen = self.watcher.now()[1]
        need(all(len(seen.get(ident, ())) == 1 for ident in idents), f"a child is lost or runs twice: {seen}")

    def begin_look(self):
        """From here on all is seen in one look, so that parts of a condition are of one moment."""
        self.asked = self.asked if self.watcher.held else []
        self.watcher.held.append(None)

    def end_look(self):
        self.watcher.held.pop()

    def broken(self):
        """Which promises are broken of the children that were asked for last: there are two processes of one still, or no machine knows it any more."""
        seen = self.watcher.now()[1] if self.asked else {}
        twice = [f"{ident} runs twice: {sorted(seen[ident])}" for ident in self.asked if len(seen.get(ident, ())) > 1]
        known = self.known() if self.asked else None
        return twice + [f"{ident} is lost: no machine knows it" for ident in self.asked if known is not None and ident not in known]

    def known(self):
        """The children that a machine knows; None where none tells."""
        known = None
        for name in self.names:
            try:
                rows = client.ask(self.address(name), self.secret, "show")
            except client.NoAnswer:
                continue
            if any(row.startswith("node ") for row in rows):
                known = (known or set()) | {row.split(" ")[1] for row in rows if row.startswith("child ")}
        return known

    # -- ending

    def kill(self, name):
        self.agents[name].kill()
        self.agents[name].wait()

    def kill_child(self, process):
        """Kills a process of a child, unless it has ended; no other one, that was given its number."""
        try:
            handle = os.pidfd_open(process)
        except OSError:
            return
        try:
            if self.watcher.is_marked(leftovers.environment(process)):
                signal.pidfd_send_signal(handle, signal.SIGKILL)
        except OSError:
            pass
        finally:
            os.close(handle)

    def wait(self, name, seconds=20):
        """The status with which an agent ends."""
        until(seconds, lambda: self.agents[name].poll() is not None, f"the agent of {name} ends")
        return self.agents[name].returncode

    def node(self, name, group=None):
        """The process of a machine's node, of one group where there are more; None where it has none now."""
        image = self.path(name + ".image") + ("" if group is None else "." + group)
        agent = self.agents[name].pid
        for other in os.listdir("/proc"):
            try:
                if other.isdecimal() and parent(other) == agent and image in command(other) and not is_agent(command(other)):
                    return int(other)
            except (OSError, IndexError):
                pass
        return None

    def has_proved_node(self):
        """Whether the nodes are `supd`, and not what stands in for it."""
        return not SUPD.endswith(".py")

    def kill_node(self, name):
        node = self.node(name)
        if node is not None:
            with contextlib.suppress(ProcessLookupError):
                os.kill(node, signal.SIGKILL)

    def end(self):
        """Ends all, and gives the folder back; it stays where $KEEP is set. Once is enough."""
        atexit.unregister(self.end)
        if self in judges:
            judges.remove(self)
        for agent in self.agents.values():
            if agent.poll() is None:
                agent.send_signal(signal.SIGCONT)
                agent.terminate()
        for agent in self.agents.values():
            end_process(agent)
        self.watcher.stop()
        for name in self.names:
            for number in range(self.count()):
                leftovers.end(groups.image_of(self.path(name + ".image"), number, self.count()))
        if os.environ.get("KEEP"):
            print("kept:", self.folder)
        else:
            shutil.rmtree(self.folder, ignore_errors=True)


def is_agent(words):
    """Whether these are an agent's own, as a process shows them that it has begun and that hasn't become its program yet."""
    return any(os.path.basename(word) == os.path.basename(AGENT) for word in words)


def each_once_in(clusters, idents):
    """Whether at the newest looks each of these children has one process in all clusters together."""
    looks = [cluster.watcher.now()[1] for cluster in clusters]
    return all(sum(len(seen.get(ident, ())) for seen in looks) == 1 for ident in idents)


def tell(test, **figures):
    """Prints what was measured, in seconds where nothing else is said."""
    print(f"    {test}: " + ", ".join(f"{what.replace('_', ' ')} {round(figure, 3) if isinstance(figure, float) else figure}" for what, figure in figures.items()), flush=True)


class OfMachines(unittest.TestCase):
    """A test of some machines, which end with it."""

    def machines(self, names=("a", "b", "c"), **options):
        machines = Machines(list(names), **options)
        self.addCleanup(machines.end)
        return machines

    def begun(self, **options):
        """Three machines with six children, each of which runs once."""
        machines = self.machines(**options)
        machines.begin_all()
        machines.start("a", IDS)
        self.settle(machines)
        return machines

    def alone(self, **options):
        """One machine with six children."""
        machines = self.machines(names=["a"], **options)
        machines.begin_all()
        machines.start("a", IDS)
        until(10, lambda: machines.each_once(IDS), "all run")
        return machines

    def settle(self, machines, seconds=30):
        """How long it took until each child runs once, at its place, and the machines know the same."""
        def settled():
            if not (machines.each_once(IDS) and machines.tables_equal()):
                return False
            places = {child["id"]: child["place"] for child in machines.status(machines.names[0])["children"]}
            return {ident: place for ident, place in machines.where(IDS).items()} == {ident: places.get(ident) for ident in IDS}
        return until(seconds, settled, "each child runs once, at its place, and tables are equal")
