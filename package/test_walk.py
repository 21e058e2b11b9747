#!/usr/bin/env python3
"""The package, as a person would use it: installed on three Debian machines of namespaces, which are made one cluster by docs/INSTALL.md alone; one is
killed, all are upgraded one by one, one is purged. Wants root, debootstrap and ip; prints what each step took. $DEBIAN_ROOT names a Debian that is
there already."""
import json
import os
import pathlib
import re
import shutil
import signal
import subprocess
import sys
import tempfile
import time
import unittest

sys.path[:0] = [str(pathlib.Path(__file__).resolve().parent.parent), str(pathlib.Path(__file__).resolve().parent.parent / "agent/tests")]
from pulse import bound, until
from promises import need
from package import archives, counted, tree
from package.test_package import call, programs

MISSING = "root" if os.geteuid() else next((package for package, command in (("debootstrap", "debootstrap"), ("iproute2", "ip"), ("dpkg", "dpkg-deb")) if not shutil.which(command)), None)
CHILDREN = [f"web{number}" for number in range(5)]
ALL = ["a", "b", "c"]
NEWER = "99.0.0"
PATH = "/usr/sbin:/usr/bin:/sbin:/bin"


def child_of(process):
    """The one process that another one has begun; None where there is none."""
    with open(f"/proc/{process.pid}/task/{process.pid}/children") as file:
        found = file.read().split()
    return int(found[0]) if found else None


def root_of(process):
    """The root of a process, "" where there is none yet."""
    try:
        return os.readlink(f"/proc/{process}/root")
    except OSError:
        return ""


class Machine:
    """A Debian machine: a root of its own over one that all share, and namespaces of processes, mounts and network."""

    def __init__(self, name, address, folder, base):
        self.name, self.address, self.folder = name, address, folder / name
        self.host = f"sp{os.getpid() % 10000}{name}"
        self.root = self.folder / "root"
        for part in ("root", "changes", "work"):
            (self.folder / part).mkdir(parents=True)
        call("mount", "-t", "overlay", "overlay", "-o", f"lowerdir={base},upperdir={self.folder / 'changes'},workdir={self.folder / 'work'}", str(self.root))
        self.first = self.agent = None

    def link(self, bridge):
        call("ip", "netns", "add", self.host)
        call("ip", "link", "add", f"v{self.host}", "type", "veth", "peer", "name", "eth0", "netns", self.host)
        call("ip", "link", "set", f"v{self.host}", "master", bridge, "up")
        for words in (("address", "add", f"{self.address}/24", "dev", "eth0"), ("link", "set", "eth0", "up"), ("link", "set", "lo", "up")):
            call("ip", "-n", self.host, *words)

    def begin(self):
        """Its first process, with which all others end."""
        self.first = subprocess.Popen(["ip", "netns", "exec", self.host, "unshare", "--mount", "--pid", "--fork", f"--mount-proc={self.root}/proc", "--kill-child",
                                       "chroot", str(self.root), "sleep", "100000"], stdin=subprocess.DEVNULL, stderr=subprocess.DEVNULL)
        until(20, lambda: root_of(child_of(self.first)) == str(self.root), "a machine begins")

    def inside(self, *words):
        return ["nsenter", "--target", str(child_of(self.first)), "--mount", "--pid", "--net", "--root", "--wd", *words]

    def do(self, line, status=0):
        """What a shell line prints there."""
        done = subprocess.run(self.inside("sh", "-c", line), stdin=subprocess.DEVNULL, stdout=subprocess.PIPE, stderr=subprocess.STDOUT, text=True, timeout=180,
                              env={"PATH": PATH, "DEBIAN_FRONTEND": "noninteractive", "LC_ALL": "C.UTF-8"})
        if done.returncode != status:
            raise AssertionError(f"{self.name}: {line}: status {done.returncode}: {done.stdout}")
        return done.stdout

    def install(self, package):
        shutil.copy(package, self.root / "root")
        return self.do(f"dpkg -i /root/{package.name}")

    def begin_agent(self):
        """As its unit does, without systemd."""
        run = "exec setpriv --reuid sebrakt --regid sebrakt --clear-groups sebrakt run --conf /etc/sebrakt/sebrakt.conf"
        with open(self.folder / "log", "a") as log:
            self.agent = subprocess.Popen(self.inside("sh", "-c", run), stdin=subprocess.DEVNULL, stdout=log, stderr=log, env={"PATH": PATH})

    def end_agent(self):
        os.kill(child_of(self.agent), signal.SIGTERM)
        self.agent.wait(bound(60, time.monotonic()))

    def kill(self):
        """As where its power goes."""
        os.kill(child_of(self.first), signal.SIGKILL)
        self.first.wait(20)
        if self.agent:
            self.agent.wait(20)

    def status(self):
        return json.loads(self.do("sebrakt status --json"))

    def tell_log(self):
        """The last that its agent has said, for who looks why something failed."""
        log = self.folder / "log"
        print(f"    of {self.name}:", *(log.read_text(errors="replace").splitlines()[-30:] if log.exists() else ["no log"]), sep="\n    ", flush=True)

    def end(self):
        if self.first and self.first.poll() is None:
            self.kill()
        subprocess.run(["umount", "-l", str(self.root)], stderr=subprocess.DEVNULL)
        subprocess.run(["ip", "netns", "delete", self.host], stderr=subprocess.DEVNULL)


@unittest.skipIf(MISSING, MISSING)
class Walk(unittest.TestCase):
    """The page's walk from nothing to a purge."""

    @classmethod
    def setUpClass(cls):
        cls.folder = pathlib.Path(tempfile.mkdtemp(prefix="sebrakt-package-"))
        cls.addClassCleanup(shutil.rmtree, cls.folder, True)
        cls.packages = cls.made()
        cls.base = cls.debian()
        cls.bridge = f"sp{os.getpid() % 10000}"
        call("ip", "link", "add", cls.bridge, "type", "bridge")
        cls.addClassCleanup(subprocess.run, ["ip", "link", "delete", cls.bridge])
        call("ip", "link", "set", cls.bridge, "up")
        cls.machines = {}
        for number, name in enumerate("abc", 2):
            machine = cls.machines[name] = Machine(name, f"10.{200 + os.getpid() % 50}.77.{number}", cls.folder, cls.base)
            cls.addClassCleanup(machine.end)
            machine.link(cls.bridge)
            machine.begin()

    @classmethod
    def made(cls):
        """The package, and one of a later version."""
        old = archives.make(programs(), cls.folder / "old", True)[1]
        number, tree.number = tree.number, lambda: NEWER
        try:
            return old, archives.make(programs(), cls.folder / "new", True)[1]
        finally:
            tree.number = number

    @classmethod
    def debian(cls):
        """A Debian with what the package depends on."""
        if os.environ.get("DEBIAN_ROOT"):
            return pathlib.Path(os.environ["DEBIAN_ROOT"])
        began = time.monotonic()
        try:
            call("debootstrap", "--variant=minbase", "--include=python3,adduser,init-system-helpers", "bookworm", str(cls.folder / "base"))
        except subprocess.CalledProcessError as fault:
            print(fault.stdout[-500:], flush=True)
            raise unittest.SkipTest("debootstrap had no Debian") from None
        print(f"    debootstrap: {time.monotonic() - began:.0f} s", flush=True)
        return cls.folder / "base"

    def test_the_walk_of_the_page(self):
        try:
            self.walk()
        except BaseException:
            for machine in self.machines.values():
                machine.tell_log()
            raise

    def walk(self):
        a, b, c = self.machines.values()
        clock = Clock()
        for machine in self.machines.values():
            machine.install(self.packages[0])
        clock.tell("installed on three")
        told = a.do(f"sebrakt init --name a --address {a.address}:7001 --peer b={b.address}:7001 --peer c={c.address}:7001")
        a.begin_agent()
        self.make_members(told)
        self.assertIn("is there already", a.do(f"sebrakt init --name a --address {a.address}:7001", status=2))
        until(40, lambda: self.open_at(a) == ALL, "all are members")
        clock.tell("three are members")
        for child in CHILDREN:
            a.do(f"sebrakt start {child} --kind sleep --arg 100000 --wait")
        until(20, lambda: self.is_well(ALL), "each child runs once, at its place")
        self.assertGreater(len(set(self.places().values())), 1)
        clock.tell("five children run")
        self.kill_one(c, clock)
        self.upgrade_each(clock)
        self.remove(b, clock)

    def make_members(self, told):
        """Does what `init` has printed, with the secret that it names."""
        secret = re.search(r"copy (\S+) to each other machine", told)[1]
        lines = re.findall(r"^    (sebrakt init .*)$", told, re.MULTILINE)
        self.assertEqual(len(lines), 2)
        for line in lines:
            machine = self.machines[re.search(r"--name (\w+)", line)[1]]
            shutil.copy(self.machines["a"].root / secret[1:], machine.root / "root/secret")
            self.assertNotIn("copy", machine.do(f"cd /root && {line}"))
            machine.begin_agent()

    def open_at(self, machine):
        return open_in(machine.status())

    def is_well(self, names, at="a"):
        """Whether one status tells that these are the members and that each child runs once, at its place among them: who has just come back takes some over."""
        status = self.machines[at].status()
        return open_in(status) == names and {child["id"]: [child["place"]] for child in status["children"]} == runs_in(status)

    def places(self):
        """Where each child runs that runs once."""
        return {ident: where[0] for ident, where in runs_in(self.machines["a"].status()).items() if len(where) == 1}

    def processes(self):
        return {child["id"]: [run[:1] + run[2:3] for run in child["runs"]] for child in self.machines["a"].status()["children"]}

    def kill_one(self, machine, clock):
        machine.kill()
        until(40, lambda: self.is_well(without(machine)), "its children run elsewhere")
        clock.tell(f"{machine.name} killed, and all children elsewhere")
        machine.begin()
        machine.begin_agent()
        until(40, lambda: self.is_well(ALL), "it is back, with its children")
        clock.tell(f"{machine.name} is back")

    def upgrade_each(self, clock):
        """As the page says, with what the unit's reload does where there is no systemd. No child ends."""
        before = self.processes()
        for machine in self.machines.values():
            machine.install(self.packages[1])
            self.assertIn(NEWER, machine.do("dpkg-query -W sebrakt"))
            until(120, lambda: "goes on as its newer program" in machine.do("env XDG_CONFIG_HOME=/etc sebrakt upgrade || true"), "it is upgraded, once it has the time")
            until(40, lambda: self.is_well(ALL, machine.name), f"{machine.name} is well")
            self.assertTrue((machine.root / "etc/sebrakt/secret").exists())
        until(40, lambda: self.is_well(ALL), "a knows that all run")  # it hears of those of the last one a moment later
        need(self.processes() == before, f"no child ends by an upgrade: {before}, now {self.processes()}")
        clock.tell("each upgraded")

    def remove(self, machine, clock):
        machine.end_agent()
        until(20, lambda: self.is_well(without(machine)), "its children run elsewhere")
        machine.do("dpkg -r sebrakt")
        self.assertTrue((machine.root / f"var/lib/sebrakt/{machine.name}.image").exists())
        self.assertFalse((machine.root / "usr/lib/sebrakt").exists())
        machine.do("dpkg -P sebrakt")
        self.assertFalse((machine.root / "etc/sebrakt").exists())
        clock.tell(f"{machine.name} purged")


def open_in(status):
    """The members that a status tells of, but for those that are drained."""
    return sorted(one["name"] for one in status["machines"] if one["member"] == "open")


def runs_in(status):
    """Where each child runs that was started here, once its process is told: a run that was just begun has none yet."""
    found = {child["id"]: [run[0] for run in child["runs"] if run[2]] for child in status["children"]}
    return {ident: found.get(ident, []) for ident in CHILDREN}


def without(machine):
    return [name for name in ALL if name != machine.name]


class Clock:
    def __init__(self):
        self.last = time.monotonic()

    def tell(self, what):
        now = time.monotonic()
        print(f"    {what}: {now - self.last:.1f} s", flush=True)
        self.last = now


if __name__ == "__main__":
    counted.main("the package on three machines")
