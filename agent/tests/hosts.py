"""Machines of a test that are hosts of a network: each in a namespace of its own, on one bridge, with an address of its own. Only root may make these."""
import atexit
import os
import shutil
import string
import subprocess

from machines import Machines

PORT = 7001
LETTERS = iter(string.ascii_lowercase)
MISSING = "root" if os.geteuid() else next((package for package, command in (("iproute2", "ip"), ("iptables", "iptables")) if not shutil.which(command)), None)


def call(*words):
    subprocess.run(words, check=True, stdout=subprocess.DEVNULL, stderr=subprocess.DEVNULL)


def is_possible():
    """Whether namespaces can be made here."""
    if MISSING:
        return False
    name = f"sebrakt-{os.getpid()}-try"
    try:
        call("ip", "netns", "add", name)
        call("ip", "netns", "delete", name)
        return True
    except (OSError, subprocess.CalledProcessError):
        return False


class Hosts(Machines):
    """Agents in network namespaces, whose lines between hosts can be cut by the kernel."""

    def __init__(self, names, **options):
        self.net = f"sb{os.getpid() % 100_000}{next(LETTERS)}"  # another name each time: the kernel takes its time to forget one
        self.numbers = {name: number for number, name in enumerate(names, 2)}
        self.network = f"10.{200 + os.getpid() % 50}.{os.getpid() // 50 % 250}"
        atexit.register(self.unlink)
        self.link()
        super().__init__(names, **options)
        self.ports = {name: PORT for name in names}

    def host(self, name):
        return f"{self.net}-{name}"

    def link(self):
        call("ip", "link", "add", self.net, "type", "bridge")
        call("ip", "address", "add", f"{self.network}.1/24", "dev", self.net)
        call("ip", "link", "set", self.net, "up")
        for name, number in self.numbers.items():
            host, cable = self.host(name), f"{self.net}{name}"
            call("ip", "netns", "add", host)
            call("ip", "link", "add", cable, "type", "veth", "peer", "name", "eth0", "netns", host)
            call("ip", "link", "set", cable, "master", self.net, "up")
            for words in (("address", "add", f"{self.network}.{number}/24", "dev", "eth0"), ("link", "set", "eth0", "up"), ("link", "set", "lo", "up")):
                call("ip", "-n", host, *words)

    def address(self, name):
        return f"{self.network}.{self.numbers[name]}", PORT

    def words(self, name):
        return ["ip", "netns", "exec", self.host(name), *super().words(name)]

    # -- what the kernel drops

    def rule(self, name, *words):
        call("ip", "netns", "exec", self.host(name), "iptables", "-w", *words)  # its lock is the whole machine's

    def close_port(self, name, is_closed=True):
        """Nobody connects to a host any more, while it connects to the others."""
        self.rule(name, "-A" if is_closed else "-D", "INPUT", "-p", "tcp", "--dport", str(PORT), "-s", f"{self.network}.0/24", "!", "-i", "lo", "-j", "DROP")

    def cut(self, name, other, is_cut=True):
        """Cuts all between two hosts, in both directions."""
        for one, two in ((name, other), (other, name)):
            self.rule(one, "-A" if is_cut else "-D", "INPUT", "-s", self.address(two)[0], "-j", "DROP")

    def end(self):
        super().end()
        self.unlink()

    def unlink(self):
        atexit.unregister(self.unlink)
        for name in self.numbers:
            subprocess.run(["ip", "link", "delete", f"{self.net}{name}"], stderr=subprocess.DEVNULL)
            subprocess.run(["ip", "netns", "delete", self.host(name)], stderr=subprocess.DEVNULL)
        subprocess.run(["ip", "link", "delete", self.net], stderr=subprocess.DEVNULL)
