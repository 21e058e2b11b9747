"""Makes a machine one of a cluster: its folder of settings, and the image of the cluster's first machine."""
import os
import secrets
import shutil
import subprocess

import seals

USER = "sebrakt"  # who runs an agent, where root makes its files and the user is there
CONF = """# The settings of this machine's agent (`sebrakt run --conf`), and of the command `sebrakt` here. A line is KEY = VALUE; the keys are the options of
# `sebrakt run`, but for `address` in place of --listen. Files are beside this one where their path is relative. An agent reads it when it begins.

name = "{name}"
address = "{address}"
secret = "secret"
image = "{image}"
kinds = "kinds.json"

# With two of three machines, or three of five, a part that is cut off runs nothing; without it both parts run all children.
#least = 2

# A machine that was in touch with nobody for so many seconds is taken out, and its children run elsewhere.
#silent = 3

# The other machines. One of each two has to reach the other.
[peer]
{peers}"""
KINDS = """{
  "sleep": ["sleep", "{arg}"]
}
"""


class NotDone(Exception):
    """Why a machine can't be made one of a cluster; what was there is as it was."""


def folder_of(given, for_root, variable, otherwise):
    """A folder that is named, or that of root, or the user's."""
    at_home = os.environ.get(variable) or os.path.expanduser(otherwise)
    return os.path.abspath(given or (for_root if os.geteuid() == 0 else os.path.join(at_home, "sebrakt")))


def text_of(address):
    host, port = address
    return f"[{host}]:{port}" if ":" in host else f"{host}:{port}"


def init(given, supd, tell):
    """NotDone where something is there that would be lost, or can't be made; `tell` is given what is to be done next."""
    machine = Machine(given)
    machine.check()
    try:
        machine.make(supd)
    except (OSError, seals.BadSecret, NotDone) as fault:
        machine.undo()
        raise NotDone(f"{fault.filename}: {fault.strerror}" if isinstance(fault, OSError) else str(fault)) from None
    for line in machine.next_steps():
        tell(line)


class Machine:
    """The files of a machine that is made one of a cluster."""

    def __init__(self, given):
        self.name, self.address, self.given_secret = given.name, text_of(given.address), given.secret
        self.peers = {name: text_of(address) for name, address in given.peer if name != given.name}
        self.folder = folder_of(given.folder, "/etc/sebrakt", "XDG_CONFIG_HOME", "~/.config")
        self.state = folder_of(given.state, "/var/lib/sebrakt", "XDG_STATE_HOME", "~/.local/state")
        self.conf, self.secret, self.kinds = (os.path.join(self.folder, name) for name in ("sebrakt.conf", "secret", "kinds.json"))
        self.image = os.path.join(self.state, self.name + ".image")
        self.is_first = self.given_secret is None and not os.path.exists(self.secret)
        self.made = []

    def check(self):
        for path in (self.conf, self.image):
            if os.path.exists(path):
                raise NotDone(f"{path} is there already: this machine is one of a cluster, or was")

    def make(self, supd):
        os.makedirs(self.folder, exist_ok=True)
        os.makedirs(self.state, mode=0o750, exist_ok=True)
        own(self.state)
        self.make_secret()
        if not os.path.exists(self.kinds):
            self.write(self.kinds, KINDS, 0o600)
            own(self.kinds)
        if self.is_first:
            self.make_image(supd)
        self.write(self.conf, CONF.format(name=self.name, address=self.address, image=self.image,
                                          peers="".join(f'{name} = "{address}"\n' for name, address in self.peers.items())))

    def make_secret(self):
        """Makes it, or takes the one that is given, or that is there."""
        if self.is_first:
            self.write(self.secret, secrets.token_urlsafe(32) + "\n", 0o600)
        elif self.given_secret is not None:
            given = seals.read_secret(self.given_secret)
            if os.path.exists(self.secret) and seals.read_secret(self.secret) != given:
                raise NotDone(f"{self.secret} is there already, and another one than {self.given_secret}")
            if not os.path.exists(self.secret):
                self.write(self.secret, os.fsdecode(given) + "\n", 0o600)
        seals.read_secret(self.secret)
        own(self.secret)

    def make_image(self, supd):
        """An image in which this machine is a member. So its agent doesn't take it for one that was lost, and begins though it hears nobody."""
        self.made += [self.image, self.image + ".lock"]
        node = subprocess.run([supd, self.name, "--image", self.image], input=f"join label={self.address}\n", capture_output=True, text=True)
        if node.returncode or "ok (" not in node.stdout:
            raise NotDone(f"{supd} made no image: {' '.join((node.stdout + node.stderr).split())}")
        own(self.image)
        own(self.image + ".lock")

    def write(self, path, content, mode=0o644):
        with open(os.open(path, os.O_WRONLY | os.O_CREAT | os.O_EXCL, mode), "wb") as file:
            self.made.append(path)
            file.write(os.fsencode(content))

    def undo(self):
        for path in self.made:
            if os.path.exists(path):
                os.unlink(path)

    def next_steps(self):
        """What is to be done next, in lines."""
        yield f"made {', '.join(path for path in self.made if not path.endswith('.lock'))}"
        if self.is_first:
            peers = " ".join(f"--peer {name}={address}" for name, address in {self.name: self.address, **self.peers}.items())
            yield f"copy {self.secret} to each other machine, and there say"
            for name, address in self.peers.items() or [("NAME", "HOST:PORT")]:
                yield f"    sebrakt init --name {name} --address {address} {peers} --secret secret"
        yield f"then, here and there, begin the agent: {self.begin()}"

    def begin(self):
        return "systemctl enable --now sebrakt" if os.geteuid() == 0 and os.path.isdir("/run/systemd/system") else f"sebrakt run --conf {self.conf}"


def own(path):
    """Gives a file of root's to who runs the agent."""
    if os.geteuid() == 0 and os.path.exists(path):
        try:
            shutil.chown(path, USER, USER)
        except LookupError:
            pass
