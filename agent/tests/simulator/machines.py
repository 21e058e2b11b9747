"""A machine: what outlives its agent (its disk, what its processes have left behind), its clock, and what hinders it."""
import rules
from simulator import shell

NOTHING = rules.State()
LEFT_BEHIND = 0.1  # the chance that a process leaves something that outlives a killed agent


class Machine:
    """A twin takes the name of another machine, which nothing but its own lines tells: whoever connects to that name reaches the other one."""

    def __init__(self, world, name, is_twin=False):
        self.world, self.name, self.is_twin, self.key = world, name, is_twin, name + " twin" if is_twin else name
        self.image, self.copy, self.is_full, self.losses = None, None, False, []
        self.ahead, self.copied_ahead = 0, 0  # what stands beside the image, and beside its copy
        self.peers = None  # the machines that its words name, None where these are all others
        self.secret, self.setting = "", ""  # other ones than those of the others, where they aren't empty
        self.agent, self.links, self.processes, self.leftovers, self.log, self.ended_at = None, {}, {}, set(), [], 0.0
        self.is_new = True  # whether its agent began with no image
        self.lacks = []     # of each begin of an agent with an image that lacks own dots which others know: (when, how many)
        self.upgrades = 0                                    # how often its agent became another program
        self.is_held, self.missed = False, []                # whether the agent's process is stopped; the events that wait
        self.frozen_until = 0.0                              # the whole machine stands still
        self.clock_is_behind, self.clock_stands_from = 0.0, None
        self.node_slow, self.node_held_until = 0.0, 0.0      # seconds of each answer; the node's process is stopped

    def clock(self):
        return (self.world.now if self.clock_stands_from is None else self.clock_stands_from) - self.clock_is_behind

    def knows(self, name):
        """Whether it connects to a machine: one that its words name, or a member that its node knows."""
        return self.peers is None or name in self.peers or self.agent is not None and name in self.agent.core.members.since

    def is_hindered(self):
        return self.is_held or self.node_slow or self.node_held_until > self.world.now or bool(self.secret or self.setting)

    def is_mute(self):
        return self.agent is not None and self.agent.is_mute()

    def state(self):
        """What its disk tells: known dots, and the row of each that lives."""
        return self.world.node_of.state_of(self.image) if self.image is not None else NOTHING

    # -- the agent

    def begin_agent(self):
        if self.agent is None:
            self.links, self.is_held, self.missed, self.is_new = {}, False, [], self.image is None
            self.agent = shell.Shell(self)
            self.look_what_it_lacks()
            self.world.note("agent of", self.key, "begins")
            self.world.network.relink()

    def look_what_it_lacks(self):
        known = {dot for other in self.world.machines.values() if other.name != self.name for dot in other.state().known if dot[1] == self.name}
        lacking = known - self.state().known
        if lacking:
            self.lacks.append((self.world.now, len(lacking)))

    def end_agent(self, has_power=True):
        """SIGKILL, or loss of power: the kernel ends what the agent began, but for what that has left behind."""
        if self.agent is not None:
            for process in list(self.processes.values()):
                if self.world.chance.random() < LEFT_BEHIND:
                    self.leftovers.add(process.id)
                process.end(-9, False)
            self.agent.close()
            self.thaw()
            self.agent, self.links, self.is_held, self.missed = None, {}, False, []
            self.ended_at = self.world.now
            self.world.note("agent of", self.key, "ends")
            self.world.network.relink()
        if not has_power:
            self.leftovers = set()

    def upgrade_agent(self, seconds, tries=50):
        """The agent becomes another program, which takes so long, and in which its processes go on. It waits until it is at rest."""
        if self.agent is None or self.is_held or tries == 0:
            return
        if not self.agent.is_at_rest():
            self.world.after(0.02, self.upgrade_agent, seconds, tries - 1)
            return
        before = self.agent
        before.close()
        self.links, self.agent = {}, shell.Shell(self, before)
        self.upgrades += 1
        self.hold(seconds)
        self.world.note("agent of", self.key, "becomes another program")
        self.world.network.relink()

    def hold(self, seconds):
        """SIGSTOP of the agent alone: node and children go on."""
        if self.agent is not None and not self.is_held:
            self.is_held = True
            self.world.network.changes()
            self.world.after(seconds, self.go_on, self.agent)

    def freeze(self, seconds, clock_stands):
        """The whole machine stands still, as when it is suspended, or its clock with it, as when its host stops it."""
        if self.agent is not None and not self.is_held:
            self.frozen_until, self.clock_stands_from = self.world.now + seconds, self.world.now if clock_stands else None
            self.hold(seconds)

    def thaw(self):
        self.clock_is_behind, self.clock_stands_from, self.frozen_until = self.world.now - self.clock(), None, 0.0

    def go_on(self, agent):
        if self.agent is agent and self.is_held:
            self.thaw()
            self.is_held, missed, self.missed = False, self.missed, []
            self.world.network.changes()
            agent.go_on(missed)

    def say(self, *words):
        line = " ".join(map(str, words))
        self.log.append((self.world.now, line))
        self.world.note(self.key + ":", line)
