"""Which script a seed and a flavour give: what goes wrong, where, when and for how long."""
import itertools
import random

from simulator import script

SIZES = [2, 2, 3, 3, 3, 3, 3, 3, 3, 3, 3, 3, 3, 4, 4, 4, 4, 5, 6, 7]  # quick ones are the most
FIRST, STANDS = 5.5, 18    # seconds from which on things go wrong; for which a cut stands
SECONDS = [0.5, 2, 4, 8, 15]
FOR_GOOD = 1000            # seconds, until all faults end


def both(ones, others):
    return sorted({pair for a in ones for b in others if a != b for pair in (f"{a}>{b}", f"{b}>{a}")})


def outward(ones, others):
    return [f"{a}>{b}" for a in ones for b in others if a != b]


class Schedule:
    """`flavour` is one of FLAVOURS."""

    def __init__(self, flavour, seed):
        self.chance, self.flavour, self.steps, self.children = random.Random(f"{flavour} {seed}"), flavour, [], []
        size = 2 if flavour in ("mute", "stranger") and seed % 3 == 0 else self.chance.choice(SIZES if flavour in ANY_SIZE else SIZES[2:])
        self.names, self.options, self.end = "abcdefg"[:size], {}, FIRST + STANDS
        if self.chance.random() < 0.5:
            self.options["every"] = 0.9
        if seed % 25 == 0:
            self.options["text"] = 1
        self.begin()
        getattr(self, FLAVOURS[flavour])()
        steps = tuple(sorted(self.steps, key=lambda step: step.at))
        self.script = script.Script(flavour, tuple(self.names), self.chance.randrange(2 ** 32), self.end, self.options, steps)

    def step(self, at, verb, *words):
        self.steps.append(script.step(at, verb, *words))

    def name(self):
        return self.chance.choice(self.names)

    def moment(self):
        return FIRST + (self.end - FIRST) * self.chance.random()

    # -- machines, children and people

    def begin(self):
        for name in self.names:
            self.step(2 * self.chance.random() if self.chance.random() < 0.7 else 0, "begin", name)
        for _ in range(self.chance.randint(2, 8)):
            self.start(3.4 + self.chance.random())

    def start(self, at, kind=None, name=None):
        kind = kind or self.chance.choices(["good", "slow", "ignore"], [8, 1, 1])[0]
        self.children.append(f"{kind[0]}{len(self.children) + 1}")
        self.step(at, "ask", name or self.name(), "start", self.children[-1], "kind=" + kind, f"shutdown={self.chance.choice([300, 1000, 2000])}")

    def say_something(self, at):
        choice = self.chance.random()
        if choice < 0.5:
            self.start(at)
        elif choice < 0.75:
            self.step(at, "ask", self.name(), "delete", self.chance.choice(self.children))
        else:
            self.step(at, "ask", self.name(), "replace", self.chance.choice(self.children), "kind=good", f"arg={self.chance.randrange(1000)}")

    # -- flavours

    def of_all(self):
        self.go_wrong(self.chance.randint(1, 8), ["cut_some_lines"] * 5 + ["lose", "delay", "kill_agent", "kill_agent", "lose_power", "kill_node", "slow_node",
                      "hold_node", "hold_agent", "hold_machine", "fill_disk", "kill_child", "crash_loop", "drain", "stop_agent"])

    def of_clocks(self):
        self.go_wrong(self.chance.randint(1, 5), ["hold_clock", "hold_clock", "jump_clock", "jump_clock", "hold_machine", "cut_some_lines", "kill_agent"])

    def of_images(self):
        self.swap_image(FIRST + self.chance.random(), self.name())
        self.go_wrong(self.chance.randint(1, 6), ["kill_agent", "lose_power", "kill_node", "cut_some_lines", "cut_some_lines"])

    def of_a_broker(self):
        """All lines go through a server, of which machines that don't know one another hear: it goes away, or some lose it."""
        self.options["knows_peers"] = 0
        self.go_wrong(self.chance.randint(1, 5), ["cut_all_lines", "cut_all_lines", "cut_all_of_one", "kill_agent", "lose_power", "stop_agent", "kill_node"])

    def of_seeds(self):
        """Each machine names one that was there before it, the first one nobody or any other, and they hear of the rest by members' labels."""
        first = self.chance.choice([[], [self.chance.choice(self.names[1:])]])
        named = [first, *([self.chance.choice(self.names[:place])] for place in range(1, len(self.names)))]
        self.steps = [*(script.step(0, "names", name, *peers) for name, peers in zip(self.names, named)), *self.steps]
        if self.chance.random() < 0.7:
            self.go_wrong(self.chance.randint(1, 4), ["kill_agent", "lose_power", "stop_agent", "kill_node", "cut_some_lines"])

    def of_crashes(self):
        self.options["intensity"] = self.chance.choice([1, 1000])
        for _ in range(self.chance.randint(1, 3)):
            self.crash_loop(self.moment(), 0)

    def of_late_machines(self):
        """Some machines begin late, or are away for long."""
        late = self.chance.sample(self.names, self.chance.randint(1, len(self.names) - 1))
        self.steps = [step for step in self.steps if step.verb != "begin" or step.words[0] not in late]
        for name in late:
            self.step(self.moment(), "begin", name)
        self.go_wrong(self.chance.randint(0, 3), ["kill_agent", "lose_power", "stop_agent"])

    def go_wrong(self, count, kinds):
        self.end = FIRST + self.chance.choice([6, 12, STANDS])
        for _ in range(count):
            getattr(self, self.chance.choice(kinds))(self.moment(), self.chance.choice(SECONDS))
        for _ in range(self.chance.randint(0, 8)):
            self.say_something(self.moment())

    def of_slow_nodes(self):
        """Nodes answer late, or are held, while children are started: no child pays for that."""
        for _ in range(self.chance.randint(1, 3)):
            at = self.moment()
            self.chance.choice([self.slow_node, self.hold_node])(at, self.chance.choice(SECONDS[2:]))
            self.start(at + self.chance.random())

    def of_upgrades(self):
        """Agents become other programs, one after the other or at the same time, while children are started: no child pays for that."""
        for _ in range(self.chance.randint(1, 6)):
            at = self.moment()
            self.upgrade_agent(at, self.chance.choice([0.5, 1]))
            self.start(at + self.chance.random() - 0.5, self.chance.choice(["good", "good", "crash"]))

    def of_upgrades_and_faults(self):
        self.go_wrong(self.chance.randint(2, 8), ["upgrade_agent"] * 6 + ["cut_some_lines", "cut_some_lines", "kill_agent", "lose_power", "kill_node", "slow_node",
                      "hold_node", "hold_agent", "kill_child", "kill_child", "crash_loop", "drain", "stop_agent"])

    def of_cuts(self):
        """A cut that stands, after which each machine hears each other one through others still."""
        pairs = list(itertools.combinations(self.names, 2))
        self.cut_and_stay_whole([both([a], [b]) for a, b in pairs])

    def of_one_way_cuts(self):
        self.cut_and_stay_whole([[f"{a}>{b}"] for a, b in itertools.permutations(self.names, 2)])

    def cut_and_stay_whole(self, cuts):
        self.chance.shuffle(cuts)
        gone = []
        for cut in cuts[:self.chance.randint(1, len(cuts))]:
            gone += cut if is_whole(self.names, gone + cut) else []
        if gone:
            self.step(FIRST, "cut", FOR_GOOD, *gone)
        for seconds in (1, 6, 9)[:self.chance.randint(0, 3)]:
            self.start(FIRST + seconds)

    def of_minorities(self):
        """A majority is asked for, and a minority is cut off: both ways, in one way, or in the other."""
        self.options["least"] = len(self.names) // 2 + 1
        few = self.chance.sample(self.names, self.chance.randint(1, (len(self.names) - 1) // 2))
        rest = [name for name in self.names if name not in few]
        self.step(FIRST, "cut", FOR_GOOD, *self.chance.choice([both(few, rest), outward(few, rest), outward(rest, few)]))

    def of_partitions(self):
        """Cut in two, each side runs all; then they meet again."""
        ones = self.chance.sample(self.names, self.chance.randint(1, len(self.names) - 1))
        self.step(FIRST, "cut", FOR_GOOD, *both(ones, [name for name in self.names if name not in ones]))

    def of_the_deaf(self):
        """A machine hears nobody any more, and is heard by all, as where its port is closed. New children are started at the others."""
        deaf = self.name()
        others = [name for name in self.names if name != deaf]
        self.step(FIRST, "cut", FOR_GOOD, *outward(others, [deaf]))
        for seconds in (1, 6, 9):
            self.start(FIRST + seconds, "good", self.chance.choice(others))

    def of_the_mute(self):
        """A machine hears all others, and nobody hears it any more."""
        mute = self.name()
        self.step(FIRST, "cut", FOR_GOOD, *outward([mute], self.names))

    def of_twins(self):
        self.step(FIRST, "twin", self.name(), 10, self.chance.choice(["none", "copy"]))

    def of_one_alone(self):
        """All machines lose their power, and one comes back before the others, with no image."""
        first = self.name()
        for name in self.names:
            self.step(FIRST, "lose-power", name, FOR_GOOD)
        self.step(FIRST + 1, "swap-image", first, 1, "none")

    def of_strangers(self):
        """A machine comes with another secret, or places and counts otherwise. It may lose sight of the others for a while."""
        stranger, self.options["knows_peers"] = self.name(), self.chance.randint(0, 1)
        self.step(FIRST, "estrange", stranger, FOR_GOOD, self.chance.choice(["secret", "setting"]))
        if self.chance.random() < 0.7:
            self.step(FIRST + 2, "cut", 8, *both([stranger], self.names))

    def of_heirs(self):
        """A machine comes that places and counts otherwise, and then all others die."""
        heir = self.name()
        self.step(FIRST, "estrange", heir, FOR_GOOD, "setting")
        for name in self.names:
            if name != heir:
                self.step(FIRST + 2 + self.chance.random(), "lose-power", name, FOR_GOOD)

    def of_full_disks(self):
        """A machine can keep nothing new any more. Children are started at the others, and some end."""
        full = self.name()
        self.step(FIRST, "fill-disk", full, FOR_GOOD)
        for seconds in (1, 6, 9):
            self.start(FIRST + seconds, "good", self.chance.choice([name for name in self.names if name != full]))
            self.kill_child(FIRST + 2 * seconds, 0)

    # -- faults

    def cut_some_lines(self, at, seconds):
        one, other = self.chance.sample(self.names, 2)
        ones = self.chance.sample(self.names, self.chance.randint(1, len(self.names) - 1))
        rest = [name for name in self.names if name not in ones]
        pairs = list(itertools.combinations(self.names, 2))
        some = [pair for a, b in self.chance.sample(pairs, self.chance.randint(1, len(pairs))) for pair in both([a], [b])]
        of_one = [both([one], self.names), outward([one], self.names), outward(self.names, [one])]
        self.step(at, "cut", seconds, *self.chance.choice([both([one], [other]), [f"{one}>{other}"], *of_one, both(ones, rest), some]))

    def cut_all_lines(self, at, seconds):
        self.step(at, "cut", seconds, *both(self.names, self.names))

    def cut_all_of_one(self, at, seconds):
        self.step(at, "cut", seconds, *both([self.name()], self.names))

    def some_lines(self):
        one, other = self.chance.sample(self.names, 2)
        return both([one], [other])[:self.chance.randint(1, 2)]

    def lose(self, at, seconds):
        self.step(at, "lose", seconds, self.chance.choice([0.05, 0.2, 0.5, 0.8]), *self.some_lines())

    def delay(self, at, seconds):
        self.step(at, "delay", seconds, self.chance.choice([0.05, 0.3, 1.0, 2.5]), *self.some_lines())

    def kill_agent(self, at, seconds):
        self.step(at, "kill-agent", self.name(), round(seconds * self.chance.random(), 3))

    def lose_power(self, at, seconds):
        self.step(at, "lose-power", self.name(), round(0.5 + seconds * self.chance.random(), 3))

    def stop_agent(self, at, seconds):
        self.step(at, "stop-agent", self.name(), seconds)

    def hold_agent(self, at, seconds):
        self.step(at, "hold-agent", self.name(), round(seconds * self.chance.random(), 3))

    def upgrade_agent(self, at, seconds):
        self.step(at, "upgrade-agent", self.name(), round(seconds * self.chance.random(), 3))

    def hold_machine(self, at, seconds):
        self.step(at, "hold-machine", self.name(), round(seconds * self.chance.random(), 3))

    def hold_clock(self, at, seconds):
        self.step(at, "hold-clock", self.name(), seconds)

    def jump_clock(self, at, seconds):
        self.step(at, "jump-clock", self.name(), self.chance.choice([seconds, 3600]))

    def kill_node(self, at, seconds):
        self.step(at, "kill-node", self.name())

    def hold_node(self, at, seconds):
        self.step(at, "hold-node", self.name(), seconds)

    def slow_node(self, at, seconds):
        self.step(at, "slow-node", self.name(), min(seconds, 6), self.chance.choice([0.05, 0.3, 1.5]))

    def fill_disk(self, at, seconds):
        self.step(at, "fill-disk", self.name(), seconds)

    def kill_child(self, at, seconds):
        self.step(at, "kill-child", self.chance.randrange(100))

    def crash_loop(self, at, seconds):
        self.start(at, self.chance.choice(["crash", "missing"]))

    def drain(self, at, seconds):
        name = self.name()
        self.step(at, "ask", self.name(), "drain", name)
        self.step(at + seconds, "ask", self.name(), "leave", name)

    def swap_image(self, at, name):
        """An image is lost, or an older one comes back, once or twice."""
        for _ in range(self.chance.randint(1, 2)):
            self.step(at, "copy-image", name)
            later = at + self.chance.choice(SECONDS) * self.chance.random()
            self.step(later, "swap-image", name, self.chance.choice([0.1, 1, 5]), self.chance.choice(["none", "copy"]))
            at = self.moment()


def is_whole(names, gone):
    """Whether each machine reaches each other one, straight or through others, without these lines."""
    reached = {names[0]}
    back = {names[0]}
    for _ in names:
        reached |= {b for b in names for a in reached if a != b and f"{a}>{b}" not in gone}
        back |= {a for a in names for b in back if a != b and f"{a}>{b}" not in gone}
    return len(reached) == len(back) == len(names)


FLAVOURS = {"any": "of_all", "clock": "of_clocks", "image": "of_images", "broker": "of_a_broker", "seeds": "of_seeds", "crash": "of_crashes", "late": "of_late_machines",
            "slow": "of_slow_nodes", "cut": "of_cuts", "one-way": "of_one_way_cuts", "least": "of_minorities", "partition": "of_partitions",
            "deaf": "of_the_deaf", "mute": "of_the_mute", "twin": "of_twins", "stranger": "of_strangers", "heir": "of_heirs", "full": "of_full_disks", "alone": "of_one_alone",
            "upgrade": "of_upgrades", "upgrade-any": "of_upgrades_and_faults"}
ANY_SIZE = ("any", "clock", "image", "broker", "seeds", "crash", "late", "slow", "partition", "stranger", "heir", "full", "alone", "upgrade", "upgrade-any")  # two machines are enough
