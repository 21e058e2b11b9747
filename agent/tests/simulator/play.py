"""One script, played in a world: which promises it broke, and how long it took until all was well."""
import traceback

from simulator import faults, nodes, promises, world
from simulator.shell import OPTIONS

STEP = 0.5      # seconds between two looks
OPEN_AGAIN = 9  # seconds after the last fault until machines that were drained are open again


class Played:
    def __init__(self, script, node_of=nodes.RulesNode):
        options = type(OPTIONS)(**{**vars(OPTIONS), **script.options})
        self.script, self.world = script, world.World(script.chance, script.machines, options, node_of)
        self.broken, self.well_after = {}, None  # of each broken promise what broke it
        for step in script.steps:
            self.world.at(step.at, self.do, step)
        try:
            self.play()
        except AssertionError as fault:
            self.breaks(promises.ONE_EACH, fault)
        except Exception:
            self.breaks(promises.NO_ERROR, " ".join(traceback.format_exc(limit=-1).split()))
        for machine in self.world.machines.values():
            if machine.agent is not None:
                machine.agent.close()
        if self.world.unknowable:
            self.broken = {what: how for what, how in self.broken.items() if what not in promises.NOT_BEHIND_AN_OLDER_IMAGE}
        self.most_begins = max(promises.begins_of_children(self.world).values(), default=0)

    def do(self, step):
        if self.world.now < self.script.end or step.verb == "ask":
            faults.do(self.world, step)

    def play(self):
        self.world.run(self.script.end)
        self.look(promises.UNDER.get(self.script.flavour, ()))
        faults.heal(self.world)
        self.wait_until_well()
        self.look(promises.WHILE + promises.AFTER + promises.AFTER_OF.get(self.script.flavour, ()))

    def look(self, kept):
        for promise in kept:
            for detail in promise(self.world, self.script):
                self.breaks(promises.name_of(promise), detail)

    def breaks(self, what, detail):
        self.broken.setdefault(what, str(detail))
        self.world.note("BROKEN", what, detail)

    def wait_until_well(self):
        """After the last fault each wanted child runs exactly once and all tables are equal, within a bound."""
        healed, well_from, why = self.world.now, None, ""
        least = OPEN_AGAIN if any("drain" in step.words for step in self.script.steps) else 0
        while self.world.now < healed + promises.BOUND + promises.CALM:
            self.world.run(self.world.now + STEP)
            why = promises.why_not_well(self.world)
            well_from = None if why else self.world.now if well_from is None else well_from
            if well_from is not None and self.world.now >= max(well_from + promises.CALM, healed + least):
                break
        if well_from is None or well_from > healed + promises.BOUND:
            self.breaks(promises.WELL, why or "too late")
        else:
            self.well_after = well_from - healed
