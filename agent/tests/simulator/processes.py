"""The processes of children."""


class Process:
    """A process of a child, of a kind: good | slow to end | ignore (SIGTERM) | crash."""

    def __init__(self, machine, ident, kind, ended):
        self.machine, self.id, self.kind, self.ended, self.is_live, self.is_told_to_end, self.status = machine, ident, kind, ended, True, False, None
        machine.world.process_begins(self)
        machine.processes[self.pid] = self
        if kind == "crash":
            machine.world.after(0.02 + 2 * machine.world.chance.random() ** 3, self.end, 1)

    def term(self):
        self.is_told_to_end = True
        if self.kind != "ignore":
            self.machine.world.after((1.5 if self.kind == "slow" else 0.01) * (0.5 + self.machine.world.chance.random()), self.end, -15)

    def kill(self):
        self.is_told_to_end = True
        self.machine.world.after(0.002 + 0.01 * self.machine.world.chance.random(), self.end, -9)

    def end(self, status, is_told=True):
        world = self.machine.world
        if self.is_live and is_told and world.now < self.machine.frozen_until:
            world.at(self.machine.frozen_until, self.end, status)
        elif self.is_live:
            self.is_live, self.status = False, status
            world.live[self.id].discard(self)
            del self.machine.processes[self.pid]
            if is_told:
                self.ended(status)
