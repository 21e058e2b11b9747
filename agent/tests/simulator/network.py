"""The lines between machines: in one direction each, in their order, late, lost or cut; and who hears whom by them."""
SLOW, LOSSY = 0.5, 0.1  # seconds and chance from which on a line counts as none, where a promise is about machines that hear one another
CALM = 2                # seconds for which they have to have heard one another


class Network:
    def __init__(self, world):
        self.world, self.cuts, self.open = world, {}, []  # of each (from, to) how many cuts stand; the cuts that stand
        self.loss, self.slow, self.last = {}, {}, {}       # of each (from, to) the chance of loss, the seconds of delay, the last arrival
        self.sent = 0                                      # lines
        self.whole_since = 0.0                             # since when all hear one another, None where they don't

    # -- lines

    def send(self, sender, to, what, *words):
        pair = sender.name, to.name
        self.sent += 1
        if pair in self.cuts or to.agent is None:
            return
        chance = self.world.chance.random
        if self.loss and chance() < self.loss.get(pair, 0):
            return
        moment = max(self.last.get(pair, 0), self.world.now + 0.001 + 0.004 * chance() + self.slow.get(pair, 0))
        self.last[pair] = moment
        if sender.secret != to.secret:
            what, words = "unsealed", (sender.name,)
        self.world.at(moment, self.arrive, pair, to, to.agent, what, words)

    def arrive(self, pair, to, agent, what, words):
        if to.agent is agent and pair not in self.cuts:
            agent.take(what, *words)

    def reached(self, sender, name):
        """The machines to which lines for a name go: the one at its address, and a second one of that name that has connected to the sender."""
        found = [self.world.machines[name]] if sender.links.get(name) is not None else []
        twin = self.world.machines.get(name + " twin")
        return found + [twin] if twin is not None and twin.agent is not None and twin.links.get(sender.name) is sender.agent else found

    # -- cuts

    def cut(self, pairs):
        """Cuts these lines, until `mend` of what it returns."""
        self.open.append(pairs)
        for pair in pairs:
            self.cuts[pair] = self.cuts.get(pair, 0) + 1
        self.relink()
        return pairs

    def mend(self, cut):
        if not any(cut is one for one in self.open):
            return
        self.open = [one for one in self.open if one is not cut]
        for pair in cut:
            self.cuts[pair] -= 1
            if not self.cuts[pair]:
                del self.cuts[pair]
        self.relink()

    def mend_all(self):
        for cut in list(self.open):
            self.mend(cut)
        self.loss.clear()
        self.slow.clear()
        self.changes()

    # -- connections

    def relink(self):
        """Has each agent hear of connections that are lost or come back."""
        self.changes()
        for one in self.world.machines.values():
            for other in self.world.machines.values():
                if one.agent is None or one.name == other.name or other.is_twin:
                    continue
                is_linked, link = self.is_linked(one, other), one.links.get(other.name)
                if is_linked != (link is not None and link is other.agent):
                    wait = 0.05 + 0.4 * self.world.chance.random() if is_linked else 0.005 if other.agent is None else self.world.options.silent
                    self.world.after(wait, self.link, one, one.agent, other)

    def is_linked(self, one, other):
        return other.agent is not None and (one.name, other.name) not in self.cuts and self.is_connected(one, other)

    def is_connected(self, one, other):
        """Whether either of them knows the other one: lines go both ways over a connection."""
        return one.knows(other.name) or other.knows(one.name)

    def link(self, one, agent, other):
        if one.agent is not agent:
            return
        now = other.agent if self.is_linked(one, other) else None
        if one.links.get(other.name) is not now:
            if one.links.get(other.name) is not None:
                agent.take("link", other.name, False)
            one.links[other.name] = now
            if now is not None:
                agent.take("link", other.name, True)

    # -- who hears whom

    def changes(self):
        """Something changes in who hears whom, or in who is hindered."""
        self.whole_since = None if not self.is_whole() else self.world.now if self.whole_since is None else self.whole_since

    def was_whole(self):
        """Whether all agents that live hear one another, straight or through others, and have for some seconds."""
        return self.whole_since is not None and self.world.now - self.whole_since > CALM

    def is_whole(self):
        live = [machine for machine in self.world.machines.values() if machine.agent is not None and not machine.is_twin]
        if any(machine.is_hindered() for machine in live):
            return False
        names = [machine.name for machine in live if not machine.is_mute()]  # who tells nothing carries nothing, and may hear all
        return all(reach(names, pairs) == set(names) for pairs in (lambda a, b: self.is_good((a, b)), lambda a, b: self.is_good((b, a)))) if names else True

    def is_good(self, pair):
        one, other = map(self.world.machines.get, pair)
        is_late = self.last.get(pair, 0) > self.world.now + SLOW  # lines of before wait yet, and all others behind them
        return self.is_connected(one, other) and not is_late and pair not in self.cuts and self.loss.get(pair, 0) <= LOSSY and self.slow.get(pair, 0) <= SLOW


def reach(names, has_line):
    """Which of these the first one reaches."""
    seen, todo = {names[0]}, [names[0]]
    while todo:
        one = todo.pop()
        more = [name for name in names if name not in seen and has_line(one, name)]
        seen.update(more)
        todo += more
    return seen
