"""What people are told: of each machine how it is in touch and what hinders it, and of each child why it runs or doesn't. Any machine can tell it of
all, since words carry it. It is read from a core, and decides nothing."""
from typing import NamedTuple, Optional

from core import word

NO_KIND = "failed: no kind "


class Seen(NamedTuple):
    """A child as people are told of it."""
    why: str       # in words
    restarts: int
    last: str      # how it ended last
    state: str     # `running`, `stopping`, `begins`, `waiting`, `kind missing`, `held back` or `not placed`
    by: Optional[str] = None         # the machine for which it waits, or that runs it still
    seconds: Optional[float] = None  # until it may begin
    health: str = ""                 # what is told of a run beside its state


class People:
    """What a core knows at a moment. Others may read it piece by piece until its next event."""

    def __init__(self, core, now):
        sight, self.name, self.now, self.why = core.sight, core.name, now, core.why()
        self.heard, self.touch, self.sees, self.rose = sight.heard(now), sight.touch(now), sight.sees(now), sight.rose
        self.strangers, self.words, self.unsealed = sight.strangers, sight.words, core.hold.unsealed
        self.names = {*(core.members.others or ()), *core.members.peers, *sight.words, *sight.strangers} - {core.name}
        self.told = {core.name: core.telling.told.children, **{name: sight.told[name].children for name in sorted(self.heard)}}

    def machines(self):
        """Of each machine (how it is in touch, what hinders it): `here`, `in touch`, `silent`, `another setting: ..` and so on."""
        return {self.name: ("here", self.why), **{name: (self.touch_of(name), self.hinders(name)) for name in sorted(self.names)}}

    def contact(self, name):
        """How many seconds ago something new of a machine was heard, None where that was never."""
        return self.now - self.rose[name] if name in self.rose else None

    def touch_of(self, name):
        if name in self.strangers:
            return "another setting: " + self.strangers[name].setting
        if name not in self.heard:
            return "sealed by another secret" if name in self.unsealed else "silent" if name in self.words else "not heard yet"
        return "heard, and doesn't hear" if name not in self.touch else "in touch" if name in self.sees else "in touch through others"

    def hinders(self, name):
        known = self.strangers.get(name) or self.words.get(name)
        return self.why if name == self.name else word.WHY.get(known.state, known.state) if known else ""

    def child(self, ident, place):
        """What is seen of a child that the node's `show` has at this place, None where it has none."""
        others = [name for name, told in self.told.items() if name != place and ident in told and told[ident].state != word.WAITS]
        one = self.told.get(place, {}).get(ident)
        if one is None:
            return self.not_ordered(place, others)
        if one.state == word.WAITS:
            return self.waits(one, place, others)
        state, _, health = one.state.partition(", ")
        return Seen(one.state, one.restarts, one.last, state, health=health)

    def not_ordered(self, place, others):
        if others:
            return Seen(f"runs on {others[0]} still", 0, "", "held back", others[0])
        if place is None:
            return Seen("not placed", 0, "", "not placed")
        if place not in self.told:
            return Seen(f"{place}: {self.touch_of(place)}", 0, "", "waiting", place)
        hinders = self.hinders(place)
        return Seen(hinders, 0, "", "waiting", place) if hinders else Seen("not ordered yet", 0, "", "begins")

    def waits(self, one, place, others):
        """Why one that was ordered has no process."""
        more = one.restarts, one.last
        if self.hinders(place):
            return Seen(f"waits for {place}: {self.hinders(place)}", *more, "waiting", place)
        left = (one.due or 0) - self.now
        if left > 0:
            return Seen(f"waits {left:.1f} s, {one.restarts} restarts, {one.last}", *more, "kind missing" if one.last.startswith(NO_KIND) else "waiting", None, round(left, 1))
        return Seen(f"held back by {others[0]}, which runs it", *more, "held back", others[0]) if others else Seen("begins", *more, "begins")
