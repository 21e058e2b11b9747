"""How long what ends again and again waits for its next begin: a child whose runs are short, or a machine that is taken out soon after it joined.

The first short stay is begun again at once, the next ones wait 1, 2, 4 .. seconds; a longer stay is forgiven all, and so is a child in another form.
"""
import collections


class Backoff:
    def __init__(self, most, stable):
        """A stay of `stable` seconds is a long one; nobody waits for more than `most` seconds."""
        self.most, self.stable, self.of = most, stable, {}  # of each (how many short stays it had in a row, when it may begin again)

    def note(self, one, stayed, now, least=0):
        short = self.of.get(one, (0, 0))[0] + 1 if stayed < self.stable else 0
        self.of[one] = short, now + max(least, min(self.most, 2 ** min(short - 2, 20)) if short > 1 else 0)

    def due(self, one):
        return self.of.get(one, (0, 0))[1]

    def keep(self, here):
        """Forgets all others."""
        self.of = {one: kept for one, kept in self.of.items() if one in here}


class Window:
    """How many ends the node may be told, so that it never gives up: at most `intensity` in `period` seconds (whole ones, as the node counts)."""

    def __init__(self, intensity, period):
        self.intensity, self.period, self.told = intensity, period, collections.deque()

    def is_open(self, now):
        while self.told and self.told[0] + self.period < int(now):
            self.told.popleft()
        return len(self.told) < self.intensity

    def note(self, now):
        self.told.append(int(now))

    def opens(self):
        """When it opens, None where it is open."""
        return self.told[0] + self.period + 1 if len(self.told) >= self.intensity else None
