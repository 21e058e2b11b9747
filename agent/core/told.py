"""What a machine tells of its children, as a map that knows since which word each of them is as it is.

Who has heard word 7 is told, whatever word he is at by now, what has changed since: so thousands of children cost nothing while nothing happens
to them, and a word that was lost takes nothing with it.
"""
MOST_GONE = 1000  # ids that are there no more, and are known for who missed that; more are forgotten at times


class Told:
    def __init__(self):
        self.children = {}   # as in a word, but for `due`, which is a moment here, or 0 where nothing is waited for
        self.changed = {}    # of each id the number of the word that changed it, in the order of these
        self.forgotten = 0   # who has heard no later word is told all

    def take(self, base, children, n, now):
        """Takes what the word n tells since the word `base`."""
        gone = dict.fromkeys(self.children.keys() - children.keys()) if base == 0 else {}
        for ident, one in (children | gone if gone else children).items():
            self.changed.pop(ident, None)
            self.changed[ident] = n
            if one is None:
                self.children.pop(ident, None)
            else:
                self.children[ident] = one._replace(due=now + one.due) if one.due else one
        if len(self.changed) > 2 * len(self.children) + MOST_GONE:
            for ident in [ident for ident in self.changed if ident not in self.children]:
                self.forgotten = self.changed.pop(ident)

    def since(self, base, now):
        """(base, children), as in a word, for who has heard the word of that number."""
        base, changes = (0 if base < self.forgotten else base), {}
        for ident in reversed(self.changed):
            if self.changed[ident] <= base:
                break
            one = self.children.get(ident)
            changes[ident] = one._replace(due=round(max(0, one.due - now), 1)) if one and one.due else one
        return base, changes

    def runs(self, ident):
        """Whether it has a process of a child."""
        return ident in self.children and self.children[ident].state != "waits"
