"""Which ways lead to the other machines, and over which of them a line goes.

A way is a connection with one process of a machine, over which sealed lines go in both directions, whoever made it. So a machine to which
nobody can connect is reached over the connections that it makes, and of two processes of one name each is told what goes to that name.

A way has: `name` and `mark`, the machine and the session of its process; `is_own`, whether this machine made it; `came` and `said`, when
something came and was said last; `say(text)`; `is_ready()`, whether a letter would leave soon; `close()`.
"""


class Ways:
    def __init__(self, silent, every, tell_link):
        """`tell_link(name, is_up)` is called when the first way to a process of a machine is there, and when the last one to the machine is lost."""
        self.silent, self.every, self.tell_link = silent, every, tell_link
        self.of = {}  # of each machine its ways

    def names(self):
        return list(self.of)

    def add(self, way):
        ways = self.of.setdefault(way.name, [])
        is_new = all(other.mark != way.mark for other in ways)
        ways.append(way)
        if is_new:
            self.tell_link(way.name, True)

    def drop(self, way):
        """Forgets a way, if it was one."""
        ways = self.of.get(way.name, [])
        if way in ways:
            ways.remove(way)
            if not ways:
                del self.of[way.name]
                self.tell_link(way.name, False)

    def best(self, name, now):
        """One way to each process of a machine: one over which something came lately, and of these the one that this machine made."""
        best = {}
        for way in self.of.get(name, ()):
            rank = now - way.came < self.silent / 2, way.is_own
            if way.mark not in best or rank > best[way.mark][0]:
                best[way.mark] = rank, way
        return [way for _, way in best.values()]

    def tell(self, name, text, now):
        """Says something to each process of a machine, whatever waits to leave before it."""
        for way in self.best(name, now):
            way.say(text)

    def send(self, name, text, now):
        """Says something to each process of a machine to which it would leave soon."""
        for way in self.best(name, now):
            if way.is_ready():
                way.say(text)

    def tick(self, now):
        """Says hello over each way that nothing else was said over, and closes those over which nothing comes any more."""
        for way in [way for ways in self.of.values() for way in ways]:
            if now - way.came > self.silent:
                way.close()
            elif now - way.said >= self.every:
                way.say("hello")
