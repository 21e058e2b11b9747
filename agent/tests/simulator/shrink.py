"""Makes a script that breaks a promise smaller, as long as it breaks the same one."""
from simulator import play

CHANCES = 3  # numbers of chance that are tried for each smaller script
MOST = 400   # scripts that are played at most


class Shrinker:
    def __init__(self, script, promise, node_of=None):
        self.best, self.promise, self.played = script, promise, 0
        self.node_of = {} if node_of is None else {"node_of": node_of}

    def breaks(self, script):
        self.played += 1
        return self.promise in play.Played(script, **self.node_of).broken

    def try_steps(self, steps):
        """Takes these steps in place of the ones it has, if they break the promise, too."""
        for more in range(CHANCES):
            script = self.best._replace(steps=tuple(steps), chance=self.best.chance + more)
            if self.breaks(script):
                self.best = script
                return True
        return False

    def shrink(self):
        """Takes parts away, halves first, and then smaller ones, until no single step can go."""
        size = len(self.best.steps) // 2
        while size and self.played < MOST:
            at, shrunk = 0, False
            while at < len(self.best.steps) and self.played < MOST:
                part = self.best.steps[at:at + size]
                begins = tuple(step for step in part if step.verb == "begin")  # these stay: without a machine another thing goes wrong
                if part == begins or not self.try_steps(self.best.steps[:at] + begins + self.best.steps[at + size:]):
                    at += size
                else:
                    shrunk = True
            size = size if shrunk and size == 1 else size // 2
        return self.without_machines()

    def without_machines(self):
        """Takes away the machines that nothing needs."""
        for name in self.best.machines[2:]:
            used = {word for step in self.best.steps if step.verb != "begin" for word in step.words}
            if not any(name in (word, *word.split(">")) for word in used):
                smaller = self.best._replace(machines=tuple(one for one in self.best.machines if one != name),
                                             steps=tuple(step for step in self.best.steps if step.words != (name,)))
                if self.breaks(smaller):
                    self.best = smaller
        return self.best
