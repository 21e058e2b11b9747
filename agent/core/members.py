"""Who is a member, as one machine judges: it joins where it is in touch with enough others, and takes out who is in touch with nobody here.

Since the words of a machine come through any other, a machine is taken out only when none that is in touch hears it any more. Who is taken out
again and again comes back later and later. Who hears others that don't hear it is out, and knows that: it leaves by itself.
"""
from core import backoff, word


class Members:
    def __init__(self, name, options, peers, now):
        self.name, self.peers, self.least, self.label = name, set(peers or ()) - {name}, options.least, options.label
        # who is lonely leaves by itself, and is given the time for that
        self.patience = options.silent + (3 * options.every if options.least > 1 else 0)
        self.judge_from = now  # what was missed before says nothing
        self.others = None     # the machines that may run something, None before the members are known
        self.since = {}        # of each member since when it is one, as far as this machine knows
        self.returns, self.joined_at = backoff.Backoff(options.rejoin, options.stable), None

    def know(self, members, now):
        self.others = (members | self.peers) - {self.name}
        self.since = {name: self.since.get(name, now) for name in members}  # who joins again lives, and is to be heard soon
        if self.name in members and self.joined_at is None:
            self.joined_at = now
        elif self.name not in members and self.joined_at is not None:
            self.returns.note(self.name, now - self.joined_at, now)
            self.joined_at = None

    def lines(self, members, sight, now, is_free):
        """What the node is told, where these are the members. Who isn't free, since it begins yet, say, judges nobody."""
        if not is_free:
            return []
        if 1 + len(sight.touch(now)) < self.least or sight.is_mute(now):
            return ["leave " + self.name] if self.name in members else []  # others take its children over, or have
        joins = ["join label=" + self.label] if self.name not in members and self.returns.due(self.name) <= now else []
        return joins + ["leave " + name for name in sorted(self.others & members) if self.is_out(name, sight, now)]

    def is_out(self, name, sight, now):
        tells_so = name in sight.words and sight.words[name].state in word.TAKES_NONE and sight.rose[name] > self.since.get(name, now)  # not before it joined
        return tells_so or now - max(sight.last_touch(name), self.since.get(name, now), self.judge_from) >= self.patience
