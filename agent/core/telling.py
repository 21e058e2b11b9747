"""This machine's word: told to all at each change and when time has passed, and to those who lack another's, handed on with it.

Who is in touch is told the changes since a word that all of them have heard, so it is one word for all.
"""
from core import told, word

GAP, A_SECOND = 0.02, 20_000  # seconds at least between two words; so many children at most are told of in a second
MANY = 100                    # children in a word for which its sender waits to hear that it came


class Telling:
    def __init__(self, core):
        self.core, self.n, self.told = core, 0, told.Told()
        self.to, self.at, self.next_at, self.state = set(), core.now, core.now, None  # who is told next; when all are, and not before when; what was told
        self.lacking, self.last = set(), {}  # to whom words of others are handed on; what each was told last of this machine
        self.sees = frozenset()  # whom it has told to hear straight
        self.anew = {}  # of each link the number of the first word behind its begin: before, somebody else may have been there

    def link(self, name):
        self.anew[name] = self.n + 1
        self.to.add(name)

    def is_anew(self, name):
        return self.core.sight.echo.get(name, 0) < self.anew.get(name, 0)

    def take_news(self, one, before, was_stale):
        """A word that was news: its sender may wait to hear that it came, or lack what it heard straight before, or it may have to be handed on."""
        core = self.core
        if was_stale or before.session != one.session or not one.claims <= before.claims:
            self.to.update(core.up)
        if before and not before.sees <= one.sees:
            self.lacking.add(one.name)
        if len(one.children) > MANY or one.state == word.LEFT:
            self.to.add(one.name)
        self.lacking |= {name for name in core.up if name != one.name and not core.sight.gets_straight(name, one.name, core.now)}

    def tell(self):
        core, now = self.core, self.core.now
        if self.is_silent():
            self.pass_time(now)
            return
        state = frozenset(core.claims.claimed), core.state, core.hold.whole
        is_due = core.runs.touched or state != self.state or now >= self.at or now >= self.sees_until()
        self.to.update(core.up if is_due else ())
        if now >= self.next_at and (self.to or is_due):
            self.tell_own(state, now)
        elif now >= self.next_at and self.lacking:
            self.hand_on(now)

    def tell_own(self, state, now):
        core, self.n = self.core, self.n + 1
        self.told.take(self.n - 1, {ident: core.runs.child(ident, now) for ident in core.runs.touched}, self.n, now)
        self.state, core.runs.touched = state, set()
        self.pass_time(now)
        core.sight.say(self.n, now)
        self.sees = core.sight.sees(now)
        most = self.say(sorted((self.to | self.lacking) & core.up), now)
        self.to, self.lacking, self.next_at = set(), set(), now + max(GAP, most / A_SECOND)

    def hand_on(self, now):
        """Sends others' words behind the last one of this machine: a new one with each of them would be news, to be handed on in its turn."""
        for name in sorted(self.lacking & self.core.up & self.last.keys()):
            words = self.core.sight.to_hand_on(name, now, self.is_anew(name))
            if words:
                self.core.act("words", name, (self.last[name], *words))
        self.lacking, self.next_at = set(), now + GAP

    def is_silent(self):
        """Whether it has nothing to tell: it has no node."""
        return self.core.node.boot is None or self.core.node.is_lost(self.core.now) and not self.core.runs.here

    def say(self, names, now):
        """Sends the word to these. Of how many children it tells."""
        core, said = self.core, {}
        echo = {name: self.n if name in core.sight.strangers else 0 if self.is_anew(name) else core.sight.echo.get(name, 0) for name in names}
        in_touch = core.sight.touch(now)
        common = min((echo[name] for name in names if name in in_touch and echo[name]), default=0)
        for name in names:
            base = min(echo[name], common) if name in in_touch else echo[name]
            self.last[name] = said[base] = said.get(base) or self.word(base, now)
            core.act("words", name, (said[base], *core.sight.to_hand_on(name, now, self.is_anew(name))))
        return max((len(one.children) for one in said.values()), default=0)

    def word(self, base, now):
        core = self.core
        base, children = self.told.since(base, now)
        return word.Word(core.name, core.sight.session, self.n, core.state, core.sight.setting, base, children, self.state[0], core.sight.known(),
                         self.sees, core.hold.whole)

    def pass_time(self, now):
        if now >= self.at:
            self.at = now + self.core.options.every

    def sees_until(self):
        """When it hears one of those straight no more. Then it tells so at once: other ways have to be found before anybody is taken for silent."""
        return min(map(self.core.sight.straight.get, self.sees), default=float("inf"))

    def moments(self):
        is_soon = self.to or self.lacking or self.core.runs.touched
        return [max(self.next_at, self.at if self.is_silent() else 0 if is_soon else min(self.at, self.sees_until()))]
