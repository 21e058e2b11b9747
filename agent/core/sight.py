"""Which machines this one hears, and which of them hear it: straight or through others.

A machine is *heard* while its words' numbers rise here, whoever brought them. It is *in touch* while, beside that, what it has heard of this
machine rises. Only whether they rise within `silent` seconds counts, and not how late they come: a slow line is no dead one. Machines that place
and count otherwise are strangers: what they say is known, and they are neither heard nor asked.
"""
import dataclasses

from core import told
from core.word import LEFT

NEVER = (0, ""), 0


class Sight:
    def __init__(self, name, mark, setting, silent, log, now):
        self.name, self.session, self.setting, self.silent, self.log, self.began = name, (0, mark), setting, silent, log, now
        self.words, self.told = {}, {}  # of each other machine its newest word, and what it has told of its children
        self.rose, self.touched, self.straight = {}, {}, {}  # of each: when it rose; when its echo rose; until when it counts as one that comes straight
        self.echo = {}              # of each the greatest number of this session that it has heard
        self.said, self.n, self.spoke = {}, 0, now  # when each of the latest numbers was said; the last one, and when
        self.rival, self.rival_rose = NEVER, now  # the greatest foreign session at this name, and its number
        self.lesser = {}            # of each name, a lesser session beside the newest, the greatest of its numbers, since when it lives
        self.strangers, self.met = {}, {}  # the last word of each, and when it rose
        self.is_boot_given_again = False   # whether an earlier process of this name had this boot

    def begin_session(self, epoch):
        """Nobody has heard a word of it yet."""
        self.session, self.echo = (epoch, self.session[1]), dict.fromkeys(self.echo, 0)

    def say(self, n, now):
        if self.was_silent(now):  # it gives the others the time to answer
            self.touched.update(dict.fromkeys(self.touched, now))
        self.n, self.spoke, self.said[n] = n, now, now
        self.said.pop(n - 500, None)

    def was_silent(self, now):
        """Whether it has said nothing itself for so long that others may have taken over what it told of."""
        return now - self.spoke >= self.silent / 2

    def hear(self, word, now, straight):
        """Takes a word. Whether it was news."""
        name, known = word.name, self.words.get(word.name)
        if name == self.name:
            self.meet((word.session, word.n), now)
            return False
        if word.setting != self.setting:
            self.meet_stranger(word, now)
            return False
        if known and (word.session, word.n) <= (known.session, known.n):
            if straight and word.session < known.session:
                self.note_lesser(word, now)
            return False
        is_new = not known or known.session != word.session
        if word.base > (0 if is_new else known.n):
            self.meet(word.heard.get(self.name, NEVER), now)
            return False  # it tells changes of what isn't known here, and will tell all once it has heard this machine
        if is_new or now - self.rose[name] >= self.silent:
            self.touched[name] = now  # it has the time to answer
        if is_new:
            self.echo[name], self.told[name] = 0, told.Told()
        self.words[name], self.rose[name] = word, now
        self.strangers.pop(name, None)
        self.told[name].take(word.base, word.children, word.n, now)
        self.take_echo(name, word.heard.get(self.name), now)
        if straight and now - self.said.get(self.echo[name], now) < self.silent / 2:
            self.straight[name] = now + self.silent / 2
        return True

    def take_echo(self, name, heard, now):
        if heard is None:
            return
        if heard[0] == self.session and self.echo[name] < heard[1] <= self.n:
            self.echo[name], self.touched[name] = heard[1], now
        elif heard[0][1] != self.session[1]:
            self.meet(heard, now)

    def meet(self, heard, now):
        """Notes another process of this machine's name: an earlier one, or one that lives if its number rises."""
        if heard[0][1] != self.session[1]:
            self.is_boot_given_again |= heard[0][0] == self.session[0] > 0
            if heard[0] > self.session and heard > self.rival:
                self.rival, self.rival_rose = heard, now

    def meet_stranger(self, word, now):
        known = self.strangers.get(word.name)
        if known is None:
            self.log(word.name, "has another setting:", word.setting)
        if known is None or known.session != word.session or known.n < word.n:
            self.strangers[word.name], self.met[word.name] = word, now

    def note_lesser(self, word, now):
        session, n, since = self.lesser.get(word.name, (None, 0, now))
        if session != word.session:
            n, since = 0, now
        if word.n > n:
            is_clear = now - since > 2 * self.silent
            if is_clear:
                self.log("two processes of the name", word.name, "live: the one of the later boot is taken for it")
            self.lesser[word.name] = word.session, word.n, float("inf") if is_clear else since

    def has_rival(self):
        return self.rival[0] > self.session

    def heard(self, now):
        return {name for name, moment in self.rose.items() if now - moment < self.silent}

    def touch(self, now):
        return {name for name in self.heard(now) if now - self.touched[name] < self.silent}

    def is_mute(self, now):
        """Whether it hears some machine, and none of those hears it."""
        return bool(self.heard(now)) and not self.touch(now)

    def asked(self, now):
        """The machines without whose word nothing begins: those in touch. Who is mute asks those that it hears, who can't answer. Who has left runs nothing."""
        return {name for name in self.touch(now) or self.heard(now) if self.words[name].state != LEFT}

    def last_touch(self, name):
        """When it was in touch last."""
        return min(self.rose[name], self.touched[name]) if name in self.rose else float("-inf")

    def known(self):
        return {name: (word.session, word.n) for name, word in self.words.items()}

    def sees(self, now):
        return frozenset([name for name, until in self.straight.items() if now < until])

    def is_stale(self, name, now):
        return name not in self.rose or now - self.rose[name] >= self.silent / 2

    def gets_straight(self, to, name, now):
        """Whether a machine tells that another one's words come to it straight. Who isn't heard itself may tell it no more."""
        return to in self.words and name in self.words[to].sees and not self.is_stale(to, now)

    def to_hand_on(self, to, now, is_anew):
        """The words that a machine lacks and doesn't get straight; of the silent none, since they would count as heard there. What it has heard isn't known
        where it may have begun anew."""
        heard, living = self.words[to].heard if to in self.words and not is_anew else {}, self.heard(now)
        lacks = [word for name, word in self.words.items() if name in living and name != to and (word.session, word.n) > heard.get(name, NEVER) and not self.gets_straight(to, name, now)]
        return [self.since(word, heard.get(word.name, NEVER), now) for word in lacks]

    def since(self, word, heard, now):
        """A word as it is told to who has heard an earlier one."""
        base, children = self.told[word.name].since(heard[1] if heard[0] == word.session else 0, now)
        return dataclasses.replace(word, base=base, children=children)
