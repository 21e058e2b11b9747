"""What hinders this machine: it begins nothing before the others have told what they run, beside another process of its name, with an image that is
lost or older than what others know of it, with another setting or secret than those that were there before; and it gives way where its disk is full.
"""
from core import answer, word


class Hold:
    def __init__(self, name, options, peers, sight, members, log, now):
        self.name, self.options, self.sight, self.members, self.log = name, options, sight, members, log
        self.may_meet_any = peers is None     # nobody knows which machines there are, so they can't be waited for by name
        self.since, self.first_word = now, 1  # until all others have heard the word of this number, nothing begins
        self.own, self.whole = None, frozenset()   # its newest dot; whose whole state it has taken up
        self.is_empty, self.is_old = False, False  # whether its image knows nothing; whether others knew more than it
        self.has_met, self.first_others = False, None  # whether its image knows entries of others; which others it knew when it began, before these told it
        self.was_there = False                # whether it has run children before it met what hinders it now
        self.is_sure = False                  # whether it has begun
        self.unsealed, self.minds_secrets = set(), True  # the peers that it reached, and whose lines are sealed by another secret; whether that hinders it
        self.refused_from = self.refused_at = None  # since when the disk keeps nothing, and when it was tried last

    def begin_anew(self, next_word, now):
        """It begins, was held, or was hindered: it judges nobody by the time before that."""
        self.since, self.first_word, self.members.judge_from, self.first_others = now, next_word, now, self.members.others

    def begin_alone(self):
        """A person's word: nobody knows more than this machine, or nobody who does will come back."""
        self.since, self.is_empty, self.is_old, self.minds_secrets = float("-inf"), False, False, False

    def look(self, now):
        """What hinders it."""
        self.first_others = self.members.others if self.first_others is None else self.first_others
        state = self.why(now)
        self.was_there = state == "" or self.was_there and state not in word.ASIDE
        return state

    def why(self, now):
        if self.sight.has_rival() and self.sight.rival_rose - self.sight.began > 2 * self.options.silent:
            return word.RIVAL
        if self.sight.strangers and self.has_other_setting(now):
            return word.SETTING
        if self.has_other_secret():
            return word.SECRET
        if self.sight.has_rival() or self.own is None or self.members.others is None:
            return word.BEGINS
        if self.waits_for_a_word():
            return word.EMPTY
        if not self.is_image_good():
            return word.OLD
        unheard = self.unheard(now)
        if now < self.ends() and (self.may_meet_others() or self.untold() or unheard):
            return word.BEGINS
        if unheard:
            return word.UNHEARD
        return word.FULL if self.is_full() else word.LATER if self.comes_later(now) else ""

    def may_meet_others(self):
        """Whether it may meet machines of which neither its words nor its image tell: nobody knows which there are, or it took all others out."""
        return self.may_meet_any and self.is_empty or not self.first_others and (self.may_meet_any or self.has_met)

    def ends(self):
        return self.since + self.options.grace

    def untold(self):
        """The others that haven't told what they run since this one begins, or not all that they know. Who was taken out meanwhile may run something yet."""
        return [name for name in sorted(self.members.others | self.first_others) if self.sight.echo.get(name, 0) < self.first_word or name not in self.whole]

    def unheard(self, now):
        """Those that it hears, that haven't told all that they know, and don't tell to have heard what it says: no time passes over them. Who has begun knew
        what those knew that it heard."""
        if self.is_sure:
            return set()
        said, echo, lately = self.sight.said, self.sight.echo, self.since + self.options.grace / 3
        return {name for name in self.sight.heard(now) - self.whole if said.get(echo[name], float("-inf")) < lately}

    def waits_for_a_word(self):
        """An empty image beside configured peers may be one that was lost, so it waits for a word of one of them, or of a person."""
        return self.is_empty and not (self.options.alone or self.sight.words or not self.members.peers)

    # -- an image that was lost, or an older one

    def take_first_look(self, seen):
        self.own, known = answer.newest_dot(seen, self.name), answer.who_gave_dots(seen)
        self.is_empty, self.has_met = not known, bool(known - {self.name})

    def compare(self, sender, seen):
        """Behind a whole state: whether its sender knew more of this machine than its image. Then dots could be given again."""
        newest = answer.newest_dot(seen, self.name)
        if newest > self.own:
            self.log(f"the image is lost or old: it had {self.own} of this machine's entries, {sender} knows {newest}; what nobody else has heard is lost")
            self.own, self.is_old = newest, True

    def is_image_good(self):
        if self.sight.is_boot_given_again and not self.is_old:
            self.log("an earlier process had this boot: the image is lost or old, unless a second machine has this name")
            self.is_old, self.sight.is_boot_given_again = True, False
        if self.is_old and self.members.others <= self.whole:
            self.is_old = False
            self.log("has taken up the whole state of all others, and goes on")
        return not self.is_old

    # -- another process of this name

    def outlives_rival(self, now):
        """Whether the other one's words have stood still for so long that it has ended. Then this one takes its place. Before its node has begun, and has
        a boot, each earlier process of its own image looks so."""
        if self.own is None or not self.sight.has_rival() or now - max(self.sight.rival_rose, self.sight.began) < self.options.silent:
            return False
        self.sight.begin_session(self.sight.rival[0][0] + 1)
        self.log("another process of this name had a later boot, and is silent now: this one takes its place.",
                 "Unless a second machine has this name, the image is lost or old")
        self.is_old, self.whole = True, frozenset()
        return True

    # -- another setting, another secret: those that were there before go on

    def has_other_setting(self, now):
        """Who is silent counts no more, nor who has left."""
        strangers = [one for one in self.sight.strangers.values() if one.state != word.LEFT and self.is_heard(one, now)]
        sides = {self.sight.setting: [(not self.was_there, self.name)]}
        for one in [*(self.sight.words[name] for name in self.sight.heard(now)), *strangers]:
            sides.setdefault(one.setting, []).append((one.state not in word.THERE, one.name))
        return min(sides, key=lambda setting: rank(sides[setting])) != self.sight.setting

    def is_heard(self, stranger, now):
        return now - self.sight.met[stranger.name] < self.options.silent

    def comes_later(self, now):
        """Whether it goes on in place of others, of another setting, that were there before: they may live, and come back."""
        return not self.was_there and any(one.state in word.THERE and not self.is_heard(one, now) for one in self.sight.strangers.values())

    def has_other_secret(self):
        """Who has heard a right line goes on, and so does who was there before, unless it finds itself alone among several peers' addresses."""
        if not self.unsealed or self.sight.words or self.sight.strangers:
            return False
        return self.minds_secrets and (not self.was_there or len(self.unsealed) > 1 and not self.may_meet_any)

    def meet_unsealed(self, name):
        if name not in self.unsealed:
            self.log("the lines of", name, "are sealed by another secret")
        self.unsealed.add(name)

    # -- a full disk

    def note_kept(self, reply, now):
        """Takes an answer: the dot that it gives, if any, and whether the disk keeps what is new."""
        if reply.startswith(f"ok ({self.name},"):
            self.own = int(reply[len(self.name) + 5:].split(")")[0])
        if reply.startswith(answer.NOT_KEPT):
            self.refused_from, self.refused_at = now if self.refused_from is None else self.refused_from, now
        elif reply.startswith(answer.KEPT):
            self.refused_from = None

    def is_full(self):
        return self.refused_from is not None and self.refused_at - self.refused_from >= self.options.silent

    # -- what people are told

    def sentence(self, state):
        """This machine's state in words, with those for whom it waits."""
        others = self.members.others or set()
        names = sorted(others - self.whole) if state in (word.OLD, word.UNHEARD) else self.untold() if state == word.BEGINS and others else []
        return word.WHY.get(state, state) + (": waits for " + ", ".join(names) if names else "")


def rank(side):
    """Of the machines with a setting, as (whether it wasn't there before, name): the most that were go on, of as many those with the least name."""
    return -sum(not is_new for is_new, _ in side), min(side)
