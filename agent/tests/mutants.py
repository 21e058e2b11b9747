#!/usr/bin/env python3
"""Agents without one of their rules, most of them as agents once were: the simulator has to see each break a promise, or a check that sees
nothing, or a rule that nobody misses, would go unnoticed.

    mutants.py --seeds 20        of each mutant how many of so many schedules it breaks, and what
"""
import argparse
import collections
import contextlib
import dataclasses
from typing import NamedTuple

from simulator import nodes, play, promises, schedules, script, shell
import found
import handover
from core import backoff, claims, hold, letters, runs, sight, telling, word


class Mutant(NamedTuple):
    name: str          # what it does
    flavour: str
    promises: tuple    # some that it breaks
    changes: dict      # of each (object, attribute) what stands in for it
    script: str = ""   # where few seeds show it


def nothing(*words):
    return None


def keeps_events_while_the_node_answers(self, what, *words):
    """As an agent whose loop waits for the answers of its node."""
    if self.lines and what != "answered" and self.is_open:
        self.world.after(0.005, self.take, what, *words)
    else:
        TAKE(self, what, *words)


def hand_on_words_of_the_silent(self, to, now, is_anew):
    heard = self.words[to].heard if to in self.words and not is_anew else {}
    lacks = [one for name, one in self.words.items() if name != to and (one.session, one.n) > heard.get(name, sight.NEVER) and not self.gets_straight(to, name, now)]
    return [self.since(one, heard.get(one.name, sight.NEVER), now) for one in lacks]


def do_at_once(self, seen):
    """Orders that came while this machine was taken out are done, and it joins anew later."""
    before, self.withheld = self.withheld, None
    self.do(before)


def tell_news_with_the_next_word(self, one, before, was_stale):
    TAKE_NEWS(self, one, before and dataclasses.replace(before, sees=frozenset()), not before)


def take_no_whole_letter(self, sender, text):
    if not text.startswith(letters.WHOLE):
        TAKE_LETTER(self, sender, text)


def take_any_letter(self, sender, text):
    is_whole = text.startswith(letters.WHOLE)
    if not (is_whole and sender in self.core.hold.whole):
        self.core.ask("deliver " + text.removeprefix(letters.WHOLE), lambda told: self.taken(sender, told, is_whole))


def save_at_begin_alone(self):
    if self.machine.image is None or self.machine.image[0] != self.node.boot:
        self.machine.image = self.copy_of((self.node.boot, self.node.count, self.node.state))


def take_no_runs(runs, table):
    runs.keys = table["keys"]


def waits_for_members_alone(self):
    return [name for name in UNTOLD(self) if name in self.members.others]


def tell_a_join_with_the_next_turn(self, one, before):
    if self.core.name not in one.whole:
        self.send_whole(one)


def misses_words_that_cannot_have_come_yet(self, now):
    state = WHY(self, now)
    has_begun = self.own is not None and self.members.others is not None and not self.sight.has_rival()
    return word.UNHEARD if state == word.BEGINS and has_begun and not self.untold() and self.unheard(now) else state


TAKE, TAKE_LETTER, TAKE_NEWS, WHY, UNTOLD = shell.Shell.take, letters.Letters.take, telling.Telling.take_news, hold.Hold.why, hold.Hold.untold
MUTANTS = [
    # as agents once were
    Mutant("a cut between two of three makes children jump", "cut", ("settles under a cut that stands",),
           {(sight.Sight, "to_hand_on"): lambda *words: []}),
    Mutant("a deaf machine stops all begins", "deaf", ("once under a cut that stands",),
           {(sight.Sight, "asked"): sight.Sight.heard, (sight.Sight, "touch"): sight.Sight.heard}),
    Mutant("one bad child takes all machines out", "crash", ("nobody pays", "begins are bounded"),
           {(backoff.Backoff, "note"): nothing, (backoff.Window, "is_open"): lambda *words: True}),
    Mutant("a lost image is never told", "image", ("lost images are told",),
           {(hold.Hold, "compare"): nothing, (hold.Hold, "is_image_good"): lambda *words: True, (hold.Hold, "outlives_rival"): lambda *words: False}),
    Mutant("two machines of one name both run", "twin", ("one of two of a name runs",), {(sight.Sight, "has_rival"): lambda *words: False}),
    Mutant("the healing of a partition ends every run", "partition", ("healing ends no run",), {(letters.Letters, "come_back"): do_at_once}),
    Mutant("a slow node holds its agent up", "slow", ("nobody pays",), {(shell.Shell, "take"): keeps_events_while_the_node_answers}),
    Mutant("a machine with another secret runs all beside the others", "stranger", ("strangers run nothing",),
           {(hold.Hold, "has_other_secret"): lambda *words: False}),
    Mutant("strangers that died count for ever", "heir", ("heirs run all",), {(hold.Hold, "is_heard"): lambda *words: True}),
    # without one rule
    Mutant("a machine with another setting runs all beside the others", "stranger", ("strangers run nothing",),
           {(hold.Hold, "has_other_setting"): lambda *words: False}),
    Mutant("who took the others for dead counts as one that was there before", "stranger", ("strangers run nothing",),
           {(word, "THERE"): word.OPEN}),
    Mutant("an old word of what a machine sees is believed", "one-way", ("once under a cut that stands",),
           {(sight.Sight, "gets_straight"): lambda self, to, name, now: to in self.words and name in self.words[to].sees}),
    Mutant("nobody is asked before a begin", "any", ("once while all hear one another",), {(claims.Claims, "may_begin"): lambda *words: True}),
    Mutant("who is mute goes on", "mute", ("once under a cut that stands",), {(sight.Sight, "is_mute"): lambda *words: False}),
    Mutant("who begins waits for nobody", "any", ("once while all hear one another",), {(hold.Hold, "untold"): lambda *words: []}),
    Mutant("a child that ends begins again at once", "crash", ("crash loops are slow",), {(backoff.Backoff, "note"): nothing}),
    Mutant("who begins is sent no whole state", "image", (promises.WELL,), {(letters.Letters, "take"): take_no_whole_letter}),
    Mutant("who has lost its image begins at once", "image", ("no dot is given twice",),
           {(hold.Hold, "untold"): lambda *words: [], (hold.Hold, "waits_for_a_word"): lambda *words: False, (hold.Hold, "compare"): nothing,
            (hold.Hold, "outlives_rival"): lambda *words: False, (sight.Sight, "has_rival"): lambda *words: False}),
    Mutant("who has a new image and is alone begins", "alone", ("a lost image alone waits",), {(hold.Hold, "waits_for_a_word"): lambda *words: False}),
    Mutant("a full disk keeps its children", "full", ("a full disk stops no child",), {(hold.Hold, "is_full"): lambda *words: False}),
    Mutant("a run begins beside one that ends on the same machine", "any", (promises.ONE_EACH,),
           {(runs.Runs, "due"): lambda self, now: list(self.waiting)}),
    Mutant("what an earlier agent left lives on", "any", (promises.ONE_EACH,), {(shell.Shell, "end_leftovers"): nothing}),
    Mutant("a newer program knows nothing of what runs", "upgrade", (promises.ONE_EACH,), {(handover, "take_core"): take_no_runs}),
    Mutant("a node answers before its disk has what it tells", "any", ("no command is lost",), {(nodes.RulesNode, "save"): save_at_begin_alone}),
    Mutant("what was lost on its way is never sent again", "any", (promises.WELL,),
           {(letters.Letters, "has_shipped"): lambda self, name, told, changes: self.has_all.__setitem__(name, changes)}),
    Mutant("whom a machine hears straight no more, and whom it hears again, is told with its next word", "one-way", ("once while all hear one another",),
           {(telling.Telling, "sees_until"): lambda *words: float("inf"), (telling.Telling, "take_news"): tell_news_with_the_next_word}, found.SIX_DIRECTIONS),
    Mutant("who begins goes on beside machines that don't hear it", "image", ("no dot is given twice",), {(hold.Hold, "unheard"): lambda *words: set()}, found.UNHEARD),
    Mutant("who begins misses words of others that can't have come yet", "seeds", (promises.WELL,), {(hold.Hold, "why"): misses_words_that_cannot_have_come_yet},
           found.NAMED_BY_TWO),
    Mutant("what who begins had to refuse is sent again with the next turn alone", "slow", ("nobody pays",),
           {(letters.Letters, "take_word"): tell_a_join_with_the_next_turn}, found.STARTED_BEHIND_A_JOIN),
    Mutant("who took all others out and names nobody begins at once", "seeds", ("once while all hear one another",),
           {(hold.Hold, "may_meet_others"): lambda self: self.may_meet_any and (self.is_empty or not self.members.others)}, found.TOOK_THE_OTHER_OUT),
    Mutant("who begins waits for nobody that was taken out meanwhile", "broker", ("once while all hear one another",), {(hold.Hold, "untold"): waits_for_members_alone},
           found.TAKEN_OUT_MEANWHILE),
    Mutant("who has said nothing for long begins again what it ran, without asking", "any", ("once while all hear one another",),
           {(sight.Sight, "was_silent"): lambda *words: False}, found.SAID_NOTHING),
    Mutant("words of silent machines are handed on", "upgrade", ("nobody pays",), {(sight.Sight, "to_hand_on"): hand_on_words_of_the_silent},
           found.DEAD_BESIDE_AN_UPGRADE),
    Mutant("who took the place of a later boot is forgotten at the next begin", "any", ("well after the last fault",), {(shell.Shell, "keep_ahead"): nothing}, found.LOST_AND_UPGRADED),
    Mutant("letters are taken of whose sender's whole state nothing is known", "image", ("no dot is given twice",), {(letters.Letters, "take"): take_any_letter},
           found.CUT_OFF_AT_ITS_BEGIN),
]


@contextlib.contextmanager
def changed(mutant):
    kept = {(of, attribute): getattr(of, attribute) for of, attribute in mutant.changes}
    for (of, attribute), instead in mutant.changes.items():
        setattr(of, attribute, instead)
    try:
        yield
    finally:
        for (of, attribute), as_it_was in kept.items():
            setattr(of, attribute, as_it_was)


def broken_by(mutant, seed):
    """Which promises it breaks, and how, in the schedule of a seed, or in its script."""
    with changed(mutant):
        return play.Played(script.read(mutant.script) if mutant.script else schedules.Schedule(mutant.flavour, seed).script).broken


def main():
    given = argparse.ArgumentParser(description=__doc__, formatter_class=argparse.RawDescriptionHelpFormatter)
    given.add_argument("--seeds", type=int, default=20)
    given.add_argument("--only", default="", help="a part of the name")
    given = given.parse_args()
    for mutant in MUTANTS:
        if given.only in mutant.name:
            told = [broken_by(mutant, seed) for seed in range(1 if mutant.script else given.seeds)]
            broken = collections.Counter(what for one in told for what in one)
            first = {promise: next((seed for seed, one in enumerate(told) if promise in one), None) for promise in mutant.promises}
            print(f"{mutant.name} ({mutant.flavour}): {sum(map(bool, told))} of {len(told)} broke; "
                  + ", ".join(f"{count} {what}" for what, count in sorted(broken.items())) + f"; first: {first}", flush=True)



if __name__ == "__main__":
    main()
