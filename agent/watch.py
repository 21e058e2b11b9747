"""Looks some times a second at what the cores know, and notes what is new: runs of other machines, machines that come, go or are hindered, commands
that lost against another one. It decides nothing, and works in small pieces between the turns of the loop.
"""
import time

import events
import groups
import history
from clock import seconds

EACH = 0.2         # seconds between two looks
PIECE = 0.005      # seconds of a turn that are spent on it
TABLES_EACH = 30   # seconds between two looks at tables that have changed, whether a command has lost; whoever asks for the status looks, too


class Watch:
    def __init__(self, agent, mark):
        self.agent, self.events = agent, events.Events(agent.name, mark, agent.log)
        self.history = history.History(self.events.note)
        self.at, self.pieces, self.tables_at = 0, None, 0
        self.looked = {}                     # of each group and machine what it has told, and the number of its word that was looked at
        self.members, self.sight, self.losers = None, {}, set()

    def work(self):
        """Does some of it, where it is due. Whether there is more to do at once."""
        now = seconds()
        if self.pieces is None and now >= self.at:
            self.at, self.pieces = now + EACH, self.look(now)
        while (pieces := self.pieces) is not None and seconds() < now + PIECE:
            if next(pieces, self) is self:
                self.pieces = None
        return self.pieces is not None

    def look(self, now):
        views = [group.people(now) for group in self.agent.groups]
        self.look_at_machines(views)
        self.look_at_members()
        self.look_at_tables(now)
        line = self.events.take_unsaid()
        for name in self.events.up if line else ():
            self.agent.links.tell(name, line)
        for group in self.agent.groups:
            sight = group.core.sight
            for name in list(sight.told):
                yield from self.look_at_runs(group.number, name, sight.told[name], sight.words[name].n, now)
        self.history.forget([told for people in views for told in people.told.values()])
        yield

    def look_at_runs(self, group, name, told, newest, now):
        before, base = self.looked.get((group, name), (None, 0))
        self.looked[group, name] = told, newest
        if before is not told and before is not None:
            yield from self.history.lose(name, told.children, time.time(), lambda ident: groups.group_of(ident, len(self.agent.groups)) == group)
        if before is told and base >= newest:
            return
        for ident, child in told.since(base if before is told else 0, now)[1].items():
            self.history.hear(name, ident, child, time.time(), before is None)
            yield

    def look_at_machines(self, views):
        """Notes how machines are heard, and what hinders them, where all groups agree."""
        told = [people.machines() for people in views]
        for name in sorted(set().union(*told)):
            seen = {(how.removesuffix(" through others"), hinders.partition(":")[0]) for machines in told for how, hinders in [machines.get(name, ("", ""))]}
            if len(seen) == 1 and self.sight.get(name) not in seen:
                before, self.sight[name] = self.sight.get(name, ("", "")), seen.pop()
                for was, how, well in zip(before, self.sight[name], ("in touch", "nothing hinders it any more")):
                    if how != was and (how, was) not in (("here", ""), ("not heard yet", "")):
                        self.events.note_and_log("machine", name, how=how or well)

    def look_at_members(self):
        known = [group.core.members for group in self.agent.groups if group.core.members.others is not None]
        members = {name for one in known for name in one.since}
        if len(known) == len(self.agent.groups):
            for name in sorted(members ^ (members if self.members is None else self.members)):
                self.events.note_and_log("in" if name in members else "out", name)
            self.members = members

    def look_at_tables(self, now):
        """Has the status made where the tables have changed, though nobody asks for it: two machines may have taken commands that don't agree."""
        view = self.agent.view
        if now >= self.tables_at and view.is_old():
            self.tables_at = now + TABLES_EACH
            view.ask(lambda lines: None)
        lost = {(loser["table"], loser["key"], loser["dot"]) for loser in view.losers}
        for loser in view.losers:
            if (loser["table"], loser["key"], loser["dot"]) not in self.losers:
                self.events.note_and_log("lost", loser["at"], id=loser["key"], dot=loser["dot"], line=loser["line"])
        self.losers = lost
