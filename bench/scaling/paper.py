"""What many machines with many children would take in groups, on paper: each group is a cluster of its own, with a node on each of its machines."""
from dataclasses import dataclass

from .exchanges import DOT_BYTES, ROW_BYTES

HEAD, ACKNOWLEDGEMENT = 95, 53  # bytes of a letter beside its rows and dots, and of an acknowledgement
MOST_ROWS = 10_000


@dataclass
class Plan:
    machines: int
    children: int
    groups: int
    members: int  # of each group
    changes: float  # rows added or removed a second, over all
    rounds: float  # a second

    def told(self):
        """Lines of what it takes; a machine's where nothing else is said."""
        rows = self.children / self.groups + self.members
        nodes = self.groups * self.members / self.machines
        changes, peers = self.changes / self.groups, self.members - 1  # changes a second of a group
        image = rows * ROW_BYTES
        # A node saves each change of its own, and what a round brings from a peer once; what it knows already it doesn't save.
        saves = changes / self.members + min(changes * peers / self.members, peers * self.rounds)
        yield f"groups: {self.groups} of {self.members} members, {rows:,.0f} rows each{'' if rows <= MOST_ROWS else ', TOO MANY'}"
        yield f"nodes: {nodes:.1f}, whose images have {nodes * image / 1e6:.1f} MB"
        for way, hops in ("all to all", self.members * peers), ("ring", self.members):
            # Each change goes so many hops until all have acknowledged it; changes of one round share a letter.
            letters = hops * min(changes, self.rounds)
            sent = letters * (HEAD + ACKNOWLEDGEMENT) + hops * changes * (ROW_BYTES + DOT_BYTES)
            share = self.groups / self.machines
            yield f"{way}: {2 * letters * share:,.1f} messages and {sent * share / 1e3:,.2f} kB a second"
        yield f"saves: {saves * nodes:,.1f} a second, with {2 * saves * nodes:,.1f} flushes and {saves * nodes * image / 1e6:,.2f} MB written"
        yield f"one machine back from a stop: {2 * nodes * peers * image / 1e6:,.0f} MB in wholes, to it and from it"
        yield f"members of a group change: {rows * self.members:,.0f} weights at each of its nodes"
