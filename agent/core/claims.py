"""Which machine may begin a run of a child, so that machines in touch never run it twice while it moves, or their tables differ.

It is Ricart and Agrawala's mutual exclusion (1981), told as states. A machine that is to begin a child claims it, and begins it once every
machine in touch has told, knowing of the claim, that it doesn't run the child, and that it doesn't claim it, or has the greater name. Words
may come late, through others, or not at all: only the newest of each machine counts. What a machine has told to run, and no other one tells, it
may begin again without a claim.
"""


class Claims:
    def __init__(self, name):
        self.name = name
        self.claimed = {}  # of each id that is claimed, the number of the first word that told so

    def claim(self, idents, next_number):
        """Claims these and no others."""
        self.claimed = {ident: self.claimed.get(ident, next_number) for ident in idents}

    def may_begin(self, ident, sight, asked):
        return all(sight.echo[name] >= self.claimed[ident] and not sight.told[name].runs(ident)
                   and (name > self.name or ident not in sight.words[name].claims) for name in asked)
