"""The end: a machine that was told to stop drains, ends what it runs, and leaves, as far as that can be done at each turn."""
from core import word

LAST_WORDS = 2  # seconds at most in which the others hear that this machine has left


class Leaving:
    def __init__(self, core):
        self.core, self.is_drained, self.left_at, self.last_word = core, False, None, None

    def go_on(self):
        core, now = self.core, self.core.now
        if self.left_at is not None:
            if self.is_over() and self.last_word is None:
                self.last_word = core.telling.n + 1
            if now - self.left_at > LAST_WORDS or not core.node.asked and not self.lacking():
                core.act("left")
            return
        late = now - core.leave_at > core.options.leave_time
        self.say("drain", not self.is_drained)
        core.runs.end_all(now)
        if late:
            core.runs.kill_all()
        if not core.runs.here and not core.node.asked and core.node.is_there and core.state != word.BEGINS or late:
            self.left_at, core.letters.ship_at = now, now
            self.say("leave", True)

    def is_over(self):
        """Whether this process runs nothing and never will."""
        return self.left_at is not None and not self.core.runs.here

    def lacking(self):
        """The machines in touch that haven't heard yet that it runs nothing any more, or lack what its node knows."""
        core, touch = self.core, self.core.sight.touch(self.core.now)
        return core.letters.lacking() & touch | {name for name in touch if self.last_word is None or core.sight.echo[name] < self.last_word}

    def say(self, verb, is_due):
        """Who doesn't know all that others know of it, or isn't one of them, says nothing: it could give dots again."""
        if is_due and self.core.node.is_there and self.core.is_open():
            self.is_drained = True
            self.core.ask_and_do(f"{verb} {self.core.name}")
