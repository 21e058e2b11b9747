"""What the command `sebrakt` prints: lines for people, or one value of JSON for programs."""
import json
import sys


class NotDone(Exception):
    """Why a command did nothing, or not all, and what to do about it; `value` has more for programs."""

    def __init__(self, why, advice="", status=1, **value):
        super().__init__(why)
        self.why, self.advice, self.status, self.value = why, advice, status, value


class Told:
    """Lines as they come, or one value in the end."""

    def __init__(self, is_value):
        self.is_value, self.value = is_value, {}

    def say(self, *lines, **value):
        self.value.update(value)
        if not self.is_value:
            print("\n".join(lines), flush=True)

    def end(self):
        """The program's status, once all is done."""
        if self.is_value:
            print(json.dumps({**self.value, "ok": True}))
        return 0

    def fail(self, fault):
        """The program's status, once something isn't done."""
        if self.is_value:
            print(json.dumps({**self.value, **fault.value, "ok": False, "why": fault.why, "advice": fault.advice}))
        else:
            print("\n".join(["sebrakt: " + fault.why, *("  " + line for line in fault.advice.split("\n") if line)]), file=sys.stderr)
        return fault.status
