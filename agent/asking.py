"""The agent that commands are given to."""
import os
import time

import client
import groups
import seals
import settings
import wanted
import wires

BEGINS = 5  # seconds at most for which an agent that begins is asked again
LOOK = 0.3  # seconds until it is asked again


class Agent:
    """At an address, with a secret; `whence` is in words where these were said."""

    def __init__(self, address, secret, whence, patience=client.PATIENCE, begins=BEGINS):
        self.address, self.secret, self.whence, self.patience, self.begins = address, secret, whence, patience, begins
        self.has_answered = False

    def ask(self, line):
        """What it answers, once it is there and takes commands. NoAnswer as of the client. A line that it may have done isn't said again."""
        end = time.monotonic() + self.begins
        while True:
            try:
                told = client.ask(self.address, self.secret, line, self.patience)
                self.has_answered = True
                if not all(first.startswith("not yet") for first in groups.first_lines(told)) or time.monotonic() > end:
                    return told
            except client.NotThere:
                if self.has_answered or time.monotonic() > end:
                    raise
            time.sleep(LOOK)

    def may_have_heard(self, fault):
        """Whether it may have done a line to which there was no answer."""
        return not isinstance(fault, client.NotThere) and "refused" not in str(fault)

    def words_of(self, fault):
        """Why it gave no answer, and what to do."""
        if self.has_answered:
            return "the agent no longer answers", f"it has ended, or its machine is away; asked was {self.whence}"
        advice = "--secret FILE or SEBRAKT_SECRET names the file of the cluster's secret" if "seal" in str(fault) else "is an agent there?"
        return str(fault), f"{advice}\nasked was {self.whence}"

    def status(self):
        """What it knows of machines and children; what it tells of runs may be a second old."""
        return client.status(self.address, self.secret, self.patience, self.begins)

    def tables(self):
        """The children and names of all its nodes. NotShown where one shows none, NoAnswer."""
        return wanted.tables_shown(self.ask("show"))


def agent_of(options, environment=os.environ, **waits):
    """The agent that options, environment or a file name. NoSettings or BadSecret where there is none."""
    (address, said_at), (path, secret_at) = settings.find(options, environment)
    try:
        pair = wires.address_of(address)
    except ValueError as fault:
        raise settings.NoSettings(f"{fault} ({said_at})") from None
    try:
        secret = seals.read_secret(path)
    except seals.BadSecret as bad:
        raise seals.BadSecret(f"{bad} (the secret's file, by {secret_at})") from None
    return Agent(pair, secret, f"{address}, by {said_at}; {'with the secret of ' + path if path else 'without a secret'}", **waits)
