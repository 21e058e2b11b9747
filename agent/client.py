"""What asks an agent."""
import json
import os
import pwd
import re
import socket
import time

import groups
import seals
import wires

AGAIN = 0.1     # seconds between two tries to reach an agent that begins
PATIENCE = 10   # seconds for an answer
through = ""    # what asks for somebody, as the page


class NoAnswer(Exception):
    """The agent can't be reached, or doesn't answer as one with the secret would: the reason."""


class NotThere(NoAnswer):
    """Nobody listens at the address, or not yet."""


def ask(address, secret, line, patience=PATIENCE, wait=0):
    """The lines that the agent at an address (host and port) answers; one that begins yet is waited for. NoAnswer, also where it takes longer than `patience`."""
    until = time.monotonic() + wait
    while True:
        try:
            told = ask_all(address, secret, [line], patience)[0]
            if not groups.is_early(told) or time.monotonic() > until:
                return told
        except NotThere:
            if time.monotonic() > until:
                raise
        time.sleep(AGAIN)


def ask_all(address, secret, asked, patience=PATIENCE):
    """What is answered to each of some lines, which are all said before an answer is waited for. NoAnswer as for `ask`: some may be done then."""
    if not all(line.isascii() and line.isprintable() for line in asked):
        raise NoAnswer("a line is of visible ASCII and spaces")
    try:
        with connect(address, patience) as link, link.makefile("rb") as lines:
            hello = next_line(lines).split(" ")
            if len(hello) != 3 or hello[0] != "hello":
                raise NoAnswer("no agent is there")
            session = seals.fresh()
            seal, guard = seals.Seal(secret, seals.CLIENT, session, hello[1], hello[2]), seals.Guard(secret, seals.CLIENT, session, misses_none=True)
            # the first line is a short one: who hasn't said a right line is taken for a stranger, and may say no long one
            say(link, "".join(seal.line(text) + "\n" for text in ["hello " + who(), *("ask " + line for line in asked)]))
            return [answer_of(lines, guard) for _ in asked]
    except OSError as fault:
        raise NoAnswer(f"no answer: {fault}") from None


def who():
    """Who asks, as the agent's events tell it; whoever has the secret may say anything."""
    try:
        user = os.environ.get("SUDO_USER") or pwd.getpwuid(os.getuid()).pw_name
    except KeyError:
        user = str(os.getuid())
    return re.sub(r"[^!-~]", "?", f"{user}@{socket.gethostname()}")[:128] + (f" by {through}" if through else "")


def say(link, lines):
    """Sends lines. Where the agent ends the connection meanwhile it has said why, which is still to be read."""
    try:
        link.sendall(lines.encode("ascii"))
    except (BrokenPipeError, ConnectionResetError):
        pass


def connect(address, patience):
    try:
        return socket.create_connection(address, timeout=patience)
    except ConnectionRefusedError as fault:
        raise NotThere(f"no answer: {fault}") from None


def answer_of(lines, guard):
    told = []
    while True:
        line = next_line(lines)
        if line.startswith(wires.REFUSED):
            raise NoAnswer(f"the agent has {line}" + (": has it the same secret?" if line.endswith("wrong seal") else ""))
        try:
            _, _, text = guard.open(line.encode("ascii"))
        except seals.Refused as refusal:
            raise NoAnswer(f"an answer without the right seal: {refusal}") from None
        word, _, rest = text.partition(" ")
        if word == "end":
            return told
        told.append(rest)


def next_line(lines):
    line = lines.readline()
    if not line.endswith(b"\n"):
        raise NoAnswer("the agent ended the connection")
    try:
        return line.decode("ascii").rstrip("\n")
    except UnicodeDecodeError:
        raise NoAnswer("what answers there is no agent") from None


def status(address, secret, patience=PATIENCE, wait=0):
    """What the agent knows of machines and children. NoAnswer as for `ask`."""
    try:
        return json.loads("".join(ask(address, secret, "status", patience, wait)))
    except ValueError:
        raise NoAnswer("no status came") from None
