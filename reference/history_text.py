"""The text of a node's history: its lines that were written whole, and its sessions."""
import re

BEGIN, HEARD, TOLD, END = "begin ", "<", ">", ">"
NUMBER = "0|[1-9][0-9]{0,15}"
BEGIN_LINE = re.compile(f"begin ([a-z0-9_-]{{1,64}}) (sha256|flat) ({NUMBER}) ({NUMBER}) ({NUMBER}) ({NUMBER})")


class BadLine(Exception):
    """A text is no history: the number of the line, from 1, that stands in none there, 0 where there is no line; and why."""


class Exchange:
    """A line that a node heard, with its number; and the lines that it told, or None where its answer has no end."""

    def __init__(self, number, line, told):
        self.number, self.line, self.told = number, line, told


class Session:
    """What a history has of a node from one begin to the next: the begin's words, the lines told unasked, and the exchanges."""

    def __init__(self, number, line):
        words = BEGIN_LINE.fullmatch(line)
        if words is None:
            raise BadLine(number, "a begin is `begin NAME WEIGH INTENSITY PERIOD BUFFER COUNT`")
        self.number, self.name, self.setting, self.count = number, words[1], words.groups()[1:5], int(words[6])
        self.unasked, self.exchanges = None, []


def is_number(word):
    """Whether it is decimal without needless zeros, and no greater than a count may be."""
    return re.fullmatch(NUMBER, word) is not None


def whole_lines(text):
    """The lines that were written whole, each with its number. A begin stands behind a line feed of its own: the line before it is
    empty, or was being written when the node ended, as was what stands behind the last line feed."""
    lines = text.split("\n")
    return [(number, line) for number, (line, behind) in enumerate(zip(lines, lines[1:]), 1) if line and not behind.startswith(BEGIN)]


def sessions_of(text):
    """The sessions of a history."""
    sessions, lines = [], whole_lines(text)
    while lines:
        session, lines = take_session(lines)
        sessions.append(session)
    if not sessions:
        raise BadLine(0, "nothing was written whole")
    return sessions


def take_session(lines):
    """The session at the front of these lines, and the lines behind it."""
    number, line = lines[0]
    if not line.startswith(BEGIN):
        raise BadLine(number, "it stands in no history behind the lines before it")
    session = Session(number, line)
    session.unasked, lines = take_answer(lines[1:])
    is_whole = session.unasked is not None
    while is_whole and lines and lines[0][1].startswith(HEARD):
        number, line = lines[0]
        told, lines = take_answer(lines[1:])
        session.exchanges.append(Exchange(number, line[1:], told))
        is_whole = told is not None
    return session, lines


def take_answer(lines):
    """The lines told at the front, or None where their end isn't there; and the lines behind them."""
    count = next((place for place, (_, line) in enumerate(lines) if line == END or not line.startswith(TOLD)), len(lines))
    if count < len(lines) and lines[count][1] == END:
        return [line[1:] for _, line in lines[:count]], lines[count + 1:]
    return None, lines[count:]
