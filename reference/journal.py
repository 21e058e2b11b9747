#!/usr/bin/env python3
"""The image that a file with records has, by the rules of sup_journal: a second opinion, and the vectors of its tests.

usage: reference/journal.py < FILE     writes the image, or tells the line by which the file is damaged
       reference/journal.py vectors    prints the records that the tests of sup_journal expect, each with what it makes of one image
"""
import sys

FNV_OFFSET_BASIS = 14695981039346656037
FNV_PRIME = 1099511628211
SUM_DIGITS = 20
HEAD_DIGITS = 24


class Damaged(Exception):
    """The line of this number, from 1, is no record, and a record stands behind it."""


def checksum(octets):
    """FNV-1a of 64 bits."""
    value = FNV_OFFSET_BASIS
    for octet in octets:
        value = (value ^ octet) * FNV_PRIME % 2**64
    return value


def edit(retained, deleted, inserted):
    return b"%08d%08d%08d%s" % (retained, deleted, len(inserted), inserted)


def record(*edits):
    """The record of these edits, between its line feeds."""
    text = b"".join(edits)
    return b"\n%020d%s\n" % (checksum(text), text)


def is_record(line):
    digits, edits = line[:SUM_DIGITS], line[SUM_DIGITS:]
    return len(digits) == SUM_DIGITS and digits.isdigit() and int(digits) == checksum(edits)


def applied(line, image):
    """The image after a record."""
    edits, made = line[SUM_DIGITS:], b""
    while len(edits) >= HEAD_DIGITS:
        retained, deleted, inserted = (int(edits[at:at + 8]) for at in (0, 8, 16))
        end = HEAD_DIGITS + inserted
        made += image[:retained] + edits[HEAD_DIGITS:end]
        image, edits = image[retained + deleted:], edits[end:]
    return made + image


def image_of(file):
    """The image that a file of these bytes has."""
    image, *lines = file.split(b"\n")
    # What no line feed ends says nothing behind the first line.
    for number, line in enumerate(lines[:-1], 2):
        if is_record(line):
            image = applied(line, image)
        elif line:
            if any(is_record(later) for later in lines[number - 1:-1]):
                raise Damaged(number)
            break
    return image


IMAGE = b"one two three"


def records():
    """The records of the tests, by name."""
    rows = b"".join(b"row %d of the image: %s;" % (n, b"x" * 20) for n in range(8))
    return {
        "second": record(edit(4, 3, b"TWO")),
        "third": record(edit(8, 5, b"THREE")),
        "several edits": record(edit(0, 3, b"ONE"), edit(1, 0, b"and "), edit(3, 6, b"")),
        "no edits": record(),
        "beyond the end": record(edit(99_999_999, 99_999_999, b" four")),
        "fewer bytes than told": record(b"00000003" b"00000004" b"00000099" b" is "),
        "half a head": record(edit(3, 10, b""), b"0000000100000001000000"),
        "a row changed": record(edit(rows.index(b"3"), 1, b"4")),
        "two rows changed, 23 bytes apart": record(edit(4, 25, b"A" + rows[5:28] + b"B")),
        "two rows changed, 24 bytes apart": record(edit(4, 1, b"A"), edit(24, 1, b"B")),
    }


def main():
    if sys.argv[1:] == ["vectors"]:
        for name, octets in records().items():
            print(f"{name}: {octets!r}, of {IMAGE!r}: {image_of(IMAGE + octets)!r}")
        return 0
    try:
        sys.stdout.buffer.write(image_of(sys.stdin.buffer.read()))
        return 0
    except Damaged as fault:
        print(f"damaged: line {fault} is no record, and a record stands behind it", file=sys.stderr)
        return 1


if __name__ == "__main__":
    sys.exit(main())
