#!/usr/bin/env python3
"""Writes PROMISES anew so that in the last columns of each row the first name of each file that has a call, a type or a definition links to that file.
Names are looked up in the crates that the row names, then in those that its section does, and then in all. Tells the rows that have no link. With
--check it writes nothing, and its status is 1 where the page isn't as it would be written, or a row has no link. usage: docs/link_promises.py [--check]
"""
import collections
import os
import pathlib
import re
import sys

TOP = pathlib.Path(__file__).resolve().parent.parent
PAGE = TOP / "docs" / "PROMISES.md"
CODE = re.compile(r"^\s*(?:pub )?(?:const )?(?:fn|struct|enum|trait|type) ([A-Za-z_]\w*)", re.MULTILINE)
DEFINED = re.compile(r"^\s*(?:(?:pub )?record (\w+)|(?:\w+ )*?([A-Za-z_]\w*) :)", re.MULTILINE)
NOT_THE_LIBRARYS = "_tests", "_test_texts", "_times", "_again"
SPAN = re.compile(r"(?<!\[)`([A-Za-z_][\w:]*(?:\.antt)?)`(?!\])")
CLAUSE = re.compile(r"(?:, `[a-z_]+`)*(?: and `[a-z_]+`)? of `")
LINKED = re.compile(r"\[`([^`]+)`\]\([^)]*\)")


def files_by_name():
    """Of each crate and name the files that define it, code before definitions before laws."""
    files = collections.defaultdict(list)
    for crate in sorted(p for p in (TOP / "crates").iterdir() if p.is_dir() and not p.name.endswith(NOT_THE_LIBRARYS)):
        for part, pattern in (("src", CODE), ("specs", DEFINED), ("proofs", DEFINED)):
            for file in sorted((crate / part).rglob("*")) if (crate / part).is_dir() else []:
                if file.suffix in (".rt", ".antt") and file.name != "Lib.antt":
                    for name in {found[found.lastindex] for found in pattern.finditer(file.read_text())}:
                        files[crate.name, name].append(file)
    return files


def crates_of(heading):
    return re.findall(r"`(sup_\w+)`", heading)


class Linker:
    def __init__(self):
        self.files = files_by_name()
        self.crates = sorted({crate for crate, _ in self.files})

    def file_of(self, span, crates):
        """The file of a name in the first of these crates that has it, the first whose code has it if any, or in the only file of all that has it."""
        near = [file for crate in crates for file in self.files_in(crate, span)]
        if near:
            return next((file for file in near if file.suffix == ".rt"), near[0])
        files = [file for crate in self.crates for file in self.files_in(crate, span)]
        return files[0] if len(files) == 1 else None

    def files_in(self, crate, span):
        owner, _, name = span.rpartition("::")
        files = self.files.get((crate, name), [])
        return [file for file in files if not owner or re.search(rf"impl[^{{]*\b{owner}\b|trait {owner}\b", file.read_text())]

    def linked(self, text, crates):
        """The cells with links: from a clause, which stands before `of` or in a column of its own, there is none, and to a file one."""
        text, seen = LINKED.sub(r"`\1`", text), set()

        def link(found):
            span = found[1]
            is_clause = text.rfind(" | ", 0, found.start()) >= 0 or CLAUSE.match(text, found.end())
            file = None if span.islower() and is_clause else self.file_of(span, crates)
            if file is None or file in seen:
                return found[0]
            seen.add(file)
            return f"[`{span}`]({os.path.relpath(file, PAGE.parent)})"

        return SPAN.sub(link, text)


def main(words):
    linker, crates, lines, bare = Linker(), [], [], []
    before = PAGE.read_text()
    for number, line in enumerate(before.splitlines(), 1):
        if line.startswith("#"):
            crates = crates_of(line)
        elif not line.startswith("| "):
            crates = crates + crates_of(line)
        elif not lines[-1].startswith("| ") and not lines[-1].startswith("|--"):
            last_columns = 2 if "| Call | Clause |" in line else 1
        else:
            cells = line.split(" | ")
            rest = " | ".join(cells[-last_columns:])
            line = " | ".join([*cells[:-last_columns], linker.linked(rest, crates_of(line) + crates)])
            if "](" not in line:
                bare.append(f"line {number}: {line[:100]}")
        lines.append(line)
    after = "\n".join(lines) + "\n"
    print(*bare, f"{len(bare)} rows without a link", sep="\n")
    if "--check" in words:
        return int(after != before or bool(bare))
    PAGE.write_text(after)
    return 0


if __name__ == "__main__":
    sys.exit(main(sys.argv[1:]))
