#!/usr/bin/env python3
"""Looks through the pages: each link leads to a file and a heading that is there, each name that PROMISES cites stands in the code, and README
is short. Prints what isn't so; its status is 1 then.
"""
import pathlib
import re
import sys

TOP = pathlib.Path(__file__).resolve().parent.parent
PAGES = [TOP / "README.md", *sorted((TOP / "agent").glob("*.md")), *sorted((TOP / "docs").glob("*.md"))]
LINK = re.compile(r"\[[^\]]*\]\(([^)\s]+)\)")
SPAN = re.compile(r"`([^`]+)`")
NAME = re.compile(r"[A-Za-z_][A-Za-z0-9_]*")
README_BYTES = 8192


def without_code(text):
    """The text of a page but for its blocks of code, in which brackets and hashes mean something else."""
    return re.sub(r"^(```.*?^```|(?: {4}|\t).*?)$", "", text, flags=re.DOTALL | re.MULTILINE)


def anchors_of(page):
    """The names by which headings are linked: their words in lower case, without punctuation, joined by hyphens."""
    heads = re.findall(r"^#+ (.*)$", without_code(page.read_text()), flags=re.MULTILINE)
    return {re.sub(r"[^\w\- ]", "", head.lower()).replace(" ", "-") for head in heads}


def faults_of_links(page):
    for target in LINK.findall(without_code(page.read_text())):
        path, _, anchor = target.partition("#")
        if re.match(r"[a-z]+:", target):
            continue
        to = (page.parent / path).resolve() if path else page
        if not to.exists():
            yield f"{page.relative_to(TOP)}: no file {path}"
        elif anchor and anchor not in anchors_of(to):
            yield f"{page.relative_to(TOP)}: no heading #{anchor} in {to.relative_to(TOP)}"


def names_of_code():
    """Each word of the code, its definitions, proofs and lists of crates."""
    words = set()
    for folder in ("crates", "agent", "bench", "building", "docs", "reference", "review"):
        for file in (TOP / folder).rglob("*"):
            if file.suffix in (".rt", ".antt", ".py", ".sh", ".edit", "") and file.is_file() and "out" not in file.parts:
                words.update(NAME.findall(file.read_text(errors="ignore")))
                words.update(NAME.findall(file.stem))
    return words | set(NAME.findall((TOP / "crates.txt").read_text()))


def faults_of_names(page):
    words = names_of_code()
    for span in SPAN.findall(without_code(page.read_text())):
        for name in NAME.findall(span):
            if name not in words:
                yield f"{page.relative_to(TOP)}: `{span}` names {name}, which the code hasn't"


def faults():
    for page in PAGES:
        yield from faults_of_links(page)
    yield from faults_of_names(TOP / "docs" / "PROMISES.md")
    size = len((TOP / "README.md").read_bytes())
    if size > README_BYTES:
        yield f"README.md has {size} bytes, more than {README_BYTES}"


if __name__ == "__main__":
    found = list(faults())
    print("\n".join(found) if found else f"{len(PAGES)} pages: all links and names are there")
    sys.exit(1 if found else 0)
