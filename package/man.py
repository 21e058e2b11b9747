"""Makes manual pages of the repository's pages: Markdown as it stands there, to the macros of man(7)."""
import re

CODE = re.compile(r"`([^`]+)`")
LINK = re.compile(r"!?\[([^\]]*)\]\(([^)]*)\)")
BOLD = re.compile(r"\*\*([^*]+)\*\*")
SLANTED = re.compile(r"(?<![\w*])\*([^*\s][^*]*)\*(?!\w)")
ROW = re.compile(r"\|(.*)\|\s*")
RULE = re.compile(r"\|[-| :]+\|\s*")
ITEM = re.compile(r"(?:-|\d+\.) +(.*)")


def escaped(text):
    return text.replace("\\", r"\e").replace("-", r"\-").replace("'", r"\(aq").replace("^", r"\(ha").replace("~", r"\(ti")


def inline(text):
    """A line of text, with code and words of weight in bold."""
    text = LINK.sub(r"\1", text)
    parts = CODE.split(text)
    told = []
    for number, part in enumerate(parts):
        if number % 2:
            told.append(rf"\fB{escaped(part)}\fR")
        else:
            part = escaped(part)
            told.append(SLANTED.sub(r"\\fI\1\\fR", BOLD.sub(r"\\fB\1\\fR", part)))
    line = "".join(told)
    return r"\&" + line if line.startswith((".", "'")) else line


def cells(line):
    """The cells of a table's row; a bar in code is none between cells."""
    inner = ROW.fullmatch(line)[1].replace(r"\|", "\0")
    inner = CODE.sub(lambda code: code[0].replace("|", "\0"), inner)
    return [cell.replace("\0", "|").strip() for cell in inner.split("|")]


def table(rows):
    """Each row under its first cell. A head's words stand before the cells where there are several."""
    head, *body = rows
    for first, *others in body:
        yield ".TP"
        yield inline(f"**{first}**" if first and "`" not in first and "*" not in first else first or " ")
        named = [f"{word}: {cell}" if word and len(others) > 1 else cell for word, cell in zip(head[1:], others) if cell]
        yield ".br\n".join(inline(cell) + "\n" for cell in named).rstrip("\n") or r"\&"


def blocks(lines):
    """The page in parts, each (what it is, its lines)."""
    kind, part = None, []
    for line in [*lines, ""]:
        if kind == "code" and (line.startswith("    ") or not line):
            part.append(line)
            continue
        if kind == "table" and ROW.fullmatch(line):
            part.append(line)
            continue
        if kind in ("text", "item") and line and not line.startswith(("#", "- ", "|")) and not re.match(r"\d+\. ", line):
            part.append(line.strip())
            continue
        if part:
            yield kind, part
        stripped = line.strip()
        kind = (None if not stripped else "head" if line.startswith("#") else "table" if ROW.fullmatch(line) else "code" if line.startswith("    ") and kind != "item"
                else "item" if ITEM.fullmatch(stripped) else "text")
        part = [line if kind in ("code", "table") else stripped] if kind else []
    if part:
        yield kind, part


def page(text, name, about, version, day):
    """The manual page of a program, in section 1, of one of our pages."""
    told = [f'.TH {name.upper()} 1 "{day}" "Sebrakt {version}" "Sebrakt"', ".SH NAME", rf"{name} \- {inline(about)}"]
    lines = text.split("\n")
    if not lines[2].startswith("#"):
        told.append(".SH DESCRIPTION")
    for kind, part in blocks(lines[1:]):
        if kind == "head":
            marks, head = part[0].split(" ", 1)
            told.append(f".{'SH' if len(marks) == 2 else 'SS'} {inline(head)}")
        elif kind == "code":
            told += [".PP", ".RS 4", ".nf", *[escaped(line[4:]) if not line[4:].startswith(".") else r"\&" + escaped(line[4:]) for line in strip_ends(part)], ".fi", ".RE"]
        elif kind == "table":
            told += table([cells(line) for line in part if not RULE.fullmatch(line)])
        elif kind == "item":
            told += [".IP \\(bu 2", inline(ITEM.fullmatch(" ".join(part))[1])]
        elif not part[0].startswith("!["):
            told += [".PP", inline(" ".join(part))]
    return "\n".join(told) + "\n"


def strip_ends(lines):
    while lines and not lines[-1].strip():
        lines = lines[:-1]
    return lines
