"""The notices of licence of what is linked into the programs: the kit's crates that they use, and those that these use."""
import pathlib
import re
import shutil

from building.crates import LIST, PROGRAMS, TOP, libraries_of_each, with_all_below

NAMED = re.compile(r"\b(?:use|extern crate|mod)?\s*([a-z][a-z0-9_]*)::")


def folder_of_kit():
    """Where the kit has its crates."""
    return pathlib.Path(shutil.which("rt")).resolve().parent.parent / "rattle"


def linked():
    """The kit's crates that the programs are linked with, by name, with their folders."""
    own = with_all_below(PROGRAMS, libraries_of_each())
    lines = [line.split(":") for line in LIST.read_text().splitlines() if ":" in line and not line.startswith("#")]
    left = [name for head, names in lines if head.split()[0] in own for name in names.split() if name not in libraries_of_each()]
    found = {}
    while left:
        name = left.pop()
        folder = folder_of_kit() / name
        if name not in found and (folder / "src").is_dir():
            found[name] = folder
            left += {word for file in (folder / "src").rglob("*.rt") for word in NAMED.findall(file.read_text(errors="replace"))}
    return found


def notices():
    """Each crate with a notice, and its text."""
    for name, folder in sorted(linked().items()):
        for file in sorted(folder.glob("LICENSE*")):
            yield name, file.name, file.read_text()


def copyright_text():
    """Our own, and by whom and under which licences the rest is."""
    own = (TOP / "package" / "debian" / "copyright").read_text()
    of_each = {}
    for name, file, _ in notices():
        of_each.setdefault(name, []).append(file.removeprefix("LICENSE").lstrip("-") or "own")
    told = "".join(f"  {name}: {', '.join(files)}\n" for name, files in of_each.items())
    return f"{own}\nThe programs are linked with these crates of the Rattle kit. Their notices stand in notices.gz beside this file, Apache's licence in\n/usr/share/common-licenses/Apache-2.0.\n\n{told}"


def notices_text():
    return "\n".join(f"{'-' * 80}\n{name}, {file}\n\n{text}" for name, file, text in notices())
