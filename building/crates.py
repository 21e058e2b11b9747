"""The crates of the repository, as crates.txt lists them."""
import pathlib

TOP = pathlib.Path(__file__).resolve().parent.parent
LIST = TOP / "crates.txt"
VERSION = TOP / "VERSION"
PROGRAMS = ("supctl", "supd", "supdraw")


def libraries_of_each():
    """Each crate's name, and the crates of the repository that it uses itself."""
    lines = [line.split(":") for line in LIST.read_text().splitlines() if ":" in line and not line.startswith("#")]
    used = {head.split()[0]: names.split() for head, names in lines}
    return {name: [other for other in others if other in used] for name, others in used.items()}


def with_all_below(names, libraries):
    """The crates of these names and all that they stand on."""
    found, left = set(), list(names)
    while left:
        name = left.pop()
        if name not in found:
            found.add(name)
            left += libraries[name]
    return found


def newest_change(crates, parts):
    """When a file in these parts of the crates was changed last, or crates.txt or VERSION, as a time of the file system."""
    folders = [TOP / "crates" / name / part for name in crates for part in parts]
    files = [path for folder in folders if folder.is_dir() for path in folder.rglob("*") if path.is_file()]
    return max(path.stat().st_mtime_ns for path in [*files, LIST, VERSION])


def is_current(program, parts):
    """Whether the program is there, and nothing of these parts of the crates that it stands on was changed since it was begun."""
    if not program.is_file():
        return False
    crates = with_all_below([program.name], libraries_of_each())
    return newest_change(crates, parts) <= program.stat().st_mtime_ns
