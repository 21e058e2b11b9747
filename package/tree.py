"""What an installed Sebrakt has: each file's place, content and mode."""
import datetime
import gzip

from building import version
from building.crates import TOP, VERSION
from package import agent, completion, man, notices, proof

PROGRAMS = "usr/lib/sebrakt"
AGENT = f"{PROGRAMS}/agent"
BESIDE = ("kinds.json", "page.css", "page.js", "alerts.yml")
MAINTAINER = "Sebrakt's authors <authors@sebrakt.invalid>"
DOC = "usr/share/doc/"
# The parts of the agent's guide that go through a repository's folder.
NOT_INSTALLED = ("## Three machines on one, in five commands", "## Three machines")


def number():
    return VERSION.read_text().strip()


def make(root, programs, name, moment):
    """Makes the tree in the folder `root`, of these programs, for the package of this name."""
    put_programs(root, programs)
    put_agent(root)
    put(root / "usr/lib/systemd/system/sebrakt.service", (TOP / "package/debian/sebrakt.service").read_text())
    put_completions(root)
    day = datetime.datetime.fromtimestamp(moment, datetime.timezone.utc)
    put_manuals(root, day.strftime("%Y-%m-%d"))
    put_documents(root, name, day)


def put(path, content, mode=0o644):
    path.parent.mkdir(parents=True, exist_ok=True)
    path.write_bytes(content if isinstance(content, bytes) else content.encode())
    path.chmod(mode)


def put_programs(root, programs):
    """Each beside the line of its version, which it looks for where its link leads."""
    for name, program in programs.items():
        put(root / PROGRAMS / name, program.read_bytes(), 0o755)
        if version.beside(program).exists():
            put(root / PROGRAMS / f"{name}.version", version.beside(program).read_bytes())
        link(root / "usr/bin" / name, f"../lib/sebrakt/{name}")


def link(path, target):
    path.parent.mkdir(parents=True, exist_ok=True)
    path.symlink_to(target)


def put_agent(root):
    """The agent's sources, and its one command, which finds them beside where its link leads."""
    folder = TOP / "agent"
    for file in [*sorted(folder.glob("*.py")), *sorted((folder / "core").glob("*.py")), *map(folder.joinpath, BESIDE)]:
        put(root / AGENT / file.relative_to(folder), file.read_bytes())
    put(root / AGENT / "sebrakt", of_debian((folder / "sebrakt").read_text()), 0o755)
    put(root / AGENT / "VERSION", VERSION.read_text())
    link(root / "usr/bin/sebrakt", "../lib/sebrakt/agent/sebrakt")


def of_debian(script):
    """A script that Debian's own Python runs, whatever else is on the PATH."""
    return script.replace("#!/usr/bin/env python3", "#!/usr/bin/python3", 1)


def put_completions(root):
    for name, words in completion.all_of_them().items():
        put(root / "usr/share/bash-completion/completions" / name, completion.bash(name, words))
        put(root / "usr/share/zsh/vendor-completions" / f"_{name}", completion.zsh(name, words))


def put_manuals(root, day):
    pages = {"supctl": (["docs/SUPCTL.md"], "runs, judges and inspects clusters of Sebrakt by scripts"), "supd": (["docs/SUPD.md"], "one node of a Sebrakt cluster, over lines"),
             "sebrakt": (["agent/README.md", "agent/REFERENCE.md"], "keeps programs running on several machines")}
    for name, (files, about) in pages.items():
        text = man.page(without(NOT_INSTALLED, joined([(TOP / file).read_text() for file in files])), name, about, number(), day)
        put(root / f"usr/share/man/man1/{name}.1.gz", packed(text))
    # supdraw stands in the page of scripts, under its own head
    text = man.page("# supdraw\n\n" + part("## Pictures", (TOP / "docs/SUPCTL.md").read_text()), "supdraw", "draws a script's nodes and what they tell one another", number(), day)
    put(root / "usr/share/man/man1/supdraw.1.gz", packed(text))


def joined(pages):
    """The first page, and the parts of the others."""
    first, *others = pages
    return "\n## ".join([first, *(part for page in others for part in page.split("\n## ")[1:])])


def part(head, page):
    """What stands under a head of a page."""
    return page.split(f"{head}\n", 1)[1].split("\n## ", 1)[0].lstrip("\n")


def without(heads, page):
    for head in heads:
        before, found, behind = page.partition(f"\n{head}\n")
        page = before + "\n## " + behind.split("\n## ", 1)[1] if found else page
    return page


def put_documents(root, name, day):
    folder = root / DOC / name
    put(folder / "copyright", notices.copyright_text())
    # The programs are byte for byte those that were built, symbols and all.
    put(root / "usr/share/lintian/overrides" / name, f"{name}: unstripped-binary-or-object\n")
    changes = f"{name} ({number()}) unstable; urgency=medium\n\n  * Version {number()}.\n\n -- {MAINTAINER}  {day.strftime('%a, %d %b %Y %H:%M:%S +0000')}\n"
    put(folder / "changelog.gz", packed(changes))
    put(folder / "notices.gz", packed(notices.notices_text()))
    put(folder / "three-machines.md.gz", packed((TOP / "docs/INSTALL.md").read_text()))
    put(folder / "examples/sebrakt.conf", example())
    if proof.GATE.exists():
        put(folder / "gate.txt", proof.GATE.read_text())


def example():
    return agent.module("init").CONF.format(name="a", address="10.7.0.1:7001", image="/var/lib/sebrakt/a.image", peers='b = "10.7.0.2:7001"\nc = "10.7.0.3:7001"\n')


def packed(text):
    return gzip.compress(text.encode(), 9, mtime=0)
