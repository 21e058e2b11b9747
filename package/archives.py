"""Makes a Debian package and a plain archive of one tree, bit for bit the same each time."""
import gzip
import hashlib
import io
import os
import pathlib
import shutil
import subprocess
import tarfile
import tempfile

from building.crates import TOP
from package import proof, tree

LIBRARIES = "libc6, python3 (>= 3.9), adduser, init-system-helpers (>= 1.54)"
ABOUT = "replicated supervisor: programs kept running on several machines"


def make(programs, folder, is_proved):
    """Makes both and their sums in a folder. Their paths."""
    moment = int(proof.git("log", "-1", "--format=%ct"))
    name = "sebrakt" if is_proved else "sebrakt-unproved"
    folder.mkdir(parents=True, exist_ok=True)
    with tempfile.TemporaryDirectory() as scratch:
        root = pathlib.Path(scratch) / "root"
        tree.make(root, programs, name, moment)
        even(root, moment)
        made = [archive(root, folder / f"{name}_{tree.number()}_amd64.tar.gz", f"{name}-{tree.number()}", moment),
                debian(root, folder / f"{name}_{tree.number()}_amd64.deb", name, is_proved, moment)]
    sums = folder / "SHA256SUMS"
    sums.write_text("".join(f"{hashlib.sha256(path.read_bytes()).hexdigest()}  {path.name}\n" for path in made))
    return [*made, sums]


def even(root, moment):
    """Gives each file and folder the same moment and leave, whoever makes it."""
    for path in [*root.rglob("*"), root]:
        if path.is_dir() and not path.is_symlink():
            path.chmod(0o755)
        os.utime(path, (moment, moment), follow_symlinks=False)


def archive(root, target, prefix, moment):
    """A tape archive of the tree, below a folder of the package's name."""
    packed = io.BytesIO()
    with tarfile.open(fileobj=packed, mode="w", format=tarfile.PAX_FORMAT) as tape:
        for path in sorted(root.rglob("*")):
            tape.add(path, f"{prefix}/{path.relative_to(root)}", recursive=False, filter=of_root)
    target.write_bytes(gzip.compress(packed.getvalue(), 9, mtime=moment))
    return target


def of_root(member):
    member.uid = member.gid = 0
    member.uname = member.gname = "root"
    return member


def debian(root, target, name, is_proved, moment):
    scripts = root / "DEBIAN"
    scripts.mkdir()
    kilobytes = sum(path.stat().st_size for path in root.rglob("*") if path.is_file() and not path.is_symlink()) // 1024
    others = "" if is_proved else "Provides: sebrakt\nConflicts: sebrakt\nReplaces: sebrakt\n"
    told = "The programs supctl, supd and supdraw are proved." if is_proved else "The programs supctl, supd and supdraw were built with NOTHING PROVED."
    control = (TOP / "package/debian/control").read_text().format(
        name=name, version=tree.number(), maintainer=tree.MAINTAINER, kilobytes=kilobytes, depends=LIBRARIES, others=others, about=ABOUT, proof=told)
    tree.put(scripts / "control", control)
    for script in ("postinst", "prerm", "postrm"):
        tree.put(scripts / script, (TOP / "package/debian" / script).read_text(), 0o755)
    sums = [f"{hashlib.md5(path.read_bytes()).hexdigest()}  {path.relative_to(root)}\n" for path in sorted(root.rglob("*"))
            if path.is_file() and not path.is_symlink() and scripts not in path.parents]
    tree.put(scripts / "md5sums", "".join(sums))
    even(root, moment)
    subprocess.run(["dpkg-deb", "--root-owner-group", "-Zxz", "--build", root, target], env={**os.environ, "SOURCE_DATE_EPOCH": str(moment)},
                   stdin=subprocess.DEVNULL, stdout=subprocess.DEVNULL, check=True)
    shutil.rmtree(scripts)
    return target
