"""The Rattle kit, by which everything is built."""
import shutil


class NotBuilt(Exception):
    """The program can't be built; the text says why, or where to look."""


def is_there():
    return shutil.which("rt") is not None


def need():
    """NotBuilt where there is no kit."""
    if not is_there():
        raise NotBuilt("there is no command rt; the folder bin of the Rattle kit has to be on the PATH")
