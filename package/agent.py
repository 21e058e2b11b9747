"""The agent's modules, which find one another in their own folder."""
import importlib
import sys

from building.crates import TOP


def module(name):
    folder = str(TOP / "agent")
    if folder not in sys.path:
        sys.path.append(folder)
    return importlib.import_module(name)
