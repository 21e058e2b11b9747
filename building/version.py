"""What a program says of itself on `--version`: whatever built it writes the line beside it, since only that knows whether it was proved."""
import subprocess

from building.crates import VERSION


def write(program, proof):
    """Writes the line of a program that this kit built just now: `proved`, or `not proved`."""
    kit = subprocess.run(["rt", "version"], stdin=subprocess.DEVNULL, stdout=subprocess.PIPE, text=True, check=True).stdout.strip()
    beside(program).write_text(f"{program.name} {VERSION.read_text().strip()}, {kit}, {proof}\n")


def beside(program):
    return program.with_name(f"{program.name}.version")
