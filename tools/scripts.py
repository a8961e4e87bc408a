"""Scripts with the transcripts that they have to write: the worked ones, and those of a folder.

A script NAME has its transcript in NAME.stdout. If its last line has a fault, NAME.stderr has the line that names it.
"""
import os
import re

from program import TOP

WORKED = os.path.join(TOP, "tests", "scripts")
OTHER_FAULT = re.compile(rb"line (?P<line>\d+): (?!out of memory).+\n")


def read(*parts):
    with open(os.path.join(*parts), "rb") as file:
        return file.read()


def scripts_in(folder):
    """The scripts of a folder, each with its transcript."""
    names = sorted(name for name in os.listdir(folder) if not name.endswith((".stdout", ".stderr")))
    return {name: (read(folder, name), read(folder, f"{name}.stdout")) for name in names}


def worked():
    """The worked scripts, each with its transcript."""
    return scripts_in(WORKED)


def worked_faults():
    """The line on standard error that each worked script ends with; empty if it has no fault."""
    paths = {name: os.path.join(WORKED, f"{name}.stderr") for name in worked()}
    return {name: read(path) if os.path.exists(path) else b"" for name, path in paths.items()}
