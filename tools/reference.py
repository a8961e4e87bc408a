"""The scripts of the reference run: a shared cache has to carry out each as a pool does.

They are fixed ones, those of `crates/tries/data`; the worked ones; and random ones, of few hosts and of up to 60,
which share three connections at most.
"""
import os
import subprocess

from program import TOP
from script_model.model import transcript
from scripts import read, scripts_in, worked

FIXED = os.path.join(TOP, "crates", "tries", "data")
GENERATE = os.path.join(TOP, "tools", "script_model", "generate.py")
# by kind: the seed, and the words for the generator
DRAWS = {"few": (41, []), "many": (42, ["many"])}


def fixed():
    """The fixed scripts, each with the transcript that the model gives."""
    # the rows of responses have a suffix
    scripts = {name: read(FIXED, name) for name in sorted(os.listdir(FIXED)) if "." not in name}
    return {name: (script, transcript(script.decode()).encode()) for name, script in scripts.items()}


def drawn(room, kind, count):
    """So many random scripts of that kind, which are written into a folder there, each with the model's transcript."""
    folder, (seed, words) = os.path.join(room, kind), DRAWS[kind]
    subprocess.run([GENERATE, folder, str(seed), str(count), *words], check=True)
    return {f"{kind}-{name}": both for name, both in scripts_in(folder).items()}


def fixed_and_drawn(room, few, many):
    """The fixed scripts, and so many random ones of few hosts and of many: by name, each with its transcript."""
    return {**fixed(), **drawn(room, "few", few), **drawn(room, "many", many)}


def all_scripts(room, few, many):
    """These and the worked ones."""
    return {**worked(), **fixed_and_drawn(room, few, many)}
