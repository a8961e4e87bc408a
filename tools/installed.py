"""The files of an installed curlpool, for tools/install and tools/package: their paths below the prefix, modes and bytes."""
import contextlib
import gzip
import hashlib
import os
import shutil
import subprocess
import sys
from typing import NamedTuple

import program
from checkout import checkout, passed_gate
from program import TOP, say
from version import version

RUN, READ, FOLDER = 0o755, 0o644, 0o755
PROGRAM, DOC = "lib/curlpool/curlpool", "share/doc/curlpool"
# the folders that have nothing but curlpool's files
OWN = ("lib/curlpool", DOC)
MAN, ZSH = "share/man/man1/curlpool.1", "share/zsh/site-functions/_curlpool"
# files of this repository
COPIED = {
    "bin/curlpool": (RUN, "tools/installed.sh"),
    "lib/curlpool/launch.sh": (READ, program.LAUNCH),
    MAN: (READ, "docs/curlpool.1"),
    "share/bash-completion/completions/curlpool": (READ, "completions/curlpool.bash"),
    ZSH: (READ, "completions/_curlpool"),
    "share/fish/vendor_completions.d/curlpool.fish": (READ, "completions/curlpool.fish"),
}
PROOFS, CHANGES, COPYRIGHT = (f"{DOC}/{name}" for name in ("PROOFS", "changelog.gz", "copyright"))
PATHS = (*COPIED, PROGRAM, PROOFS, CHANGES, COPYRIGHT)
NO_LICENCE = "curlpool has no licence: its owner has not chosen one yet.\n"
UNPROVED = "none: compiled without proofs"


class File(NamedTuple):
    mode: int
    data: bytes


class Built(NamedTuple):
    """A built program: its path, what is known of its proofs, and the last line of the gate if that passed."""

    path: str
    proofs: str
    gate: str


def proved_program():
    """The program that `./curlpool --build` built of the present sources; ends this process if there is none. PROGRAM
    names another one, of which no proof is known."""
    named = os.environ.get("PROGRAM")
    if named:
        return Built(os.path.abspath(named), "unknown: PROGRAM named this program", "not run")
    if not program.is_current():
        say("sources are newer than the proved program" if program.is_built() else "the program is not built yet")
        sys.exit("curlpool: `./curlpool --build` proves and builds it, in some 30 minutes the first time")
    return Built(program.BUILT, "complete: the program and all crates below it", passed_gate() or "not run")


def read(path):
    with open(os.path.join(TOP, path), "rb") as file:
        return file.read()


def packed(data, level=9):
    """The data as gzip packs it, without name and time."""
    return gzip.compress(data, level, mtime=0)


def kit_line():
    """The line by which the kit names itself, if it is on the path."""
    if not shutil.which("rt"):
        return "unknown: rt is not on the path"
    return subprocess.run(["rt", "version"], capture_output=True, text=True, check=True).stdout.strip()


def proofs_of(built, data):
    """The text of the file PROOFS."""
    now = checkout()
    commit = (now.commit or "unknown") + ("" if now.is_clean or not now.commit else ", with changes")
    lines = {"program": f"curlpool {version()}, SHA-256 {hashlib.sha256(data).hexdigest()}", "proofs": built.proofs,
             "commit": commit, "kit": kit_line(), "gate": built.gate}
    return "".join(f"{name:<9}{text}\n" for name, text in lines.items())


def files(built):
    """All files of an installed curlpool by their paths."""
    data = read(built.path)
    made = {PROGRAM: File(RUN, data), PROOFS: File(READ, proofs_of(built, data).encode()),
            CHANGES: File(READ, packed(read("CHANGELOG.md"))), COPYRIGHT: File(READ, NO_LICENCE.encode())}
    copied = {path: File(mode, read(source)) for path, (mode, source) in COPIED.items()}
    found = {**copied, **made}
    return {path: found[path] for path in sorted(found)}


def make_folder(path):
    """Makes a folder and those above it unless they are there, all with the same mode whatever the umask is."""
    if not os.path.isdir(path):
        make_folder(os.path.dirname(path))
        os.mkdir(path)
        os.chmod(path, FOLDER)


def write(found, top):
    """Writes these files below that folder. Each replaces an older one by a rename, so a running program goes on."""
    for path, file in found.items():
        at = os.path.join(top, path)
        make_folder(os.path.dirname(at))
        with open(f"{at}.new", "wb") as new:
            new.write(file.data)
        os.chmod(f"{at}.new", file.mode)
        os.replace(f"{at}.new", at)


def remove(top):
    """Removes the files below that folder, and the folders that have nothing else."""
    for path in PATHS:
        with contextlib.suppress(FileNotFoundError):
            os.remove(os.path.join(top, path))
    for folder in OWN:
        with contextlib.suppress(OSError):
            os.rmdir(os.path.join(top, folder))
