"""The version of this repository, which c/curlpool.h has, and the other files that name it."""
import os
import re

from program import TOP

HEADER = "c/curlpool.h"
CHANGES = "CHANGELOG.md"
# how each file names it
NAMING = {
    HEADER: r'#define CURLPOOL_VERSION "(.+)"',
    CHANGES: r"## (\d\S*)",
    "crates/commands/src/build.rt": r'.*"(\d+\.\d+\.\d+)',
    "rust/curlpool/Cargo.toml": r'version = "(.+)"',
    "rust/curlpool-sys/Cargo.toml": r'version = "(.+)"',
}


def versions_in(name):
    """The versions that this file names; of CHANGELOG the latest alone, which comes first."""
    with open(os.path.join(TOP, name), encoding="utf8") as file:
        found = re.findall(f"^{NAMING[name]}", file.read(), re.MULTILINE)
    return set(found[:1] if name == CHANGES else found)


def version():
    return versions_in(HEADER).pop()


def differing():
    """The files that name another version than the header, each with those that it names."""
    found = {name: versions_in(name) for name in NAMING}
    return {name: ", ".join(sorted(named)) for name, named in found.items() if named != {version()}}
