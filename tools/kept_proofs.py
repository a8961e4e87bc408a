"""What `rt ci` has kept on this machine of earlier runs: the crates whose proof it takes from there."""
import hashlib
import importlib.machinery
import importlib.util
import json
import os

from program import kit


def rt_module():
    """The kit's command rt as a module."""
    path = os.path.join(kit(), "bin", "rt")
    loader = importlib.machinery.SourceFileLoader("rt_of_the_kit", path)
    module = importlib.util.module_from_spec(importlib.util.spec_from_loader(loader.name, loader))
    loader.exec_module(module)
    return module


def keeps_proofs():
    """True if this kit's `rt ci` keeps what it proved on this machine."""
    return hasattr(rt_module(), "Kept")


def kept_of(top):
    """The crates of that repository whose proof is kept, by the sums that `rt ci` makes of all that a proof reads. A
    library counts as it was built, so a crate is kept only if all below it are."""
    rt = rt_module()
    rt.Crate.allowed = rt.handles_of(top)
    crates = rt.crates_of(top)
    kept = rt.Kept(crates)
    for crate in crates:
        if kept.at and all(below.name in kept.rlibs for below in crate.below()):
            key = kept.key(crate)
            try:
                with open(os.path.join(kept.place(crate, False, key), "made.json"), encoding="utf8") as file:
                    made = json.load(file)
            except FileNotFoundError:
                continue
            files = [] if crate.is_program else [(path, total) for path, total in made["files"]]
            kept.rlibs[crate.name] = hashlib.sha256(repr(files).encode()).hexdigest()
    return set(kept.rlibs)


def kept_proofs(top):
    """The same; nothing is known if this is not the kit that is meant here, or its rt refuses the repository."""
    try:
        return kept_of(top)
    except (Exception, SystemExit):
        return None
