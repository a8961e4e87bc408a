"""What a part of hostile is: a name, and what is done, which gives what there is to say, or raises Wrong."""
import time
from typing import Callable, NamedTuple


class Wrong(Exception):
    """A part failed; the text says how."""


class Part(NamedTuple):
    name: str
    do: Callable[[], str]
    # the built tests of a crate
    needs_tests: bool = False

    def run(self):
        """Whether it passed, and its line. Whatever it raises fails it, but for what asks this process to end."""
        began = time.monotonic()
        try:
            said, has_passed = self.do(), True
        except Wrong as wrong:
            said, has_passed = str(wrong), False
        except (Exception, SystemExit) as fault:
            # such as what could not be built
            said, has_passed = f"{type(fault).__name__}: {fault}", False
        end = "passed" if has_passed else "failed"
        return has_passed, f"{end}  {self.name}: {said}; {time.monotonic() - began:.1f} seconds"


def check(is_right, text):
    """Raises what is wrong where it is."""
    if not is_right:
        raise Wrong(text)


def check_same(found, wanted, what):
    check(found == wanted, f"{what}: {found!r} in place of {wanted!r}")
