"""Wrong bodies: edits of functions, each of which the prover has to refuse.

An edit is a file of lines. `file: PATH` names a source file of the crate, `old: TEXT` a text that is there once, and
`new: TEXT` the text in its place. `fn: NAME` names the function that has to be refused, by the end of the name that a
check prints (`WordBudget::try_open`); without such a line it is the function that the edit changes. An edit outside of
all functions that names none is tried alone, by a check of the whole crate.

`rattle check --only` checks this function, and the functions of its crate that it calls, over the libraries that the
crate stands on. Edits of different functions are put in at once: each function is proved by the contracts of those that
it calls, so a refused one takes no other with it. An edit is refused if

- the check ends as one that proves some of its functions and not others;
- the named function is not proved, for a reason of its own: not only since it calls one that is not proved, and not
  only since a proof file names what the edit took away;
- no function is refused but those that an edit changes or names, and their callers. All others are checked in the same
  run, so they show that it is the edit that is refused.

Anything else is a failure: an edit that proves, one that does not compile, one whose text has moved.
"""
import itertools
import os
import re
import shutil
import tempfile
from typing import NamedTuple

from kept_proofs import rt_module
from program import TOP, listed_crates

FN, FILE, OLD, NEW = "fn: ", "file: ", "old: ", "new:"
PARTS = ("src", "specs", "proofs")
FUNCTION = re.compile(r'(\s*)(?:pub(?:\([^)]*\))? )?(?:const )?(?:unsafe )?(?:extern "C" )?fn (\w+)')
IMPL = re.compile(r"(\s*)(?:unsafe )?impl\b(.*)")
# what a check says as it goes on is behind these words, and is said again at its end
SO_FAR = "so far: "
NOTE = re.compile(r"note: (?:\./)?(src/\S+?):(\d+):\d+: it is not proved")
ERROR = re.compile(r"(?:\./)?((?:src|specs|proofs)/\S+?):\d+:\d+: error\S* (.*)")
VERDICT = re.compile(r"fn (\S+): (proved|not proved|no proof|could not tell)(.*)")
LAST = re.compile(r"only=(\d+) proved=(\d+)|logic=(not-)?proved .*")
BY_NAMES = ("that can be named from here", "not in scope", "has no field")
LEAST_PRIORITY = 19


class BadEdit(Exception):
    """The reason why an edit cannot be tried."""


class Function(NamedTuple):
    """A function of a source file: its first and last line, and the end of the name that a check prints."""

    path: str
    first: int
    last: int
    name: str

    def is_named(self, name):
        return is_end(self.name, name)


class Edit(NamedTuple):
    """An edit: its crate and name, the lines that it changes (by path and index), the functions that these are of, and
    the names of those that have to be refused."""

    crate: str
    name: str
    lines: dict
    functions: list
    named: list

    def keys(self):
        """The functions that no other edit of the same run may change or name."""
        return {function.name for function in self.functions} | set(self.named)


def is_end(end, name):
    """True if these are the last parts of the name."""
    return name == end or name.endswith(f"::{end}")


def without_brackets(text):
    """The text without what is between < and >."""
    found, depth = [], 0
    for character in text:
        depth += character == "<"
        if not depth:
            found.append(character)
        depth -= character == ">"
    return "".join(found)


def bracketed(text):
    """The text between the first < and the > that closes it; empty if it does not begin with one."""
    depth = 0
    for at, character in enumerate(text):
        depth += (character == "<") - (character == ">")
        if depth == 0:
            return text[1:at] if at else ""
    return ""


def words_in(text):
    return re.findall(r"\w+", text)


def type_of_impl(head):
    """The name that a check gives to the type of an impl with this head: `Budget`, or `RefusalFromAllocError` if it is
    the impl of a trait. Type parameters of the impl are no part of the name."""
    head = head.replace("()", "Unit").replace("->", "")
    parameters = bracketed(head)
    own = {words_in(part)[0] for part in parameters.split(",") if words_in(part) and not part.strip().startswith("'")}
    rest = head[len(parameters) + 2 :] if parameters else head
    trait, found, of = rest.strip().rpartition(" for ")
    name = words_in(without_brackets(of))[0]
    if not found:
        return name
    arguments = bracketed(trait[len(without_brackets(trait)) :])
    return name + words_in(without_brackets(trait))[-1] + "".join(
        word[0].upper() + word[1:] for word in words_in(arguments) if word not in own)


def head_from(lines, first, begin):
    """The head of an impl that begins on that line, which may go on below: the text up to its `{`."""
    rest = itertools.takewhile(lambda line: not line.startswith("}"), lines[first + 1 :])
    return " ".join((begin, *map(str.strip, rest))).partition("{")[0].strip()


def end_of(lines, first, indentation):
    """The line that closes what begins there."""
    return next((line for line in range(first, len(lines)) if lines[line] == f"{indentation}}}"), first)


def function_at(path, lines, at):
    """The innermost function around a line, or nothing."""
    for first in range(at, -1, -1):
        begins = FUNCTION.match(lines[first])
        if begins and end_of(lines, first, begins[1]) >= at:
            last = end_of(lines, first, begins[1])
            return Function(path, first, last, f"{scope_of(path, lines, first, last)}::{begins[2]}")
    return None


def scope_of(path, lines, first, last):
    """The last part of a function's name before its own: the type of the impl around it, else its module."""
    for line in range(first, -1, -1):
        begins = IMPL.match(lines[line])
        if begins and end_of(lines, line, begins[1]) >= last:
            return type_of_impl(head_from(lines, line, begins[2]))
    inside = os.path.splitext(path)[0].split("/")[1:]
    return "::".join(inside) if inside[-1] not in ("lib", "main") else "crate"


def functions_in(folder):
    """All functions of the crate in that folder."""
    found = []
    for at, _, files in os.walk(os.path.join(folder, "src")):
        for path in (os.path.relpath(os.path.join(at, name), folder) for name in files if name.endswith(".rt")):
            lines = read_source(folder, path).split("\n")
            found += [function_at(path, lines, line) for line, text in enumerate(lines) if FUNCTION.match(text)]
    return [function for function in found if function]


def read_source(folder, path):
    try:
        with open(os.path.join(folder, path), encoding="utf8") as file:
            return file.read()
    except FileNotFoundError:
        raise BadEdit(f"there is no file {path}") from None


def pairs_of(text):
    """The functions that an edit's file names, and each path with an old and a new text."""
    named, pairs, path, old = [], [], None, None
    for line in text.splitlines():
        if line.startswith(FN):
            named.append(line.removeprefix(FN).strip())
        elif line.startswith(FILE):
            path = line.removeprefix(FILE).strip()
        elif line.startswith(OLD):
            old = line.removeprefix(OLD)
        elif line.startswith(NEW):
            if path is None or old is None:
                raise BadEdit("a line `new:` is above `file:` or `old:`")
            pairs.append((path, old, line.removeprefix(NEW).removeprefix(" ")))
            old = None
    if not pairs:
        raise BadEdit("it has no lines `old:` and `new:`")
    return named, pairs


def read_edit(crate, folder, file):
    """An edit of the crate in that folder. BadEdit if it cannot be tried."""
    with open(file, encoding="utf8") as text:
        named, pairs = pairs_of(text.read())
    before, after = {}, {}
    for path, old, new in pairs:
        if path not in after:
            before[path] = after[path] = read_source(folder, path)
        if after[path].count(old) != 1:
            raise BadEdit(f"{path} has its old text {after[path].count(old)} times, and not once: {old.strip()!r}")
        after[path] = after[path].replace(old, new)
    lines, functions = {}, []
    for path, text in after.items():
        old_lines, new_lines = before[path].split("\n"), text.split("\n")
        for at, (one, other) in enumerate(zip(old_lines, new_lines, strict=True)):
            if one != other:
                lines[path, at] = other
                functions.append(function_at(path, old_lines, at))
    functions = list(dict.fromkeys(function for function in functions if function))
    return Edit(crate, os.path.basename(file), lines, functions, named or [function.name for function in functions])


def rounds_of(edits):
    """Parts the edits: in no part do two change or name the same function, and one that has none is alone."""
    rounds = []
    for edit in sorted(edits, key=lambda edit: not edit.keys()):
        if not edit.keys():
            rounds.append(([edit], set()))
            continue
        for together, taken in rounds:
            if taken and not edit.keys() & taken:
                together.append(edit)
                taken |= edit.keys()
                break
        else:
            rounds.append(([edit], edit.keys()))
    return [together for together, _ in rounds]


class Verdicts:
    """The verdicts of a check: the functions that it proves, those that it refuses, and where something is not proved.
    `functions` are those of the crate."""

    def __init__(self, status, output, functions):
        self.status, self.output, self.functions = status, output, functions
        self.refused, self.proved, self.notes, self.errors = {}, set(), set(), []
        for line in output:
            words = line.removeprefix(SO_FAR)
            if note := NOTE.match(words):
                self.notes.add((note[1], int(note[2])))
            elif error := ERROR.match(words):
                self.errors.append((error[1], error[2]))
            elif verdict := VERDICT.match(words):
                name, kind, reason = verdict.groups()
                self.refused.pop(name, None)
                if kind == "proved":
                    self.proved.add(name)
                else:
                    self.refused[name] = kind, reason

    def wrong(self):
        """Why the check says nothing of any edit, or nothing if it does."""
        last = LAST.fullmatch(self.output[-1]) if self.output else None
        if not last:
            end = self.output[-1] if self.output else "nothing"
            said = next((line for line in self.output if "error" in line), end)
            return f"the check ended with status {self.status}, and said: {said[:300]}"
        unread = next((f"{path}: {text[:200]}" for path, text in self.errors if not path.startswith("proofs/")), None)
        return f"the edited text cannot be read: {unread}" if unread else None

    def has_own_reason(self, name):
        """True if that refused function is so for a reason of its own."""
        kind, reason = self.refused[name]
        if kind == "no proof":
            return "did not prove" in reason
        if kind != "not proved":
            return False
        if any(path == one.path and one.first < line <= one.last + 1
               for path, line in self.notes for one in self.functions if one.is_named(name)):
            return True
        folder = "proofs/" + name.partition("::")[2].replace("::", "/") + "/"
        return any(path.startswith(folder) and not any(words in text for words in BY_NAMES)
                   for path, text in self.errors)

    def wrong_with(self, edit):
        """Why the edit is not refused for its meaning, or nothing if it is."""
        if not edit.named:
            is_refused = any(map(self.has_own_reason, self.refused))
            return None if is_refused else "no function is refused for a reason of its own"
        for end in edit.named:
            name = next((name for name in self.refused if is_end(end, name)), None)
            if name is None:
                is_known = any(is_end(end, name) for name in self.proved)
                return f"`{end}` is proved with it" if is_known else f"no function is named `{end}`"
            if not self.has_own_reason(name):
                return f"`{end}` is refused for no reason of its own: {' '.join(self.refused[name])[:200]}"
        return None

    def strangers(self, edits):
        """The refused functions that no edit changes or names, and that do not just call one that is refused."""
        keys = {key for edit in edits for key in edit.keys()}
        if not keys:
            return []
        return [name for name, (_, reason) in self.refused.items()
                if not any(is_end(key, name) for key in keys) and "which is not proved" not in reason]


class Checker:
    """Checks crates of the repository, each in a copy of its folder, over the libraries that `rt` left at that top."""

    def __init__(self, top, children):
        rtlib = rt_module().rtlib
        self.rattle, self.top, self.children = rtlib.RATTLE, top, children
        self.crates = {crate.name: crate for crate in rtlib.crates_below(TOP)}

    def words(self, crate):
        """The words of its check."""
        ours, theirs = (os.path.join(top, "crates", "") for top in (TOP, self.top))
        words = crate.words(["--jobs", "1"], keeps=False)
        return [self.rattle, "check", *(word.replace(ours, theirs) for word in words)]

    def check(self, crate, lines, names, kept=None):
        """Checks these functions of the crate with some lines changed: status, output, and processor seconds."""
        made = self.crates[crate]
        with tempfile.TemporaryDirectory(prefix="curlpool-body-") as room:
            for part in PARTS:
                if os.path.isdir(os.path.join(made.folder, part)):
                    shutil.copytree(os.path.join(made.folder, part), os.path.join(room, part))
            for path in {path for path, _ in lines}:
                text = read_source(room, path).split("\n")
                for (of, at), line in lines.items():
                    if of == path:
                        text[at] = line
                with open(os.path.join(room, path), "w", encoding="utf8") as file:
                    file.write("\n".join(text))
            words = self.words(made) + (["--incremental", kept] if kept else [])
            words += [word for name in names for word in ("--only", name.removeprefix("crate::"))]
            return self.children.run(words, room)


    def verdicts(self, crate, lines, names, kept=None):
        """Checks these functions likewise: the verdicts, and the seconds."""
        status, output, seconds = self.check(crate, lines, names, kept)
        return Verdicts(status, output, functions_in(self.crates[crate].folder)), seconds


def folder_of(crate, kind):
    return os.path.join(TOP, "crates", crate, kind)


def crates_with(kind):
    """The crates that have edits in a folder of that name, in the order of crates.txt."""
    return [name for name in listed_crates() if os.path.isdir(folder_of(name, kind))]


def lines_of(crate):
    """The lines of a crate: about how long its checks take."""
    count = 0
    for part in PARTS:
        for folder, _, files in os.walk(folder_of(crate, part)):
            for name in files:
                with open(os.path.join(folder, name), "rb") as file:
                    count += file.read().count(b"\n")
    return count


class Tried(NamedTuple):
    """The result of an edit: nothing if it was refused, else the reason why not; and its processor seconds."""

    edit: str
    wrong: str
    seconds: float


def read_edits(crate, kind):
    """The edits of a crate in the folder of that kind, and what is wrong with those that cannot be tried."""
    folder, good, bad = folder_of(crate, kind), [], []
    for name in sorted(os.listdir(folder)):
        if name.endswith(".edit"):
            try:
                good.append(read_edit(crate, os.path.join(TOP, "crates", crate), os.path.join(folder, name)))
            except BadEdit as fault:
                bad.append(Tried(name, str(fault), 0))
    return good, bad


def wrong_unedited(checker, crate, names):
    """Why some of these functions are not proved without an edit; nothing if they are."""
    verdicts, _ = checker.verdicts(crate, {}, names)
    found = verdicts.wrong() or ", ".join(verdicts.refused)
    return f"without an edit: {found}" if found else None


def try_round(checker, together, kept, has_control):
    """Tries edits at once: the result of each."""
    crate = together[0].crate
    lines = {key: line for edit in together for key, line in edit.lines.items()}
    names = sorted({name for edit in together for name in edit.keys()})
    verdicts, seconds = checker.verdicts(crate, lines, names, kept)
    wrong = verdicts.wrong() or (wrong_unedited(checker, crate, names) if has_control else None)
    strangers = verdicts.strangers(together)
    if not wrong and strangers:
        wrong = f"other functions are refused as well: {', '.join(strangers[:3])}"
    share = seconds / len(together)
    return [Tried(edit.name, wrong or verdicts.wrong_with(edit), share) for edit in together]


def try_together(checker, together, kept, has_control):
    """Tries edits at once, and returns the result of each. A caller of a refused function is not proved either, so an
    edit of it shows nothing: such edits are tried again without the others, or each alone if all are left."""
    found = try_round(checker, together, kept, has_control)
    left = [edit for edit, one in zip(together, found, strict=True) if one.wrong]
    if not left or len(together) == 1:
        return found
    parts = [left] if len(left) < len(together) else [[edit] for edit in left]
    again = [one for part in parts for one in try_together(checker, part, kept, has_control)]
    spent = {one.edit: one.seconds for one in found}
    refused = [one for one in found if not one.wrong]
    return refused + [one._replace(seconds=one.seconds + spent[one.edit]) for one in again]


def try_edits(checker, crate, kind, has_control=False):
    """Tries all edits of a crate in the folder of that kind: the result of each."""
    good, tried = read_edits(crate, kind)
    rounds = rounds_of(good)
    with tempfile.TemporaryDirectory(prefix="curlpool-kept-") as folder:
        kept = folder if len(rounds) > 1 else None
        for together in rounds:
            tried += try_together(checker, together, kept, has_control)
    return tried
