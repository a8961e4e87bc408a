#!/usr/bin/env python3
"""An independent model of `curlpool audit`: it reads a trace and tells which rules the pool broke.

    model.py [--all] [--json] [--state] [FILE]      of standard input without FILE, or with `-`

It is written from the rules alone, which stand in docs/traces.md with the format. The status is 0 for a lawful trace, 1
if a rule is broken, 2 for wrong words, 3 if the trace can't be read on, and 4 if the answer can't be written.
"""
import os
import sys

sys.dont_write_bytecode = True
sys.path.insert(0, os.path.dirname(os.path.dirname(os.path.abspath(__file__))))
from trace_model import answers
from trace_model.audit import Report, audit

OPTIONS = ("--all", "--json", "--state")
NOT_WRITTEN = 4


def report_of(name, tells_all):
    """The report on the file of that name, or on standard input."""
    if name == "-":
        return audit(sys.stdin.buffer, tells_all)
    try:
        with open(name, "rb") as file:
            return audit(file, tells_all)
    except OSError:
        return Report(fault=(0, "cannot read"))


def main(words):
    files = [word for word in words if word == "-" or not word.startswith("-")]
    if len(files) > 1 or any(word not in OPTIONS for word in words if word not in files):
        sys.stderr.write(__doc__)
        return answers.WRONG_WORDS
    file = files[0] if files else "-"
    report = report_of(file, "--all" in words)
    name = "trace" if file == "-" else file
    text = answers.json_of(report) if "--json" in words else answers.text_of(report, name, "--state" in words)
    try:
        sys.stdout.buffer.write(os.fsencode(text))
        sys.stdout.flush()
    except OSError:
        return NOT_WRITTEN
    sys.stderr.write(answers.fault_of(report))
    return answers.status_of(report)


if __name__ == "__main__":
    sys.exit(main(sys.argv[1:]))
