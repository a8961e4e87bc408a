#!/usr/bin/env python3
"""Checks the model of `curlpool audit`, or a program beside it.

    tools/trace_model/check.py [--drawn COUNT] [--scripts COUNT] [--loads COUNT] [--logs COUNT]
        [--options COUNT] [--jobs COUNT] [--beside PROGRAM]

Each file tests/traces/NAME.trace has the answer of NAME.answer, whose first line has the options and the status. Those
named for a rule break it alone, and no line of theirs can be left out. The scripts of `examples/` with their
transcripts, and random scripts with what they caused, are lawful traces. Of random traces half and more break a rule,
each rule in one of 100, and some are judged a second time, by searches of each host's log. With PROGRAM, `PROGRAM
audit` has to give the model's answers to the worked traces and to the random ones, to 2,000 of these with each option.
`PROGRAM script --trace` has to write the model's traces of scripts, and `PROGRAM load --trace` lawful traces of random
loads, which tell what its reports count.

Each finding has a line. The last line is `N passed, M failed`; the status is 0 if nothing failed.
"""
import argparse
import collections
import concurrent.futures
import contextlib
import dataclasses
import functools
import io
import json
import os
import random
import subprocess
import sys
import tempfile
from typing import NamedTuple

sys.dont_write_bytecode = True
TOOLS = os.path.dirname(os.path.dirname(os.path.abspath(__file__)))
sys.path.insert(0, TOOLS)
from machine import processors
from script_model.generate import script
from script_model.model import transcript
from trace_model import answers, rules
from trace_model.audit import audit, report_of
from trace_model.by_log import Disagreement, DoubleAudit
from trace_model.drawn import draw, scripted
from trace_model.scripted import trace_of

WORKED = os.path.join(os.path.dirname(TOOLS), "tests", "traces")
EXAMPLES = os.path.join(os.path.dirname(TOOLS), "examples")
SEED = 60
# of random traces: how many break a rule, and how many each rule
MOST_LAWFUL, FEWEST_OF_A_RULE = 1 / 2, 1 / 100


class Answer(NamedTuple):
    status: int
    output: str
    errors: str


def answer_of_model(text, options=()):
    """The model's answer to a trace."""
    report = audit(io.BytesIO(text), "--all" in options)
    output = answers.json_of(report) if "--json" in options else answers.text_of(report, "trace", "--state" in options)
    return Answer(answers.status_of(report), output, answers.fault_of(report))


def answer_of(program, text, options=()):
    """A program's answer to a trace on standard input."""
    run = subprocess.run([program, "audit", *options], input=text, capture_output=True)
    return Answer(run.returncode, run.stdout.decode(errors="replace"), run.stderr.decode(errors="replace"))


def read(*parts):
    with open(os.path.join(*parts), "rb") as file:
        return file.read()


def names_in(folder, ending):
    return sorted(name.removesuffix(ending) for name in os.listdir(folder) if name.endswith(ending))


# the worked traces

def worked():
    """The worked traces by name, each with the options and the answer that it has to have."""
    for name in names_in(WORKED, ".trace"):
        head, _, text = read(WORKED, f"{name}.answer").decode().partition("\n")
        words, _, status = head.partition(": status ")
        faults = [line for line in text.splitlines() if line.startswith("line ")]
        output = "".join(f"{line}\n" for line in text.splitlines() if line not in faults)
        answer = Answer(int(status), output, "".join(f"{line}\n" for line in faults))
        yield name, read(WORKED, f"{name}.trace"), words.split()[1:], answer


def as_model_writes(answer):
    """The answer with its JSON as the model writes it, which has a space after each comma and colon."""
    with contextlib.suppress(ValueError):
        return answer._replace(output=json.dumps(json.loads(answer.output)) + "\n")
    return answer


def check_worked(answer_to):
    for name, trace, options, wanted in worked():
        found = answer_to(trace, options)
        found = as_model_writes(found) if "--json" in options else found
        yield f"worked {name}", None if found == wanted else f"{found} in place of {wanted}"


def broken_rules(lines):
    """The rules that a trace breaks, each as often as it does; none if it can't be read."""
    report = audit(io.BytesIO(b"".join(lines)), tells_all=True)
    return [] if report.fault else [violation.rule for violation in report.violations]


def check_smallest():
    """Whether each rule has a worked trace that breaks it alone, of which no line can be left out."""
    for rule in rules.NAMES:
        path = os.path.join(WORKED, f"{rule}.trace")
        if not os.path.exists(path):
            yield f"smallest {rule}", "there is no such worked trace"
            continue
        lines = read(path).splitlines(keepends=True)
        spare = [place + 1 for place in range(len(lines)) if broken_rules(lines[:place] + lines[place + 1:]) == [rule]]
        found = broken_rules(lines)
        complaint = f"line {spare[0]} can be left out" if spare else None
        yield f"smallest {rule}", complaint if found == [rule] else f"it breaks {found}"


# lawful traces

def check_lawful(name, trace):
    found = answer_of_model(trace)
    return name, None if found.status == answers.LAWFUL else f"{found.output}{found.errors}".strip()


def check_examples():
    """Whether each example with its transcript is a lawful trace."""
    for name in names_in(EXAMPLES, ".script"):
        script, told = (read(EXAMPLES, name + ending).decode() for ending in (".script", ".transcript"))
        if transcript(script) != told:
            yield f"example {name}", "the model of scripts gives another transcript"
        else:
            yield check_lawful(f"example {name}", "\n".join(trace_of(script.splitlines())).encode())


def check_scripts(count):
    rng = random.Random(SEED)
    for number in range(count):
        yield check_lawful(f"script {number}", "\n".join(scripted(rng)).encode())


# random traces

def check_drawn(traces):
    """Whether enough of the random traces break a rule, and each rule."""
    found = collections.Counter()
    for trace in traces:
        report = audit(io.BytesIO(trace))
        found[report.violations[0].rule if report.violations else "unreadable" if report.fault else "lawful"] += 1
    print(", ".join(f"{name} {count}" for name, count in found.most_common()))
    rest = found["lawful"] + found["unreadable"]
    yield "drawn", f"{rest} break no rule" if rest > MOST_LAWFUL * len(traces) else None
    for rule in rules.NAMES:
        few = found[rule] < int(FEWEST_OF_A_RULE * len(traces))
        yield f"drawn {rule}", f"{found[rule]} of {len(traces)} break it" if few else None


def check_by_logs(traces):
    """Whether each verdict is that of the hosts' logs."""
    for number, trace in enumerate(traces):
        try:
            report_of(DoubleAudit(), io.BytesIO(trace))
        except Disagreement as difference:
            yield f"by logs {number}", str(difference)
        else:
            yield f"by logs {number}", None


def check_beside(program, traces, jobs, thorough):
    """Whether the program answers as the model does, with each option to so many of the traces."""
    with concurrent.futures.ProcessPoolExecutor(jobs) as pool:
        each_option = (number < thorough for number in range(len(traces)))
        complaints = pool.map(functools.partial(complaint_of, program), traces, each_option, chunksize=16)
        for number, complaint in enumerate(complaints):
            yield f"beside {number}", complaint


def complaint_of(program, trace, with_each_option):
    """What is wrong with a program's answers to a trace, or nothing: the first violation as text, and with each option
    all as JSON, and all as text, with their states, if no other connection may be named."""
    found = answer_of(program, trace)
    if found not in possible_answers(trace):
        return f"{found} in place of {answer_of_model(trace)}"
    if not with_each_option:
        return None
    report = audit(io.BytesIO(trace), tells_all=True)
    complaint = complaint_of_all(trace, report, answer_of(program, trace, ["--all", "--json"]))
    if complaint or any(violation.finding.others for violation in report.violations):
        return complaint
    for options in (["--state"], ["--json"], ["--all"], ["--all", "--state"]):
        found, wanted = answer_of(program, trace, options), answer_of_model(trace, options)
        if found != wanted:
            return f"{' '.join(options)}: {found} in place of {wanted}"
    return None


def random_scripts(count):
    rng = random.Random(SEED)
    for _ in range(count):
        yield script(rng, rng.random() < 0.2)[0]


def complaint_of_script(program, text):
    """What is wrong with the trace that a program writes of a script, or nothing: it is the model's, and the program
    calls it lawful."""
    run = subprocess.run([program, "script", "--trace"], input=text.encode(), capture_output=True)
    wanted = "".join(f"{line}\n" for line in trace_of(text.splitlines())).encode()
    if (run.returncode, run.stdout, run.stderr) != (0, wanted, b""):
        return f"status {run.returncode}, {run.stdout!r}, {run.stderr!r} in place of {wanted!r}"
    found = answer_of(program, run.stdout)
    return None if found == answer_of_model(wanted) else f"{found.output}{found.errors}".strip()


def check_traced(program, scripts, jobs):
    """Whether the traces of scripts are the model's, and lawful."""
    with concurrent.futures.ProcessPoolExecutor(jobs) as pool:
        names, texts = zip(*scripts)
        for name, complaint in zip(names, pool.map(functools.partial(complaint_of_script, program), texts, chunksize=16)):
            yield f"trace of {name}", complaint


def random_load(rng):
    """Words of a load."""
    return ["--sites", str(rng.randint(1, 8)), "--jobs", str(rng.randint(1, 400)), "--workers", str(rng.randint(1, 32)),
            "--host-limit", str(rng.choice((0, 1, 2, 3, 8))), "--total", str(rng.choice((0, 1, 2, 4, 9))),
            "--connects", str(rng.choice((1, 2, 5, 100)))]


def complaint_of_load(program, words):
    """What is wrong with the trace that a program writes of a load, or nothing."""
    with tempfile.NamedTemporaryFile() as file:
        run = subprocess.run([program, "load", *words, "--trace", file.name], capture_output=True, text=True)
        trace = file.read()
    if run.returncode:
        return f"status {run.returncode}, {run.stderr}"
    model, found = answer_of_model(trace), answer_of(program, trace)
    if model.status != answers.LAWFUL or found != model:
        return f"{' '.join(words)}: {model.output}{model.errors}{found.output}{found.errors}".strip()
    firsts = collections.Counter(line.split()[0].decode() for line in trace.splitlines())
    opened, reused, closed, waited, alive = map(int, run.stdout.splitlines()[-2].split()[2:])
    told = *(firsts[word] for word in ("opened", "leased", "closed", "waits")), firsts["opened"] - firsts["closed"]
    wanted = opened, reused, closed, waited, alive
    return None if told == wanted else f"{' '.join(words)}: the trace tells {told}, and the report {wanted}"


def check_loads(program, count):
    """Whether the traces of loads are lawful, and tell what their reports count."""
    rng = random.Random(SEED)
    for number in range(count):
        yield f"trace of load {number}", complaint_of_load(program, random_load(rng))


def possible_answers(trace):
    """The answers that a trace may have: if several connections are idle, any of them may be named."""
    first = answer_of_model(trace)
    yield first
    report = audit(io.BytesIO(trace))
    for violation in report.violations:
        for other in violation.finding.others:
            lines = answers.violation_lines(dataclasses.replace(violation, finding=other), "trace", False)
            yield first._replace(output="".join(f"{line}\n" for line in lines))


def complaint_of_all(trace, report, found):
    """What is wrong with the violations as JSON, or nothing."""
    wanted = answer_of_model(trace, ["--all", "--json"])
    if (found.status, found.errors) != (wanted.status, wanted.errors) or report.fault:
        return None if found == wanted else f"{found} in place of {wanted}"
    with contextlib.suppress(ValueError):
        values, other = json.loads(wanted.output), json.loads(found.output)
        for violation, value, other_value in zip(report.violations, values["violations"], other["violations"]):
            if any(other_value == {**value, **answers.told(one)} for one in violation.finding.others):
                other_value.update(value)
        if values == other:
            return None
    return f"{found.output.strip()} in place of {wanted.output.strip()}"


def findings(options):
    """The name of each check, with what is wrong or nothing."""
    yield from check_worked(answer_of_model)
    yield from check_smallest()
    yield from check_examples()
    yield from check_scripts(options.scripts)
    rng = random.Random(SEED)
    traces = [draw(rng, number).text for number in range(options.drawn)]
    yield from check_drawn(traces)
    yield from check_by_logs(traces[:options.logs])
    if options.beside:
        yield from check_worked(lambda trace, words: answer_of(options.beside, trace, words))
        scripts = [(name, read(EXAMPLES, f"{name}.script").decode()) for name in names_in(EXAMPLES, ".script")]
        scripts += [(f"script {number}", text) for number, text in enumerate(random_scripts(options.scripts))]
        yield from check_traced(options.beside, scripts, options.jobs)
        yield from check_loads(options.beside, options.loads)
        yield from check_beside(options.beside, traces, options.jobs, options.options)


def main():
    parser = argparse.ArgumentParser(description=__doc__, formatter_class=argparse.RawDescriptionHelpFormatter)
    parser.add_argument("--drawn", type=int, default=2_000, metavar="COUNT", help="how many random traces")
    parser.add_argument("--scripts", type=int, default=1_000, metavar="COUNT", help="how many random scripts")
    parser.add_argument("--loads", type=int, default=40, metavar="COUNT", help="how many random loads of a program")
    parser.add_argument("--logs", type=int, default=500, metavar="COUNT", help="how many of them by logs too")
    parser.add_argument("--options", type=int, default=2_000, metavar="COUNT", help="how many with each option too")
    parser.add_argument("--jobs", type=int, default=processors(), metavar="COUNT", help="how many run side by side")
    parser.add_argument("--beside", metavar="PROGRAM", help="a program with the command audit")
    options = parser.parse_args()
    counts = collections.Counter()
    for name, complaint in findings(options):
        counts[bool(complaint)] += 1
        if complaint:
            print(f"{name}: {complaint}")
    print(f"{counts[False]} passed, {counts[True]} failed")
    return 1 if counts[True] else 0


if __name__ == "__main__":
    sys.exit(main())
