"""Traces of scripts: each line of a script with the lines of its transcript that it caused."""
from script_model.generate import script
from script_model.model import Script


def trace_of(commands):
    """The trace of a script without faults, line by line. A `limit` line of the script is left out: that of the
    transcript, which is the same text, says whether it was taken."""
    run, trace = Script(), []
    for command in commands:
        told = len(run.out)
        run.line(command)
        if command.split()[:1] != ["limit"]:
            trace.append(command)
        trace += run.out[told:]
    return trace


def random_trace(rng, has_many_hosts=False):
    """The trace of a random script."""
    text, _ = script(rng, has_many_hosts)
    return trace_of(text.splitlines())
