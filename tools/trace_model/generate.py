#!/usr/bin/env python3
"""Writes random traces, with the answers that the model gives: generate.py FOLDER SEED COUNT [script].

The trace NNNNN has its answer in NNNNN.stdout and NNNNN.stderr, and its status in NNNNN.status. Half of the traces and
more break a rule, each rule in one of 100. With `script` all are traces of random scripts, which are lawful.
"""
import io
import os
import random
import sys

sys.dont_write_bytecode = True
sys.path.insert(0, os.path.dirname(os.path.dirname(os.path.abspath(__file__))))
from trace_model import answers
from trace_model.audit import audit
from trace_model.drawn import draw, scripted


def texts(rng, count, of_scripts):
    for number in range(count):
        if of_scripts:
            yield "".join(f"{line}\n" for line in scripted(rng)).encode()
        else:
            yield draw(rng, number).text


def main():
    folder, seed, count = sys.argv[1], int(sys.argv[2]), int(sys.argv[3])
    os.makedirs(folder, exist_ok=True)
    for number, text in enumerate(texts(random.Random(seed), count, sys.argv[4:] == ["script"])):
        report = audit(io.BytesIO(text))
        path = os.path.join(folder, f"{number:05}")
        for ending, content in (("", text), (".stdout", answers.text_of(report).encode()),
                                (".stderr", answers.fault_of(report).encode()),
                                (".status", b"%d\n" % answers.status_of(report))):
            with open(path + ending, "wb") as file:
                file.write(content)


if __name__ == "__main__":
    main()
