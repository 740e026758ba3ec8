"""Runs the program on each stored NAME.in, cut into blocks: whole, byte by byte, and at random places.

Run: python3 cut.py PROGRAM
The input is held open where an answer has to come. The last line counts the runs.
"""

import os
import random
import sys

import blocks

SEEDS = (1, 2, 3)

# After so many failures the rest is not run.
ENOUGH = 4

HERE = os.path.dirname(os.path.abspath(__file__))


def names():
    return sorted(file[:-len(".in")] for file in os.listdir(HERE) if file.endswith(".in"))


def stored(name):
    """An input and its output."""
    return tuple(open(os.path.join(HERE, name + end), "rb").read() for end in (".in", ".out"))


def report(title, runs):
    """Prints what is wrong with the runs, pairs of a name and a fault or None, and counts them."""
    made = failed = 0
    for name, fault in runs:
        made += 1
        if fault:
            failed += 1
            print("%s: %s" % (name, fault), flush=True)
        if failed == ENOUGH:
            break
    print("%s: %d runs, %d failed" % (title, made, failed))


def is_refusal(line):
    return len(line) == len(b"ff0a\n")


def holds(data, expected):
    """After `04` its out lines have to be there, and after the last line all that does not wait for the end."""
    lines = expected.splitlines(keepends=True)
    out = b"".join(line for line in lines if not is_refusal(line))
    close = data.find(b"\n04\n")
    if out and close >= 0:
        yield blocks.Hold(close + len(b"\n04\n"), out, False)
    if data.endswith(b"\n") and expected != b"ff09\n":
        yield blocks.Hold(len(data), expected, is_refusal(lines[-1]))


def cuts(name, data):
    """The ways to cut an input, each with what it is called. A run's random places come from its name and a seed."""
    yield "whole", blocks.whole(data)
    yield "byte by byte", blocks.byte_by_byte(data)
    for seed in SEEDS:
        yield "at random, seed %d" % seed, blocks.at_random(data, random.Random("%s %d" % (name, seed)))


def runs(program):
    for name in names():
        data, expected = stored(name)
        for cut, parts in cuts(name, data):
            run = blocks.run(program, parts, holds(data, expected))
            yield "%s, cut %s" % (name, cut), blocks.fault_of(run, expected)


if __name__ == "__main__":
    report("cut into blocks", runs(sys.argv[1]))
