"""Drives the program on one input: as a file, in blocks, or in blocks and held open at the first answer."""

import os
import sys
import tempfile

import frames

# The program's stored runs are cut in the same way.
sys.path.append(os.path.join(os.path.dirname(os.path.abspath(__file__)), "../../crates/foldframes/runs"))
import blocks  # noqa: E402

# How many of a hundred runs are of each kind.
MODES = {"file": 40, "blocks": 40, "held": 20}


def run(program, data, mode, rng):
    if mode == "file":
        return run_file(program, data)
    return blocks.run(program, blocks.at_random(data, rng), first_answer(data) if mode == "held" else ())


def run_file(program, data):
    with tempfile.TemporaryFile() as file:
        file.write(data)
        file.seek(0)
        return blocks.Running(program, file).finish()


def first_answer(data):
    """A hold at the first line feed at which something is printed, if there is one."""
    program, at = frames.Program(), 0
    # What comes after the last line feed is answered only when the input ends.
    for line in data.split(b"\n")[:-1]:
        at += len(line) + 1
        printed = program.line(line)
        if printed:
            return [blocks.Hold(at, printed, program.stopped)]
    return []
