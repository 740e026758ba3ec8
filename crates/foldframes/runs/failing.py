"""Runs the program where reading or writing fails, or where a read would wait.

Run: python3 failing.py PROGRAM
The last line counts the runs.
"""

import os
import socket
import subprocess
import sys
import time

import blocks
import cut

# By then a program that does not wait has read.
PAUSE = 0.1


def fault_of(command, **files):
    """What is wrong with a run that has to say on standard error that something failed, and to print nothing."""
    try:
        run = subprocess.run(command, stderr=subprocess.PIPE, timeout=blocks.SECONDS, **files)
    except subprocess.TimeoutExpired:
        return "did not end in %d seconds" % blocks.SECONDS
    if run.stdout:
        return "printed %s" % blocks.short(run.stdout)
    return None if run.stderr else "standard error is empty"


def closed_input(program):
    return fault_of(["sh", "-c", 'exec "$0" <&-', program], stdout=subprocess.PIPE)


def directory_as_input(program):
    directory = os.open(cut.HERE, os.O_RDONLY)
    try:
        return fault_of([program], stdin=directory, stdout=subprocess.PIPE)
    finally:
        os.close(directory)


def full_output(program, name):
    """The input stays open: the program has to stop by itself."""
    data, _ = cut.stored(name)
    ours, theirs = socket.socketpair()
    with ours, theirs, open("/dev/full", "wb") as full:
        ours.sendall(data)
        return fault_of([program], stdin=theirs, stdout=full)


def late_input(program, name):
    """A read would wait for each line, and is told so: the program has to read again."""
    data, expected = cut.stored(name)
    theirs, ours = os.pipe()
    os.set_blocking(theirs, False)
    with open(theirs, "rb"):
        running = blocks.Running(program, theirs)
    with open(ours, "wb", buffering=0) as pipe:
        try:
            for line in data.splitlines(keepends=True):
                time.sleep(PAUSE)
                pipe.write(line)
        except BrokenPipeError:
            pass
        time.sleep(PAUSE)
    return blocks.fault_of(running.finish(), expected)


def runs(program):
    yield "standard input closed", closed_input(program)
    yield "standard input a directory", directory_as_input(program)
    for name in ("listing", "12_blank", "9_after_all_words", "no_final_line_feed"):
        yield "%s, lines that come late" % name, late_input(program, name)
    for name in ("listing", "12_blank"):
        yield "%s, standard output full" % name, full_output(program, name)


if __name__ == "__main__":
    cut.report("failing input and output", runs(sys.argv[1]))
