"""Holds the C calls of a shared library against their models on drawn and damaged arguments: the ward's four against
calls.py, or the host's calls of sessions against sessions.py.

Run: python3 fuzz_calls.py calls|sessions LIBRARY.so [--seconds S | --cases N] [--seed N] [--case I]
Case I of seed N is always the same; --case runs it alone.
The calls are made in a child process, so that a crash ends only the child.
"""

import ctypes
import mmap
import os
import sys

import driver
from call_draws import draw_call
from library import FORMS, Library
from session_draws import draw_session

PRINTED = 100

# The start of the C names, and the calls of a case.
PARTS = {
    "calls": ("ward_", lambda rng, number: [draw_call(rng, number)]),
    "sessions": ("host_", draw_session),
}


class Tally:
    """Counts in memory that the child shares, so that a crash does not lose them."""

    # The places: the case now run, which of its calls, all disagreements, whether the child came to its end,
    # then so many results for each name.
    CASE, CALL, DISAGREEMENTS, DONE, RESULTS = 0, 1, 2, 3, 4
    ANSWERS = 16

    def __init__(self, names):
        self.names = list(names)
        self.shared = mmap.mmap(-1, mmap.PAGESIZE)
        self.numbers = (ctypes.c_uint64 * 100).from_buffer(self.shared)
        self.crashes = 0

    def start(self, name):
        return self.RESULTS + self.ANSWERS * self.names.index(name)

    def count(self, name, result):
        self.numbers[self.start(name) + result] += 1

    def results(self, name):
        at = self.start(name)
        return self.numbers[at:at + self.ANSWERS]

    def disagree(self, text):
        self.numbers[self.DISAGREEMENTS] += 1
        if self.numbers[self.DISAGREEMENTS] <= PRINTED:
            print(text, flush=True)

    def print(self, options):
        rows = [self.results(name) for name in self.names]
        driver.print_counts(options.part, options, list(zip(self.names, map(sum, rows))),
                            enumerate(map(sum, zip(*rows))), self.crashes, self.numbers[self.DISAGREEMENTS])


def case(options, number):
    """Its calls in turn."""
    rng = driver.rng_of(options, number)
    _, draw = PARTS[options.part]
    return draw(rng, number), rng


def work(options, first, tally):
    """Runs the cases from `first` on, in the child."""
    library = Library(os.path.abspath(options.library), PARTS[options.part][0])
    for number in driver.numbers(options, first):
        tally.numbers[tally.CASE] = number
        calls, rng = case(options, number)
        for place, call in enumerate(calls):
            tally.numbers[tally.CALL] = place
            expected, fault = library.check(call, rng)
            tally.count(call.name, expected)
            if fault:
                tally.disagree("seed %d case %d: %s\n  %s" % (options.seed, number, fault, call.described()))
    tally.numbers[tally.DONE] = 1


DRIVER_FAILED = 3


def in_child(run):
    """The exit status of a child that does it, negative where a signal ended it."""
    child = os.fork()
    if child == 0:
        try:
            run()
            os._exit(0)
        except BaseException as error:
            print("the driver failed: %r" % error, flush=True)
            os._exit(DRIVER_FAILED)
    return os.waitstatus_to_exitcode(os.waitpid(child, 0)[1])


def fuzz(options, tally):
    """Whether the driver itself came through."""
    first = 0
    while True:
        status = in_child(lambda: work(options, first, tally))
        if tally.numbers[tally.DONE] or status == DRIVER_FAILED:
            return status != DRIVER_FAILED
        # The call ended the process; what follows it in its case is not made.
        report_crash(options, tally.numbers[tally.CASE], status, tally)
        first = tally.numbers[tally.CASE] + 1


def report_crash(options, number, status, tally):
    calls, _ = case(options, number)
    call = calls[tally.numbers[tally.CALL]]
    tally.crashes += 1
    tally.count(call.name, call.expected()[0])
    if tally.crashes <= PRINTED:
        print("seed %d case %d: crash: status %d\n  %s" % (options.seed, number, status, call.described()), flush=True)


def main():
    options = driver.read("Holds the C calls of a library against their models.", "part", "library")
    print("%s: seed %d" % (options.part, options.seed), flush=True)
    tally = Tally(FORMS[PARTS[options.part][0]])
    sound = fuzz(options, tally)
    tally.print(options)
    sys.exit(0 if sound and not tally.crashes and not tally.numbers[Tally.DISAGREEMENTS] else 1)


if __name__ == "__main__":
    main()
