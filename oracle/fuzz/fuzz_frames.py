"""Holds the program `foldframes` against frames.py on drawn and damaged inputs.

Run: python3 fuzz_frames.py PROGRAM [--seconds S | --cases N] [--seed N] [--case I]
Case I of seed N is always the same; --case runs it alone.
"""

import collections
import os
import random
import sys
import tempfile
import threading

import driver
import runs
from frames import foldframes, refusal_of
from inputs import draw_input
from runs import blocks
from shrinking import shrink

THREADS = 2

# Of the disagreements so many are shrunk, and after so many the rest is not run.
SHRUNK = 10
ENOUGH = 30


class Tally:
    """What was run and what was wrong, counted for all threads."""

    def __init__(self):
        self.lock = threading.Lock()
        self.crashes = self.disagreements = 0
        self.answers = collections.Counter()
        self.modes = collections.Counter()
        self.folder = None

    def count(self, mode, expected):
        with self.lock:
            self.modes[mode] += 1
            self.answers[refusal_of(expected)] += 1

    def count_wrong(self, fault):
        """How many there were before this one."""
        with self.lock:
            before = self.wrong()
            if fault.startswith("crash"):
                self.crashes += 1
            else:
                self.disagreements += 1
            return before

    def wrong(self):
        return self.crashes + self.disagreements

    def keep(self, name, data):
        """Writes an input to a file; gives its path."""
        with self.lock:
            self.folder = self.folder or tempfile.mkdtemp(prefix="foldframes-")
        path = os.path.join(self.folder, name)
        with open(path, "wb") as file:
            file.write(data)
        return path


class Case:
    """One input and the way it is fed; the blocks of another input are drawn from the same seed."""

    def __init__(self, program, number, rng):
        self.program, self.number = program, number
        self.data = draw_input(rng, number)
        self.mode = rng.choices(list(runs.MODES), runs.MODES.values())[0]
        self.seed = rng.random()

    def fault(self, data, mode, expected=None):
        """What is wrong with the program on an input, or None."""
        run = runs.run(self.program, data, mode, random.Random(self.seed))
        return blocks.fault_of(run, foldframes(data) if expected is None else expected)

    def shrunk(self):
        """A smaller input that is wrong as well, and how it is fed; held ones would take too long."""
        for mode in ("file", "blocks"):
            if self.fault(self.data, mode):
                return shrink(self.data, lambda data: self.fault(data, mode)), mode
        return None, None


class Fuzzer:
    def __init__(self, options):
        self.options, self.program = options, os.path.abspath(options.program)
        self.tally = Tally()
        self.numbers, self.lock = driver.numbers(options), threading.Lock()
        self.failed = False

    def case(self, number):
        case = Case(self.program, number, driver.rng_of(self.options, number))
        expected = foldframes(case.data)
        fault = case.fault(case.data, case.mode, expected)
        self.tally.count(case.mode, expected)
        if fault:
            self.report(case, fault)

    def report(self, case, fault):
        before = self.tally.count_wrong(fault)
        print("seed %d case %d (%s): %s" % (self.options.seed, case.number, case.mode, fault), flush=True)
        print("  input: %s" % self.tally.keep("case-%d" % case.number, case.data), flush=True)
        data, mode = case.shrunk() if before < SHRUNK else (None, None)
        if mode:
            path = self.tally.keep("case-%d-shrunk" % case.number, data)
            print("  shrunk: %s %s: %s" % (path, blocks.short(data), case.fault(data, mode)), flush=True)

    def work(self):
        """Runs cases until it is enough. A thread's own error has to end the whole run as a failure."""
        try:
            while (number := self.next_number()) is not None:
                self.case(number)
        except BaseException:
            self.failed = True
            raise

    def next_number(self):
        with self.lock:
            return next(self.numbers, None) if self.tally.wrong() < ENOUGH else None

    def run(self):
        """Whether all cases agree."""
        threads = [threading.Thread(target=self.work) for _ in range(THREADS)]
        for thread in threads:
            thread.start()
        for thread in threads:
            thread.join()
        tally = self.tally
        driver.print_counts("frames", self.options, sorted(tally.modes.items()), sorted(tally.answers.items()),
                            tally.crashes, tally.disagreements)
        return not (self.failed or tally.wrong())


def main():
    options = driver.read("Holds foldframes against its model.", "program")
    print("frames: seed %d" % options.seed, flush=True)
    sys.exit(0 if Fuzzer(options).run() else 1)


if __name__ == "__main__":
    main()
