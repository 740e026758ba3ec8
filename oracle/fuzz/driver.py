"""What both fuzz drivers are told, which cases they run, and what they print at the end."""

import argparse
import math
import os
import random
import time


def read(description, *targets):
    """The options of a driver, with `targets` its first words; the seed is drawn where none is given."""
    parser = argparse.ArgumentParser(description=description)
    for target in targets:
        parser.add_argument(target)
    parser.add_argument("--seconds", type=float, default=60)
    parser.add_argument("--cases", type=int, default=None, help="so many cases, however long they take")
    parser.add_argument("--seed", type=int, default=None)
    parser.add_argument("--case", type=int, default=None, help="run only this case")
    options = parser.parse_args()
    if options.seed is None:
        options.seed = int.from_bytes(os.urandom(4), "little")
    options.started = time.monotonic()
    os.nice(5)
    return options


def numbers(options, first=0):
    """The numbers of the cases to run, from `first` on: just one, so many, or those for which there is time."""
    last, deadline = options.cases, math.inf
    if options.case is not None:
        first, last = max(first, options.case), options.case + 1
    elif last is None:
        last, deadline = 2 ** 62, options.started + options.seconds
    for number in range(first, last):
        if time.monotonic() >= deadline:
            break
        yield number


def rng_of(options, number):
    """What case `number` is drawn from."""
    return random.Random("%d:%d" % (options.seed, number))


def print_counts(title, options, kinds, answers, crashes, disagreements):
    """Prints the kinds of cases, the answers by number, and what was wrong; all three are pairs with a count."""
    print("%s: %.0f seconds, %s" % (
        title, time.monotonic() - options.started, ", ".join("%s %d" % pair for pair in kinds)))
    print(", ".join("refused %d: %d" % pair if pair[0] else "accepted %d" % pair[1] for pair in answers if pair[1]))
    wrong = "%d crashes, %d disagreements" % (crashes, disagreements) if crashes or disagreements else "no disagreement"
    print("%s: %d inputs, %s" % (title, sum(count for _, count in kinds), wrong), flush=True)
