"""Whole inputs for the program: accepted, damaged, small or wide."""

from damage import BYTE_FAULTS, LINE_FAULTS, LONGEST_LINE, PLAN_FAULTS
from draws import any_word, element, low_word, spoil
from model import P, PREFIX
from plans import Plan, any_sizes, cut_words, open_line, some_line, words_line


def small_input(rng):
    return rng.choice((
        b"", b"\n", b"\n\n", b"04", b"04\n", b"0300\n", b"01", b"0", b"\r\n", b"\0", b"\0\n", b"\xff",
        b"02\n", b"03\n", b"00\n", b"05\n", b"ff\n", b" ", b"\n04\n", rng.randbytes(rng.randint(1, 60)),
        b"0" * rng.randint(1, LONGEST_LINE), b"\n" * rng.randint(1, 300),
    ))


def wide_plan(rng, n, k):
    """Many variables, and no words yet."""
    plan = Plan(rng)
    plan.n, plan.k = n, k
    plan.scale = element(rng, any_word)
    plan.coordinates = [(index, element(rng, any_word)) for index in range(k)]
    plan.pieces = []
    return plan


def wide_input(rng, n, shape):
    """Many variables and (nearly) all words: mostly zeros, so that the model stays quick."""
    head = wide_plan(rng, n, rng.randint(n - 10, n)).lines()[:-1]
    full = 2 ** n // 16
    lines = [b"0310" + b"0" * 128] * (rng.randint(1, full) if shape == "short" else full)
    for place in [rng.randrange(len(lines)) for _ in range(5)] + [0, -1]:
        # The first and the last word of a line are not 0.
        lines[place] = words_line(
            [rng.choice((0, low_word(rng))) if 0 < at < 15 else rng.randrange(1, P) for at in range(16)])
    if shape == "over":
        lines.append(words_line([low_word(rng)]))
    elif shape == "unreduced":
        lines[-1] = words_line(spoil(rng, [0] * 16))
    return b"\n".join(head + lines + [b"04", b""])


def padded_input(rng, n, more):
    """Many variables, the most places, one row and so many words more: the other rows are missing."""
    plan = wide_plan(rng, n, n - 10)
    plan.side = PREFIX
    plan.pieces = cut_words(rng, [rng.randrange(P) for _ in range(1024 + more)])
    return b"\n".join(plan.lines() + [b""])


WIDE = [lambda rng, n, shape=shape: wide_input(rng, n, shape) for shape in ("full", "over", "short", "unreduced")]
WIDE += [lambda rng, n: padded_input(rng, n, 0), lambda rng, n: padded_input(rng, n, rng.randint(1, 1023))]


def header_input(rng):
    """Each part of `01` drawn for itself, so that several refusals stand side by side."""
    scale = element(rng)
    line = open_line(
        rng.choice((0, 0, 0, 1, 1, 1, 2, 255)), rng.choice((0, 1, 2, 3, 0, 1, 2, 3, 4, 255)),
        *any_sizes(rng), spoil(rng, scale) if rng.random() < 0.4 else scale)
    return b"\n".join([line] + [some_line(rng) for _ in range(rng.randint(0, 2))] + [b""])


def ordinary_input(rng):
    plan = Plan(rng)
    faulty = rng.random()
    times = 0 if faulty < 0.35 else 1 if faulty < 0.75 else rng.randint(2, 4)
    chosen = [rng.choice((PLAN_FAULTS, PLAN_FAULTS, LINE_FAULTS, LINE_FAULTS, BYTE_FAULTS)) for _ in range(times)]
    for _ in range(chosen.count(PLAN_FAULTS)):
        rng.choice(PLAN_FAULTS)(rng, plan)
    lines = plan.lines()
    for _ in range(chosen.count(LINE_FAULTS)):
        rng.choice(LINE_FAULTS)(rng, lines)
        lines = lines or [b""]
    data = b"\n".join(lines) + (b"" if rng.random() < 0.25 else b"\n")
    for _ in range(chosen.count(BYTE_FAULTS)):
        data = rng.choice(BYTE_FAULTS)(rng, data) if data else data
    return data


def draw_input(rng, number):
    # The first cases are the widest, so that the shortest run has them too.
    if number < len(WIDE):
        return WIDE[number](rng, 20)
    shape = rng.random()
    if shape < 0.0015:
        return rng.choice(WIDE)(rng, rng.randint(11, 20))
    if shape < 0.01:
        return small_input(rng)
    if shape < 0.06:
        return header_input(rng)
    return ordinary_input(rng)
