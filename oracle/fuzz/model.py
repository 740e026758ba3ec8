"""The definitions of document 01, with plain integers and direct sums, and document 02's padding and cyclic weight.

An element is a tuple of four integers below P. Nothing here is made for
speed but the folds of large tables, and nothing here refuses: frames.py and
calls.py do that.
"""

P = 2013265921

ZERO = (0, 0, 0, 0)
ONE = (1, 0, 0, 0)

PREFIX, SUFFIX = 0, 1
PLAIN, SHIFTED, NEXT, CYCLIC = 0, 1, 2, 3


# The field: c0 + c1 X + c2 X^2 + c3 X^3 with X^4 = 11.

def base(a):
    return (a % P, 0, 0, 0)


def add(a, b):
    return tuple((x + y) % P for x, y in zip(a, b))


def sub(a, b):
    return tuple((x - y) % P for x, y in zip(a, b))


def mul(a, b):
    wide = [0] * 7
    for i in range(4):
        for j in range(4):
            wide[i + j] += a[i] * b[j]
    # X^(4+i) is 11 X^i.
    for i in range(3):
        wide[i] += 11 * wide[4 + i]
    return tuple(c % P for c in wide[:4])


def times_word(a, word):
    return mul(a, base(word))


def total(elements):
    out = ZERO
    for element in elements:
        out = add(out, element)
    return out


# Points and weights.

def bit_of(k, y, j):
    """The bit of row y that goes with coordinate j: coordinate 0 with the highest."""
    return (y >> (k - 1 - j)) & 1


def eq(point, y):
    out = ONE
    for j, coordinate in enumerate(point):
        if bit_of(len(point), y, j):
            out = mul(out, coordinate)
        else:
            out = mul(out, sub(ONE, coordinate))
    return out


def shifted(point, y):
    return ZERO if y == 0 else eq(point, y - 1)


def next_weight(point, y):
    last = 2 ** len(point) - 1
    # The last row follows itself.
    return add(shifted(point, y), eq(point, last)) if y == last else shifted(point, y)


def cyclic(point, y):
    """ "eq[N-1] at row 0, eq[y-1] at the others" (document 02, (f)): the last row is followed by the first. """
    return eq(point, y - 1 if y else 2 ** len(point) - 1)


WEIGHTS = {PLAIN: eq, SHIFTED: shifted, NEXT: next_weight, CYCLIC: cyclic}


def weight_table(weight, point, scale=ONE):
    return [mul(scale, WEIGHTS[weight](point, y)) for y in range(2 ** len(point))]


def eval_next(point, row):
    """carry, done, omega."""
    carry, done, omega = ONE, ZERO, ONE
    for s, t in reversed(list(zip(point, row))):
        st = mul(s, t)
        same = add(sub(sub(add(st, st), s), t), ONE)
        step = mul(sub(ONE, s), t)
        # done takes the carry from before this pair.
        done = add(mul(same, done), mul(step, carry))
        carry = mul(mul(s, sub(ONE, t)), carry)
        omega = mul(st, omega)
    return carry, done, omega


# Values and folds.

def value(weight, point, words):
    return total(times_word(w, f) for w, f in zip(weight_table(weight, point), words))


def word_of(side, n, k, i, y):
    """The number of the word at place i of row y."""
    inner = 2 ** (n - k)
    return y * inner + i if side == PREFIX else i * 2 ** k + y


def fold(side, weight, n, point, scale, words):
    """out by its definition; a word that is not given is 0."""
    k = len(point)
    table = weight_table(weight, point, scale)
    given = list(words) + [0] * (2 ** n - len(words))
    return [
        total(times_word(table[y], given[word_of(side, n, k, i, y)]) for y in range(2 ** k))
        for i in range(2 ** (n - k))
    ]


def padded(side, n, k, words):
    """The table that `foldframes` folds where words are missing (document 02, (d))."""
    table, row = list(words), 2 ** (n - k)
    # "on the prefix side, ... once one whole row has come"
    if side == PREFIX and len(words) >= row:
        while len(table) < 2 ** n:
            # "a missing word takes the value of the word 2^(n-k) places earlier"
            table.append(table[-row])
    # "Where fewer words than one row came, and on the suffix side, every missing word is 0"
    return table + [0] * (2 ** n - len(table))


def split_tables(point, scale):
    """The work buffer: scale times eq of the first floor(k/2) coordinates, then eq of the others."""
    half = len(point) // 2
    return weight_table(PLAIN, point[:half], scale) + weight_table(PLAIN, point[half:])


# The same sums, for large tables (the self test compares them).

def fold_halves(side, weight, n, point, scale, table):
    """The fold of a whole table by halves, which is quick where rows are alike."""
    if side == PREFIX:
        parts, row = [table], 2 ** (n - len(point))
    else:
        # Each place is a table of its own, with one word a row.
        size, row = 2 ** len(point), 1
        parts = [table[at:at + size] for at in range(0, 2 ** n, size)]
    return [mul(scale, place) for part in parts for place in halves(point, row, followed(weight, row, part))]


def followed(weight, row, table):
    """The table whose plain fold is the fold on this weight: in the place of each row the one after it."""
    if weight == PLAIN:
        return table
    return table[row:] + {SHIFTED: [0] * row, NEXT: table[-row:], CYCLIC: table[:row]}[weight]


def halves(point, row, table):
    """The plain fold of rows of so many words. Weights add up to 1: where all rows are alike, it is that row."""
    if table[row:] == table[:-row]:
        return [base(word) for word in table[:row]]
    half = len(table) // 2
    low, high = (halves(point[1:], row, part) for part in (table[:half], table[half:]))
    return [add(a, mul(point[0], sub(b, a))) for a, b in zip(low, high)]


def fold_sparse(side, weight, n, point, scale, words):
    """The fold with the terms of zero words left out."""
    k = len(point)
    out = [ZERO] * 2 ** (n - k)
    for number, word in enumerate(words):
        if word:
            if side == PREFIX:
                y, i = divmod(number, 2 ** (n - k))
            else:
                i, y = divmod(number, 2 ** k)
            weighed = mul(scale, WEIGHTS[weight](point, y))
            out[i] = add(out[i], times_word(weighed, word))
    return out


# Only for the worked examples.

def split_value(weight, point, scale, words):
    """SplitEq's evaluations: scaled, but for the corners."""
    if not point or (weight == NEXT and len(point) == 1):
        scale = ONE
    return mul(scale, value(weight, point, words))


def eval_eq(point, other):
    out = ONE
    for a, b in zip(point, other):
        ab = mul(a, b)
        out = mul(out, add(sub(sub(add(ab, ab), a), b), ONE))
    return out


def eval_select(var, point):
    return total(times_word(eq(point, y), pow(var, y, P)) for y in range(2 ** len(point)))


def fix_prefix_monomial(table, r):
    half = len(table) // 2
    return [add(table[i], mul(table[half + i], r)) for i in range(half)]


def sum_prefix(table):
    half = len(table) // 2
    return [add(table[i], table[half + i]) for i in range(half)]


def eq_batch(points, scalars):
    rows = 2 ** len(points[0])
    return [total(mul(s, eq(z, y)) for s, z in zip(scalars, points)) for y in range(rows)]
