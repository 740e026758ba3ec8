"""The fold session: each call as a function of what it is lent.

Document 01, "Fold session" and "Refused calls"; document 02, (a) for reads, (e) for columns and (f) for the cyclic
weight. What (e) and (f) fix has a small function for each part, so that the self test can put another in its place.
"""

import calls
import model
from model import PREFIX, SUFFIX

MOST = 20
COORDINATE_WORDS = 4 * MOST


class Record:
    """ "n, k, side, weight, scale, 20 coordinates, words taken, closed", and c; its words as the C calls keep them."""

    def __init__(self, n, k, columns, side, weight, scale, coordinates, taken=0, closed=0):
        self.n, self.k, self.columns, self.side, self.weight = n, k, columns, side, weight
        self.scale = tuple(scale)
        # "unused ones 0"
        self.coordinates = list(coordinates) + [0] * (COORDINATE_WORDS - len(coordinates))
        self.taken, self.closed = taken, closed

    def copy(self):
        return Record(self.n, self.k, self.columns, self.side, self.weight, self.scale, self.coordinates,
                      self.taken, self.closed)

    def head(self):
        return [self.n, self.k, self.columns, self.side, self.weight, self.taken, self.closed, *self.scale]

    def point(self):
        return elements(self.coordinates[:4 * self.k])


HEAD_WORDS = 11


def elements(words):
    return [tuple(words[at:at + 4]) for at in range(0, len(words), 4)]


def first(tests):
    """The number of the first test that holds, or 0; a test is made only where those before it do not hold."""
    return next((number for number, holds in tests if holds()), 0)


class Sessions:
    """The calls. Each gives its number and what it leaves; a refused one leaves all as it was."""

    # "c columns, 1 to 16", "a suffix session has c = 1"
    least = 1
    most = {PREFIX: 16, SUFFIX: 1}

    # "15 ... at open between 3 and 4"
    order = (1, 3, 15, 4, 5)

    def table_words(self, record, _number):
        """ "the table has c·2^n words, which 8, 9 and 11 now count"; told the number that counts them. """
        return record.columns * 2 ** record.n

    def out_words(self, n, k, columns):
        # "Out ... has c elements for each place"
        return 4 * columns * 2 ** (n - k)

    def read_places(self, record):
        # "which a read counts as c places"
        return record.columns * 2 ** (record.n - record.k)

    def part_of(self, record, number):
        """Row, place and column of a word: "Word (y·inner + i)·c + j ... belongs to row y, place i, column j". """
        rest, j = divmod(number, record.columns)
        if record.side == PREFIX:
            y, i = divmod(rest, 2 ** (record.n - record.k))
        else:
            i, y = divmod(rest, 2 ** record.k)
        return y, i, j

    def element_of(self, record, i, j):
        # "column j of place i at i·c + j"
        return i * record.columns + j

    def weight_at(self, record, y):
        return model.WEIGHTS[record.weight](record.point(), y)

    def miscounts(self, columns, side):
        return columns < self.least or columns > self.most[side]

    # The calls.

    def open(self, point, scale, n, columns, side, weight, out):
        k = len(point) // 4
        tests = {
            1: lambda: len(point) % 4 or len(out) % 4,
            3: lambda: n > MOST or k > MOST,
            15: lambda: self.miscounts(columns, side),
            4: lambda: k > n or len(out) != self.out_words(n, k, columns),
            5: lambda: calls.unreduced(point) or calls.unreduced(scale),
        }
        number = first((number, tests[number]) for number in self.order)
        if number:
            return number, None, out
        # "Open zeroes out."
        return 0, Record(n, k, columns, side, weight, scale, point), [0] * len(out)

    def feed(self, record, piece, out):
        number = first([
            (11, lambda: self.broken(record)),
            (10, lambda: record.closed),
            (4, lambda: self.misfits(record, out)),
            # "5 (piece or out)"
            (5, lambda: calls.unreduced(piece) or calls.unreduced(out)),
            # "8 (piece passes 2^n)"
            (8, lambda: record.taken + len(piece) > self.table_words(record, 8)),
        ])
        if number:
            return number, record, out
        after = record.copy()
        after.taken += len(piece)
        return 0, after, self.added(record, piece, out)

    def close(self, record, out):
        number = first([
            (11, lambda: self.broken(record)),
            (10, lambda: record.closed),
            (4, lambda: self.misfits(record, out)),
            (5, lambda: calls.unreduced(out)),
            # "9 (words missing)"
            (9, lambda: record.taken < self.table_words(record, 9)),
        ])
        if number:
            return number, record, out
        after = record.copy()
        after.closed = 1
        return 0, after, out

    def read(self, record, place, out):
        """The number and the element."""
        number = first([
            (11, lambda: self.broken(record)),
            (4, lambda: self.misfits(record, out)),
            (5, lambda: calls.unreduced(out)),
            (14, lambda: place >= self.read_places(record)),
        ])
        return number, None if number else tuple(out[4 * place:4 * place + 4])

    # What they share.

    def broken(self, record):
        """ "11 (n over 20, k over n, taken over 2^n, a part unreduced, unused coordinate not 0, closed short of 2^n)",
        and "a record with such a c is 11". """
        return (record.n > MOST or record.k > record.n or self.miscounts(record.columns, record.side)
                or record.taken > self.table_words(record, "taken")
                or calls.unreduced(record.scale) or calls.unreduced(record.coordinates)
                or any(record.coordinates[4 * record.k:])
                or record.closed and record.taken < self.table_words(record, "closed"))

    def misfits(self, record, out):
        return len(out) != self.out_words(record.n, record.k, record.columns)

    def added(self, record, piece, out):
        """ "Feed adds scale·weight·word to each word's place" """
        weights, after = {}, list(out)
        for number, word in enumerate(piece, record.taken):
            y, i, j = self.part_of(record, number)
            if y not in weights:
                weights[y] = model.mul(record.scale, self.weight_at(record, y))
            at = 4 * self.element_of(record, i, j)
            after[at:at + 4] = model.add(after[at:at + 4], model.times_word(weights[y], word))
        return after


def folded(record, words):
    """Out of the ledger: each column's fold by its definition, a word not joined being 0."""
    columns = [
        model.fold(record.side, record.weight, record.n, record.point(), record.scale, words[j::record.columns])
        for j in range(record.columns)
    ]
    return [word for place in zip(*columns) for element in place for word in element]
