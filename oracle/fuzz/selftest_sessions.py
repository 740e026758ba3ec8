"""Document 02's (e) and (f) through the model of the fold session, and whether drawn calls tell other rules from these.

Run: python3 selftest_sessions.py
"""

import collections
import random
import unittest

from model import CYCLIC, NEXT, P, PLAIN, PREFIX, SHIFTED, SUFFIX, WEIGHTS, base
from selftest import F, NOT_CYCLIC
from session_draws import COLUMNS, REQUEST, draw_session, feed_call, open_call
from sessions import Record, Sessions, folded

ONE = (1, 0, 0, 0)


def words(*numbers):
    return [word for number in numbers for word in base(number)]


def drawn_calls(seed, count):
    """The calls of so many sessions."""
    rng = random.Random(seed)
    return [call for number in range(count) for call in draw_session(rng, number)]


class Columns(unittest.TestCase):
    """ "Rows with columns" """

    def opened(self, n, columns, side, weight, point, out):
        number, record, out = REQUEST.open(words(*point), ONE, n, columns, side, weight, out)
        self.assertEqual(number, 0)
        return record, out

    def test_worked(self):
        """f in one column, and the tenfold and the negative of it in two others."""
        table = [part for f in F for part in (f, 10 * f, P - f)]
        for weight, answer in ((PLAIN, (17, 28)), (SHIFTED, (-9, -16)), (NEXT, (9, 16)), (CYCLIC, (-7, -8))):
            expected = words(*(part for f in answer for part in (f, 10 * f, -f)))
            for cut in range(13):
                record, out = self.opened(2, 3, PREFIX, weight, (2,), [7] * 24)
                for piece in (table[:cut], table[cut:]):
                    number, record, out = REQUEST.feed(record, piece, out)
                    self.assertEqual(number, 0)
                self.assertEqual(out, expected)
                self.assertEqual(REQUEST.close(record, out)[0], 0)
                self.assertEqual(REQUEST.read(record, 4, out), (0, tuple(expected[16:20])))

    def test_open(self):
        def number(columns, side=PREFIX, n=1, point=(), elements=None, scale=ONE):
            out = [0] * (4 * (2 * columns if elements is None else elements))
            return REQUEST.open(list(point), scale, n, columns, side, PLAIN, out)[0]
        for columns in range(1, 17):
            self.assertEqual(number(columns), 0)
        for columns in (0, 17, 2 ** 20):
            self.assertEqual(number(columns), 15)
        self.assertEqual(number(1, SUFFIX), 0)
        self.assertEqual([number(columns, SUFFIX) for columns in (0, 2, 16)], [15] * 3)
        self.assertEqual(number(17, point=[0]), 1)
        self.assertEqual(number(17, n=21), 3)
        self.assertEqual(number(17, point=[P] * 8), 15)
        self.assertEqual(number(2 ** 64 - 1, elements=0), 15)
        self.assertEqual(number(3, elements=2), 4)
        self.assertEqual(number(3, scale=(P, 0, 0, 0)), 5)

    def test_counts(self):
        """8, 9, 11 and 14 count the words and the elements of all columns."""
        record, out = self.opened(2, 3, PREFIX, PLAIN, (2,), [0] * 24)
        self.assertEqual(REQUEST.feed(record, [1] * 13, out), (8, record, out))
        for taken, answers in ((11, (0, 9)), (12, (8, 0)), (13, (11, 11))):
            record.taken = taken
            self.assertEqual((REQUEST.feed(record, [1], out)[0], REQUEST.close(record, out)[0]), answers)
        for taken, answer in ((4, 11), (11, 11), (12, 10)):
            record.taken, record.closed = taken, 1
            self.assertEqual(REQUEST.feed(record, [], out)[0], answer)
        self.assertEqual([REQUEST.read(record, place, out)[0] for place in (0, 5, 6)], [0, 0, 14])

    def test_record(self):
        """ "a record with such a c is 11" """
        for side, columns in ((PREFIX, 0), (PREFIX, 17), (PREFIX, 2 ** 32 - 1), (SUFFIX, 0), (SUFFIX, 2)):
            record = Record(0, 0, columns, side, PLAIN, ONE, [])
            out = [0] * min(4 * columns, 68)
            self.assertEqual(
                [REQUEST.feed(record, [], out)[0], REQUEST.close(record, out)[0], REQUEST.read(record, 0, out)[0]],
                [11] * 3)


def replaced(**rules):
    """The request's rules, but for these."""
    return type("Other", (Sessions,), rules)()


def one_column_at(counted):
    """2^n in the place of c·2^n where this counts it."""
    return replaced(table_words=lambda self, record, number:
                    (1 if number == counted else record.columns) * 2 ** record.n)


def by_row(_, record, number):
    """Row, place and column where word y·inner·c + j·inner + i is column j of place i."""
    inner = 2 ** (record.n - record.k)
    y, rest = divmod(number, inner * record.columns)
    j, i = divmod(rest, inner)
    return (y, i, j) if record.side == PREFIX else REQUEST.part_of(record, number)


def by_column(_, record, number):
    """The same where word j·2^n + y·inner + i is column j of place i of row y."""
    j, rest = divmod(number, 2 ** record.n)
    y, i = divmod(rest, 2 ** (record.n - record.k))
    return (y, i, j) if record.side == PREFIX else REQUEST.part_of(record, number)


def on_cyclic(weight):
    """Another weight in the place of the cyclic one."""
    return replaced(weight_at=lambda self, record, y:
                    (weight if record.weight == CYCLIC else WEIGHTS[record.weight])(record.point(), y))


# Rules that are not the requests'.
MISTAKES = {
    "columns taken for places": replaced(element_of=lambda self, record, i, j: j * 2 ** (record.n - record.k) + i),
    "a row's columns one after the other": replaced(part_of=by_row),
    "the columns one after the other": replaced(part_of=by_column),
    "15 after 4": replaced(order=(1, 3, 4, 15, 5)),
    "15 after 5": replaced(order=(1, 3, 4, 5, 15)),
    "15 before 3": replaced(order=(1, 15, 3, 4, 5)),
    "15 before 1": replaced(order=(15, 1, 3, 4, 5)),
    "2^n at 8": one_column_at(8),
    "2^n at 9": one_column_at(9),
    "2^n at 11, taken": one_column_at("taken"),
    "2^n at 11, closed": one_column_at("closed"),
    "two columns on the suffix side": replaced(most={PREFIX: 16, SUFFIX: 2}),
    "17 columns": replaced(most={PREFIX: 17, SUFFIX: 1}),
    "no 16 columns": replaced(most={PREFIX: 15, SUFFIX: 1}),
    "no columns": replaced(least=0),
    "a read counts places without columns": replaced(read_places=lambda self, record: 2 ** (record.n - record.k)),
    **{name: on_cyclic(weight) for name, weight in NOT_CYCLIC.items()},
}


class Drawn(unittest.TestCase):
    """What the drawn calls are."""

    def test_mistakes(self):
        """They tell each of them."""
        left = dict(MISTAKES)
        for call in drawn_calls(1, 400):
            expected = call.expected()
            left = {name: rules for name, rules in left.items() if call.expected(rules) == expected}
        self.assertEqual(list(left), [])

    def test_answers(self):
        """Each kind is accepted, and meets each of its refusals."""
        met = collections.defaultdict(set)
        for call in drawn_calls(2, 400):
            met[call.kind()].add(call.expected()[0])
        self.assertEqual(dict(met), {
            "open": {0, 1, 3, 15, 4, 5}, "feed": {0, 11, 10, 4, 5, 8}, "close": {0, 11, 10, 4, 5, 9},
            "read": {0, 11, 4, 5, 14}})

    def test_ends(self):
        """Pieces of each count of columns end within a place, at its end, at a row's end, at the end and beyond it."""
        ends = set()
        for call in drawn_calls(3, 1000):
            if call.kind() == "feed" and call.expected()[0] in (0, 8):
                record, table = call.record, REQUEST.table_words(call.record, 8)
                end = record.taken + len(call.told["piece"])
                row = record.columns * 2 ** (record.n - record.k)
                ends.add((record.columns, "beyond" if end > table else "all" if end == table else
                          "a row" if end % row == 0 else "a place" if end % record.columns == 0 else "within"))
        expected = {(columns, end) for columns in COLUMNS for end in ("beyond", "all", "a row", "a place", "within")}
        self.assertEqual(expected - ends, {(1, "within")})

    def test_ledger(self):
        """Out is the ledger's: each column's fold of the joined words."""
        rng = random.Random(4)
        for opened in (open_call(rng) for _ in range(60)):
            _, record, out, _ = opened.answer(REQUEST)
            joined = []
            for _ in range(4 if record.n < 6 else 0):
                call = feed_call(rng, record, out)
                number, record, out, _ = call.answer(REQUEST)
                joined += [] if number else call.told["piece"]
                self.assertEqual(out, folded(record, joined) if joined else [0] * len(out))


if __name__ == "__main__":
    unittest.main()
