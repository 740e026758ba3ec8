"""Document 01's worked examples, its listing and its readings, and document 02's, through the model.

Run: python3 selftest.py
"""

import random
import unittest
import unittest.mock

import calls
import model
from frames import foldframes
from model import CYCLIC, NEXT, P, PLAIN, PREFIX, SHIFTED, SUFFIX, WEIGHTS, ZERO, base
from plans import Plan

F = [1, 4, 9, 16]
Z = [base(2), base(3)]
Z5 = [base(5), base(7)]
X3 = (0, 0, 0, 1)


def bases(*numbers):
    return [base(number) for number in numbers]


def drawn(rng):
    return tuple(rng.randrange(P) for _ in range(4))


class Worked(unittest.TestCase):
    """ "Points and tables worked through" """

    def test_field(self):
        self.assertEqual(model.mul((0, 1, 0, 0), X3), base(11))
        self.assertEqual(model.mul((0, 0, 0, 2), (0, 0, 0, 3)), (0, 0, 66, 0))
        self.assertEqual(model.mul(base(P - 1), base(P - 1)), base(1))

    def test_tables(self):
        self.assertEqual(model.weight_table(PLAIN, Z), bases(2, -3, -4, 6))
        self.assertEqual(model.weight_table(NEXT, Z), bases(0, 2, -3, 2))
        self.assertEqual(model.weight_table(PLAIN, [], base(5)), bases(5))
        self.assertEqual(model.weight_table(NEXT, []), bases(1))

    def test_values(self):
        self.assertEqual(model.value(PLAIN, Z, F), base(50))
        self.assertEqual(model.value(NEXT, Z, F), base(13))
        self.assertEqual(model.split_value(PLAIN, [], base(5), [7]), base(7))
        self.assertEqual(model.split_value(NEXT, [], base(5), [7]), base(7))
        self.assertEqual(model.split_value(NEXT, [drawn(random.Random(4))], base(5), [1, 4]), base(4))
        self.assertEqual(model.split_value(PLAIN, Z, base(5), F), base(250))

    def test_folds(self):
        def fold(side, weight, z):
            return model.fold(side, weight, 2, [base(z)], base(1), F)
        self.assertEqual(fold(PREFIX, PLAIN, 2), bases(17, 28))
        self.assertEqual(fold(PREFIX, SHIFTED, 2), bases(-9, -16))
        self.assertEqual(fold(SUFFIX, PLAIN, 3), bases(10, 30))
        self.assertEqual(fold(SUFFIX, SHIFTED, 3), bases(-8, -32))
        self.assertEqual(model.fold(PREFIX, PLAIN, 0, [], base(5), [7]), bases(35))

    def test_eval_next(self):
        self.assertEqual(model.eval_next(Z, Z5), tuple(bases(144, -106, 210)))
        at = [model.mul(a, b) for a, b in zip(model.weight_table(NEXT, Z), model.weight_table(PLAIN, Z5))]
        self.assertEqual(model.total(at), base(104))
        self.assertEqual(model.eval_next([], []), tuple(bases(1, 0, 1)))

    def test_beside(self):
        self.assertEqual(model.eval_eq(Z, Z5), base(462))
        self.assertEqual(model.eval_select(3, Z), base(119))
        self.assertEqual(model.fix_prefix_monomial(bases(*F), base(2)), bases(19, 36))
        self.assertEqual(model.sum_prefix(bases(*F)), bases(10, 20))
        self.assertEqual(model.eq_batch([Z, bases(0, 1)], bases(1, 10)), bases(2, 7, -4, 6))


class Definitions(unittest.TestCase):
    """Facts that tie the definitions to each other."""

    def test_folds_agree(self):
        rng = random.Random(1)
        for n in range(6):
            for k in range(n + 1):
                point = [drawn(rng) for _ in range(k)]
                words = [rng.choice((0, 1, P - 1, rng.randrange(P))) for _ in range(rng.randrange(2 ** n + 1))]
                for side in (PREFIX, SUFFIX):
                    for weight in WEIGHTS:
                        arguments = side, weight, n, point, drawn(rng)
                        expected = model.fold(*arguments, words)
                        self.assertEqual(model.fold_sparse(*arguments, words), expected)
                        table = words + [0] * (2 ** n - len(words))
                        self.assertEqual(model.fold_halves(*arguments, table), expected)

    def test_at_a_point(self):
        """Next is done plus omega, cyclic "done plus carry", and shifted done alone."""
        rng = random.Random(2)
        for k in range(6):
            point, row = ([drawn(rng) for _ in range(k)] for _ in "pr")
            carry, done, omega = model.eval_next(point, row)
            # At k = 0 no row follows another, and carry, which is 1, is the last row's eq.
            for weight, expected in ((SHIFTED, done), (NEXT, model.add(done, omega)), (CYCLIC, model.add(done, carry))):
                tables = model.weight_table(weight, point), model.weight_table(PLAIN, row)
                self.assertEqual(model.total(model.mul(a, b) for a, b in zip(*tables)), expected)

    def test_split(self):
        rng = random.Random(3)
        for k in range(7):
            point, scale = [drawn(rng) for _ in range(k)], drawn(rng)
            work = model.split_tables(point, scale)
            eq0, eq1 = work[:2 ** (k // 2)], work[2 ** (k // 2):]
            self.assertEqual([model.mul(a, b) for a in eq0 for b in eq1], model.weight_table(PLAIN, point, scale))


def appending(word):
    """A rule by the word that it appends; `at` is a row before the table's end, `came` how many words came."""
    def padded(side, n, k, words):
        table, row = list(words), 2 ** (n - k)
        while len(table) < 2 ** n:
            table.append(word(side, row, table, len(table) - row, len(words)))
        return table
    return padded


def repeating(word):
    """A rule that appends another word, but zeros where the request has them."""
    return appending(lambda side, row, table, at, came:
                     word(row, table, at, came) if side == PREFIX and came >= row else 0)


# Rules that are not the request's.
MISTAKES = {
    "zeros": repeating(lambda row, table, at, came: 0),
    "one place later": repeating(lambda row, table, at, came: table[min(at + 1, len(table) - 1)]),
    "one place earlier": repeating(lambda row, table, at, came: table[max(at - 1, 0)]),
    "the last word": repeating(lambda row, table, at, came: table[-1]),
    "the first row": repeating(lambda row, table, at, came: table[at % row]),
    "the last whole row": repeating(lambda row, table, at, came: table[came // row * row - row + at % row]),
    "no filled word repeated": repeating(lambda row, table, at, came: table[at] if at < came else 0),
    "only the row begun": repeating(lambda row, table, at, came: table[at] if len(table) // row == came // row else 0),
    "only after more than one row": repeating(lambda row, table, at, came: table[at] if came > row else 0),
    "before one whole row": appending(lambda side, row, table, at, came:
                                      table[at] if side == PREFIX and at >= 0 else 0),
    "the suffix side too": appending(lambda side, row, table, at, came: table[at] if came >= row else 0),
}


class Padding(unittest.TestCase):
    """ "The last row stands for the missing ones" """

    def test_rule(self):
        for side, n, k, came, table in (
                (PREFIX, 2, 1, [1, 4, 9], [1, 4, 9, 4]), (PREFIX, 2, 1, [1, 4], [1, 4, 1, 4]),
                (PREFIX, 2, 1, [1], [1, 0, 0, 0]), (PREFIX, 2, 1, [], [0] * 4), (PREFIX, 2, 1, F, F),
                (PREFIX, 3, 1, [1, 2, 3, 4, 5], [1, 2, 3, 4, 5, 2, 3, 4]),
                (PREFIX, 3, 2, [1, 2, 3], [1, 2, 3, 2, 3, 2, 3, 2]),
                (PREFIX, 2, 0, [1, 4, 9], [1, 4, 9, 0]), (PREFIX, 2, 0, F, F), (PREFIX, 2, 2, [], [0] * 4),
                (PREFIX, 2, 2, [7], [7] * 4), (PREFIX, 2, 2, [1, 4, 9], [1, 4, 9, 9]),
                (PREFIX, 0, 0, [], [0]), (PREFIX, 0, 0, [7], [7]),
                (SUFFIX, 2, 1, [1, 4, 9], [1, 4, 9, 0]), (SUFFIX, 2, 1, F, F), (SUFFIX, 2, 2, [7], [7, 0, 0, 0])):
            self.assertEqual(model.padded(side, n, k, came), table)

    def test_every_cut(self):
        """Each place has, beside the words that came, its last one with the weights of its missing rows."""
        rng = random.Random(5)
        for n, k in [(n, k) for n in range(5) for k in range(n + 1)]:
            point, scale, words = [drawn(rng) for _ in range(k)], drawn(rng), [rng.randrange(P) for _ in range(2 ** n)]
            for weight in WEIGHTS:
                for count in range(2 ** (n - k), 2 ** n + 1):
                    table = model.padded(PREFIX, n, k, words[:count])
                    out = self.by_missing_rows(weight, n, point, scale, words[:count])
                    self.assertEqual(model.fold(PREFIX, weight, n, point, scale, table), out)
                    self.assertEqual(model.fold_halves(PREFIX, weight, n, point, scale, table), out)

    def by_missing_rows(self, weight, n, point, scale, words):
        row, weights = 2 ** (n - len(point)), model.weight_table(weight, point, scale)
        out = model.fold(PREFIX, weight, n, point, scale, words)
        for i in range(row):
            came = words[i::row]
            missing = model.total(weights[len(came):])
            out[i] = model.add(out[i], model.times_word(missing, came[-1]))
        return out

    def test_cuts(self):
        """Drawn inputs are cut in each way, on both sides and on each weight."""
        cuts, rng = set(), random.Random(7)
        for plan in (Plan(rng) for _ in range(1000)):
            came, row = sum(map(len, plan.pieces)), 2 ** (plan.n - plan.k)
            cut = ("none" if came == 0 else "all" if came == 2 ** plan.n else "before one row" if came < row
                   else "within a row" if came % row else "at a row's end")
            cuts.add((plan.side, plan.weight, cut))
        self.assertEqual(len(cuts), 2 * len(WEIGHTS) * 5)

    def test_mistakes(self):
        """Drawn inputs tell each of them, on each weight."""
        left = {(name, weight) for name in MISTAKES for weight in WEIGHTS}
        rng = random.Random(6)
        for plan in filter(lambda plan: left and plan.n <= 6, (Plan(rng) for _ in range(2000))):
            words = [word for piece in plan.pieces for word in piece]
            point = [coordinate for _, coordinate in plan.coordinates]

            def out(rule):
                table = rule(plan.side, plan.n, plan.k, words)
                return model.fold_halves(plan.side, plan.weight, plan.n, point, plan.scale, table)
            right = out(model.padded)
            left -= {(name, weight) for name, weight in left if weight == plan.weight and out(MISTAKES[name]) != right}
        self.assertEqual(left, set())


# Weights that are not the cyclic one.
NOT_CYCLIC = {
    "row 0 left at 0": model.shifted,
    "the last row joined to itself": model.next_weight,
    "row 0 by the first row's eq": lambda point, y: model.eq(point, max(0, y - 1)),
    "0 at k = 0": lambda point, y: model.cyclic(point, y) if point else ZERO,
}


class Cyclic(unittest.TestCase):
    """ "Rosters that come round" """

    def test_tables(self):
        self.assertEqual(model.weight_table(CYCLIC, []), bases(1))
        self.assertEqual(model.weight_table(CYCLIC, Z[:1]), bases(2, -1))
        self.assertEqual(model.weight_table(CYCLIC, Z), bases(6, 2, -3, -4))
        self.assertEqual(model.value(CYCLIC, Z, F), base(-77))

    def test_turned(self):
        """The plain table with its last row first; the value is that of the table with its first row last."""
        rng = random.Random(8)
        for k in range(6):
            point, words = [drawn(rng) for _ in range(k)], [rng.randrange(P) for _ in range(2 ** k)]
            plain = model.weight_table(PLAIN, point)
            self.assertEqual(model.weight_table(CYCLIC, point), plain[-1:] + plain[:-1])
            self.assertEqual(model.value(CYCLIC, point, words), model.value(PLAIN, point, words[1:] + words[:1]))

    def test_mistakes(self):
        """Drawn inputs tell each of them, on each side."""
        left = {(name, side) for name in NOT_CYCLIC for side in (PREFIX, SUFFIX)}
        rng = random.Random(9)
        for plan in (Plan(rng) for _ in range(1000)):
            if plan.weight == CYCLIC and plan.n <= 4:
                right = self.out(model.cyclic, plan)
                left -= {(name, side) for name, side in left
                         if side == plan.side and self.out(NOT_CYCLIC[name], plan) != right}
        self.assertEqual(left, set())

    def out(self, weight, plan):
        """Out of the padded table on this weight."""
        words = [word for piece in plan.pieces for word in piece]
        point = [coordinate for _, coordinate in plan.coordinates]
        table = model.padded(plan.side, plan.n, plan.k, words)
        with unittest.mock.patch.dict(WEIGHTS, {CYCLIC: weight}):
            return model.fold(plan.side, CYCLIC, plan.n, point, plan.scale, table)


def element(c0, c1=0, c2=0, c3=0):
    return "%08x%08x%08x%08x" % (c0, c1, c2, c3)


def out_lines(*numbers):
    return "".join(element(number % P) + "\n" for number in numbers)


def open_line(n, k, side=0, weight=0, scale=1):
    return "01%02x%02x%02x%02x" % (side, weight, n, k) + element(scale)


OPEN = open_line(2, 1)
POINT = "0200" + element(2)
WORDS = "030400000001000000040000000900000010"
OUT = out_lines(9, 16)
BAD = "%08x" % P


class Frames(unittest.TestCase):
    def says(self, lines, answer):
        """The lines, with and without the last line feed."""
        text = "\n".join(lines)
        self.assertEqual(foldframes(text.encode("latin-1") + b"\n"), answer.encode())
        if lines[-1]:
            self.assertEqual(foldframes(text.encode("latin-1")), answer.encode())

    def test_listing(self):
        self.says([
            "010002020100000001000000000000000000000000",
            "020000000002000000000000000000000000",
            "030400000001000000040000000900000010",
            "04",
        ], "00000009000000000000000000000000\n00000010000000000000000000000000\n")

    def test_worked(self):
        for side, weight, z, answer in (
                (0, 0, 2, (17, 28)), (0, 1, 2, (-9, -16)), (1, 0, 3, (10, 30)), (1, 1, 3, (-8, -32)),
                (0, 3, 2, (-7, -8)), (1, 3, 3, (-5, -5))):
            self.says([open_line(2, 1, side, weight), "0200" + element(z), WORDS, "04"], out_lines(*answer))
        z = ["0200" + element(2), "0201" + element(3)]
        self.says([open_line(2, 2)] + z + [WORDS, "04"], out_lines(50))
        self.says([open_line(2, 2, 1, 2)] + z + [WORDS, "04"], out_lines(13))
        self.says([open_line(2, 2, 0, 3)] + z + [WORDS, "04"], out_lines(-77))
        self.says([open_line(0, 0, 0, 0, 5), "030100000007", "04"], out_lines(35))
        self.says([open_line(0, 0, 0, 1, 5), "030100000007", "04"], out_lines(0))
        self.says([open_line(0, 0, 0, 2, 5), "030100000007", "04"], out_lines(35))
        self.says([open_line(0, 0, 0, 3, 5), "030100000007", "04"], out_lines(35))

    def test_ends(self):
        self.assertEqual(foldframes(b""), b"ff09\n")
        self.assertEqual(foldframes(b"\n"), b"ff0c\n")
        self.says([OPEN], "ff09\n")
        self.says([OPEN, POINT], "ff09\n")
        self.says([OPEN, POINT, WORDS], "ff09\n")

    def test_after_close(self):
        for late in ("", "04", OPEN, POINT, WORDS, "zz"):
            self.says([open_line(2, 1, 0, 2), POINT, WORDS, "04", late], OUT + "ff0a\n")

    def test_not_a_frame(self):
        for line in ("", "0", "z", "00", "05", "ff", "0400", "040", "04\r", "04 ", " 04", "04\0", "4", "\xe9",
                     "03", "0301", "030000000000", "0311" + "00000000" * 17, "0301" + "0000000A", POINT[:-2],
                     POINT + "00", "02", "02" + POINT, "04" + "0" * 200000):
            self.says([OPEN, line], "ff0c\n")
        for line in (OPEN[:-2], OPEN + "00", open_line(2, 1, 2), open_line(2, 1, 0, 4), "02", POINT, WORDS, "04",
                     "0300", OPEN.replace("01", "01\0")):
            self.says([line], "ff0c\n")
        self.says([OPEN, OPEN], "ff0c\n")
        self.says([OPEN, POINT, "0300", POINT], "ff0c\n")
        self.says([OPEN, POINT, "0300", OPEN], "ff0c\n")

    def test_open(self):
        self.says([open_line(21, 21)], "ff03\n")
        self.says([open_line(20, 21)], "ff03\n")
        self.says([open_line(255, 0, 0, 0, P)], "ff03\n")
        self.says([open_line(1, 2, 0, 0, P)], "ff04\n")
        self.says([open_line(12, 1, 0, 0, P)], "ff05\n")
        self.says([open_line(12, 1)], "ff03\n")
        self.says([open_line(20, 9)], "ff03\n")
        self.says([open_line(20, 10)], "ff09\n")
        self.says([open_line(2, 1, 0, 0, P - 1)], "ff09\n")

    def test_coordinates(self):
        self.says([OPEN, "0200" + element(0, 0, 0, P)], "ff05\n")
        for close in ("04", "0300", "0301" + BAD, "0305" + "00000000" * 5):
            self.says([OPEN, close], "ff0d\n")
            self.says([open_line(2, 2), POINT, close], "ff0d\n")

    def test_order(self):
        """ "A frame with any other index, or one at or above k, gets 13 at that frame, before 5" """
        for word in (2, P):
            for before, index in (((), 1), ((), 255), ((0,), 0), ((0,), 2), ((0, 1), 0), ((0, 1, 2), 3), ((0, 1, 2), 255)):
                lines = ["02%02x" % i + element(2) for i in before] + ["02%02x" % index + element(word)]
                self.says([open_line(3, 3)] + lines, "ff0d\n")
                self.says([open_line(3, 3)] + lines + ["zz"], "ff0d\n")
            self.says([open_line(0, 0), "0200" + element(word)], "ff0d\n")
        self.says([OPEN, "0201" + element(2) + "00"], "ff0c\n")

    def test_words(self):
        self.says([OPEN, POINT, "0301" + BAD], "ff05\n")
        self.says([OPEN, POINT, WORDS, "0301" + BAD], "ff05\n")
        self.says([OPEN, POINT, WORDS, "030100000000"], "ff08\n")
        self.says([open_line(2, 1, 0, 2), POINT, "0300", WORDS, "0300", "04"], OUT)
        self.says([open_line(1, 0), "0301%08x" % (P - 1), "04"], out_lines(P - 1, 0))

    def test_missing(self):
        """Of 1, 4, 9 the fourth word is 4 on the prefix side; of 1 and on the suffix side all missing are 0."""
        three, one = "0303000000010000000400000009", "030100000001"
        for side, weight, words, answer in (
                (0, 0, three, (17, 4)), (0, 1, three, (-9, -4)), (0, 2, three, (9, 4)), (0, 3, three, (-7, 4)),
                (0, 0, one, (-1, 0)), (0, 1, one, (0, 0)), (0, 2, one, (0, 0)), (0, 3, one, (2, 0)),
                (1, 0, three, (7, -9)), (1, 1, three, (-4, 0)), (1, 2, three, (4, 0)), (1, 3, three, (-2, 18))):
            lines = [open_line(2, 1, side, weight), POINT, words]
            self.says(lines + ["04"], out_lines(*answer))
            self.says(lines + ["0300", "04", ""], out_lines(*answer) + "ff0a\n")
            self.says(lines, "ff09\n")


def point_bytes(*numbers):
    return calls.bytes_of(bases(*numbers))


def table_bytes(*words):
    return b"".join(word.to_bytes(4, "little") for word in words)


class Calls(unittest.TestCase):
    old = b"\xff" * 16

    def test_vertex(self):
        z = point_bytes(2, 3)
        self.assertEqual(calls.equality_at_vertex(z, 3, self.old), (0, point_bytes(6)))
        self.assertEqual(calls.equality_at_vertex(z, 4, self.old), (7, self.old))
        self.assertEqual(calls.equality_at_vertex(b"", 0, self.old), (0, point_bytes(1)))
        self.assertEqual(calls.equality_at_vertex(table_bytes(P - 1, 0, 0, 0), 1, self.old), (0, point_bytes(-1)))
        self.assertEqual(calls.equality_at_vertex(table_bytes(P, 0, 0, 0), 9, self.old), (5, self.old))
        self.assertEqual(calls.equality_at_vertex(b"\xff" * 320, 0, self.old)[0], 5)
        self.assertEqual(calls.equality_at_vertex(point_bytes(*[1] * 20), 2 ** 20 - 1, self.old)[0], 0)
        self.assertEqual(calls.equality_at_vertex(b"\xff" * 336, 2 ** 64 - 1, b"")[0], 3)
        self.assertEqual(calls.equality_at_vertex(b"\xff" * 320, 2 ** 64 - 1, b"")[0], 4)
        self.assertEqual(calls.equality_at_vertex(b"\xff" * 336, 0, b"\0" * 15)[0], 1)

    def test_eval_next(self):
        z, z5 = point_bytes(2, 3), point_bytes(5, 7)
        self.assertEqual(calls.eval_next(z, z5, self.old * 3), (0, point_bytes(144, -106, 210)))
        self.assertEqual(calls.eval_next(b"", b"", self.old * 3), (0, point_bytes(1, 0, 1)))
        self.assertEqual(calls.eval_next(z, z5, self.old), (4, self.old))
        self.assertEqual(calls.eval_next(z, z5[:16], self.old * 3)[0], 4)
        self.assertEqual(calls.eval_next(z, z5[:15], self.old * 3)[0], 1)
        self.assertEqual(calls.eval_next(z, b"\xff" * 32, self.old * 3)[0], 5)
        self.assertEqual(calls.eval_next(z, b"\xff" * 336, self.old)[0], 3)

    def test_folds(self):
        f, one = table_bytes(*F), (1, 0, 0, 0)
        work, out = self.old * 3, self.old * 2
        self.assertEqual(
            calls.compress_prefix_shifted(f, point_bytes(2), one, work, out),
            (0, point_bytes(1, -1, 2), point_bytes(-9, -16)))
        self.assertEqual(
            calls.compress_suffix_shifted(f, point_bytes(3), one, work, out),
            (0, point_bytes(1, -2, 3), point_bytes(-8, -32)))
        self.assertEqual(
            calls.compress_suffix_shifted(f, b"", (5, 0, 0, 0), out, self.old * 4),
            (0, point_bytes(5, 1), point_bytes(0, 0, 0, 0)))

    def test_fold_refusals(self):
        z, one, bad = point_bytes(2), (1, 0, 0, 0), (0, 0, 0, P)
        work, out = self.old * 3, self.old * 2

        def number(table, point, scale, work, out):
            answer = calls.compress_prefix_shifted(table, point, scale, work, out)
            self.assertEqual(answer[1:], (work, out))
            return answer[0]
        f = table_bytes(*F)
        self.assertEqual(number(f[:-1], z, bad, b"", b""), 1)
        self.assertEqual(number(b"", z, bad, work, out[1:]), 1)
        self.assertEqual(number(b"", b"\xff" * 336, bad, b"", b""), 2)
        self.assertEqual(number(f[4:], z, bad, b"", b""), 2)
        self.assertEqual(number(f, b"\xff" * 336, bad, b"", b""), 3)
        self.assertEqual(number(bytes(4 * 2 ** 21), z, bad, b"", b""), 3)
        self.assertEqual(number(bytes(4 * 2 ** 20), z, bad, b"", b""), 4)
        self.assertEqual(number(f, z * 3, bad, work, out), 4)
        self.assertEqual(number(f, z, bad, work, out[16:]), 4)
        self.assertEqual(number(f, z, bad, work[16:], out), 4)
        self.assertEqual(number(f, z, bad, work, out), 5)
        self.assertEqual(number(b"\xff" * 16, z, one, work, out), 5)
        self.assertEqual(number(f, b"\xff" * 16, one, work, out), 5)


if __name__ == "__main__":
    unittest.main()
