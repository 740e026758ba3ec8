"""Calls of sessions with columns: one session's calls in turn, and beside them calls of damaged arguments."""

import copy

from call_draws import bytes_of_words, old_bytes, short
from draws import element, low_word, word_for
from model import PREFIX, WEIGHTS
from session_faults import OPEN_FAULTS, faults_of
from sessions import COORDINATE_WORDS, HEAD_WORDS, Sessions

REQUEST = Sessions()

COLUMNS = (1, 2, 3, 4, 5, 16)

# The longest piece, and the most variables that remain: the model stays quick.
LONGEST = 200
MOST_REMAIN = 6


class SessionCall:
    """One call: "session_open", "session_feed", .., what it is told, and what it is lent before."""

    def __init__(self, rng, name, out, record=None, **told):
        self.name, self.record, self.out, self.told = "session_" + name, record, list(out), told
        # What a call is not to read.
        self.stale = old_bytes(rng, 4 * (HEAD_WORDS + COORDINATE_WORDS))
        self.element = old_bytes(rng, 16)

    def kind(self):
        return self.name.removeprefix("session_")

    def answer(self, rules):
        """The number, and the record, out and element after the call; None for what is as it was."""
        if self.kind() == "read":
            number, given = rules.read(self.record, self.told["place"], self.out)
            return number, self.record, self.out, given
        if self.kind() == "open":
            return rules.open(out=self.out, **self.told) + (None,)
        return getattr(rules, self.kind())(self.record, out=self.out, **self.told) + (None,)

    def expected(self, rules=REQUEST):
        """The result number and the lent slices after the call."""
        number, record, out, given = self.answer(rules)
        after = dict(self.record_bytes(record), out=bytes_of_words(out))
        if self.kind() == "read":
            after["element"] = bytes_of_words(given) if given else self.element
        return number, after

    def record_bytes(self, record):
        if record is None:
            at = 4 * HEAD_WORDS
            return {"head": self.stale[:at], "coordinates": self.stale[at:]}
        return {"head": bytes_of_words(record.head()), "coordinates": bytes_of_words(record.coordinates)}

    @property
    def slices(self):
        """By name, in the order of the C arguments."""
        slices = {name: bytes_of_words(self.told[name]) for name in ("point", "piece") if name in self.told}
        slices.update(out=bytes_of_words(self.out), **self.record_bytes(self.record))
        return dict(slices, element=self.element) if self.kind() == "read" else slices

    @property
    def numbers(self):
        numbers = list(self.told.get("scale", ()))
        return numbers + [self.told[name] for name in ("n", "columns", "side", "weight", "place") if name in self.told]

    def described(self):
        parts = ["%s[%d]=%s" % (name, len(data) // 4, short(data)) for name, data in self.slices.items()]
        return "%s(%s, numbers %s)" % (self.name, ", ".join(parts), self.numbers)


# Draws.

def open_call(rng):
    """One that is accepted."""
    side, weight, shape = rng.randrange(2), rng.randrange(len(WEIGHTS)), rng.random()
    n = rng.randint(0, 3 if shape < 0.7 else 8 if shape < 0.95 else 20)
    k = rng.randint(max(0, n - MOST_REMAIN), n)
    columns = rng.choice(COLUMNS) if side == PREFIX else 1
    word = word_for(rng, k)
    point = [part for _ in range(k) for part in element(rng, word)]
    out = [rng.randrange(2 ** 32) for _ in range(REQUEST.out_words(n, k, columns))]
    return SessionCall(rng, "open", out, point=point, scale=element(rng, word), n=n, columns=columns, side=side,
                       weight=weight)


def entered(rng, record, out):
    """The session at its start, or as it may stand later: near an edge, or anywhere."""
    record, table = record.copy(), REQUEST.table_words(record, 8)
    if table <= LONGEST and rng.random() < 0.7:
        return record, out
    edge = rng.choice((table, table, 2 ** record.n, rng.randint(0, table)))
    record.taken = min(table, max(0, edge - rng.choice((0, 1, 2, record.columns, rng.randint(0, LONGEST)))))
    record.closed = int(record.taken == table and rng.random() < 0.3)
    return record, [low_word(rng) for _ in out]


def piece_length(rng, record):
    """To the end of a place or of a row, or within; to where one column's table would end; to the end or beyond."""
    table, c = REQUEST.table_words(record, 8), record.columns
    row, left = c * 2 ** (record.n - record.k), table - record.taken
    to = [part - record.taken % part for part in (c, row)] + [2 ** record.n - record.taken, left, left]
    length = rng.choice(to) + rng.choice((0, 0, 0, -1, 1))
    if rng.random() < 0.1:
        length = left + rng.choice((1, 2, c))
    if not 0 <= length <= LONGEST or rng.random() < 0.3:
        length = rng.randint(0, min(left, 20))
    return length


def feed_call(rng, record, out):
    word = word_for(rng, record.k)
    return SessionCall(rng, "feed", out, record, piece=[word(rng) for _ in range(piece_length(rng, record))])


def close_call(rng, record, out):
    return SessionCall(rng, "close", out, record)


def read_call(rng, record, out):
    places, inner = REQUEST.read_places(record), 2 ** (record.n - record.k)
    edges = (0, places - 1, places, inner - 1, inner, 2 ** 32, 2 ** 64 - 1)
    place = rng.choice(edges) if rng.random() < 0.5 else rng.randrange(places)
    return SessionCall(rng, "read", out, record, place=place)


def damaged(rng, call, faults):
    call = copy.deepcopy(call)
    for _ in range(rng.choice((1, 1, 1, 2, 3))):
        rng.choice(faults)(rng, call)
    return call


def draw_session(rng, _number):
    """One session's calls, and before some of them damaged ones, which the session does not keep."""
    opened = open_call(rng)
    calls = [damaged(rng, opened, OPEN_FAULTS) for _ in range(rng.randint(0, 2))] + [opened]
    _, record, out, _ = opened.answer(REQUEST)
    record, out = entered(rng, record, out)
    for _ in range(rng.randint(2, 8)):
        call = rng.choice((feed_call, feed_call, feed_call, close_call, read_call))(rng, record, out)
        if rng.random() < 0.4:
            calls.append(damaged(rng, call, faults_of(call.kind())))
        calls.append(call)
        _, record, out, _ = call.answer(REQUEST)
    return calls
