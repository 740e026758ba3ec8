"""Faults for calls of sessions: in what open is told, in the record, in out and in the other arguments."""

from draws import high_word, spoil
from model import PREFIX, WEIGHTS


def over_the_most(side):
    """The fewest columns that are too many on the side."""
    return 17 if side == PREFIX else 2


def resized(words, count):
    return (words + [0] * count)[:count]


def resize_columns(call, before, after):
    """Out as long as so many columns ask, where it was as long as others ask."""
    call.out = resized(call.out, len(call.out) // max(1, before) * after)


# What open is told.

def fault_told_columns(rng, call):
    columns, over = call.told["columns"], over_the_most(call.told["side"])
    few = rng.choice((0, over, over, over + 1, 2, 3, 16))
    call.told["columns"] = rng.choice((few, few, 0, 2 ** 32, (2 ** 32 + columns) % 2 ** 64, 2 ** 63, 2 ** 64 - 1))
    if call.told["columns"] == few and rng.random() < 0.8:
        resize_columns(call, columns if columns <= 18 else 1, few)


def fault_told_side(rng, call):
    call.told["side"] = 1 - call.told["side"]


def fault_told_n(rng, call):
    n = call.told["n"]
    other = rng.choice((21, 21, 22, 64, 2 ** 32, 2 ** 32 + n, 2 ** 64 - 1, n + 1, max(0, n - 1)))
    call.told["n"] = other % 2 ** 64


def fault_told_point(rng, call):
    point = call.told["point"]
    more = rng.choice((4, 4, 1, 4 * 21 - len(point)))
    call.told["point"] = resized(point, len(point) + more) if rng.random() < 0.7 else point[:-rng.choice((1, 4))]


def fault_told_word(rng, call):
    name = rng.choice(("point", "scale"))
    call.told[name] = spoil(rng, call.told[name])


# The record.

def fault_columns(rng, call):
    record, over = call.record, over_the_most(call.record.side)
    few = rng.choice((0, over, over, over + 1, 1, 2, 3, 16))
    if rng.random() < 0.8:
        resize_columns(call, record.columns if record.columns <= 18 else 1, few)
        record.columns = few
        return
    record.columns = rng.choice((few, 2 ** 16 + record.columns % 2 ** 16, 2 ** 31, 2 ** 32 - 1))


def fault_side(rng, call):
    call.record.side = 1 - call.record.side


def fault_weight(rng, call):
    call.record.weight = rng.randrange(len(WEIGHTS))


def fault_sizes(rng, call):
    record = call.record
    if rng.random() < 0.5:
        record.n = rng.choice((21, 22, 64, 2 ** 32 - 1))
    else:
        record.k = rng.choice((min(record.n, 2 ** 31) + 1, 21, 2 ** 32 - 1))


def fault_taken(rng, call):
    """More than the table has, or as many as one column has."""
    record = call.record
    table, column = (columns * 2 ** min(record.n, 20) for columns in (min(record.columns, 18), 1))
    record.taken = rng.choice((table, table + 1, table + 2, column, column + 1, 2 ** 32 - 1))


def fault_closed(rng, call):
    """Closed, often with no words missing, or with those missing that are not of the first column."""
    record = call.record
    record.closed = rng.choice((1, 1, 1, 0))
    if rng.random() < 0.6:
        record.taken = rng.choice((1, min(record.columns, 18))) * 2 ** min(record.n, 20)


def fault_record_word(rng, call):
    record = call.record
    if rng.random() < 0.3:
        record.scale = tuple(spoil(rng, record.scale))
        return
    # Unreduced, or not 0 where the coordinate may be unused.
    at = rng.randrange(len(record.coordinates))
    record.coordinates[at] = rng.choice((high_word(rng), 1))


# Out, a piece, a place.

def fault_out_length(rng, call):
    count, rest = len(call.out), len(call.out) // 4
    call.out = resized(call.out, max(0, rng.choice((count + 1, count - 1, count + 4, count - 4, rest, 2 * count))))


def fault_out_word(rng, call):
    call.out = spoil(rng, call.out)


def fault_piece(rng, call):
    piece = call.told["piece"]
    call.told["piece"] = spoil(rng, piece or [0])


def fault_piece_length(rng, call):
    """Beyond the table's end, where that is near."""
    record = call.record
    left = record.columns * 2 ** min(record.n, 20) - record.taken
    if 0 <= left <= 1000:
        call.told["piece"] = resized(call.told["piece"], left + rng.choice((0, 1, 1, 2)))


def fault_place(rng, call):
    call.told["place"] = rng.choice((0, 1, len(call.out) // 4, len(call.out) // 4 + 1, 2 ** 32, 2 ** 64 - 1))


OUT_FAULTS = [fault_out_length, fault_out_length]

OPEN_FAULTS = [
    fault_told_columns, fault_told_columns, fault_told_columns, fault_told_side, fault_told_n, fault_told_point,
    fault_told_word,
] + OUT_FAULTS

RECORD_FAULTS = [
    fault_columns, fault_columns, fault_columns, fault_side, fault_weight, fault_sizes, fault_taken, fault_taken,
    fault_closed, fault_closed, fault_record_word, fault_out_word,
] + OUT_FAULTS


def faults_of(kind):
    own = {"feed": [fault_piece, fault_piece_length], "close": [], "read": [fault_place]}
    return RECORD_FAULTS + own[kind]
