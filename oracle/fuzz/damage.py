"""Faults for inputs of the program: in a plan, in its lines, or in its bytes."""

from draws import element, low_word, spoil
from plans import any_sizes, cut_words, some_line, words_line

LONGEST_LINE = 200_000


# Faults in a plan. Each leaves the lines of their right form, but for the bytes it names.

def fault_side_or_weight(rng, plan):
    if rng.random() < 0.5:
        plan.side = rng.choice((2, 3, 16, 255))
    else:
        plan.weight = rng.choice((4, 5, 32, 255))


def fault_sizes(rng, plan):
    plan.n, plan.k = any_sizes(rng)


def fault_scale(rng, plan):
    plan.scale = spoil(rng, plan.scale)


def fault_missing(rng, plan):
    if plan.coordinates:
        plan.coordinates.pop(rng.randrange(len(plan.coordinates)))


def fault_repeated(rng, plan):
    if plan.coordinates:
        index, value = rng.choice(plan.coordinates)
        again = value if rng.random() < 0.5 else element(rng)
        times = 300 if rng.random() < 0.05 else 1
        for _ in range(times):
            plan.coordinates.insert(rng.randint(0, len(plan.coordinates)), (index, again))


def fault_order(rng, plan):
    if len(plan.coordinates) > 1:
        a, b = rng.sample(range(len(plan.coordinates)), 2)
        plan.coordinates[a], plan.coordinates[b] = plan.coordinates[b], plan.coordinates[a]


def fault_index(rng, plan):
    index = rng.choice((plan.k, min(plan.k + 1, 255), 19, 20, 21, 31, 32, 64, 128, 255))
    extra = (index, element(rng))
    if plan.coordinates and rng.random() < 0.5:
        plan.coordinates[rng.randrange(len(plan.coordinates))] = extra
    else:
        plan.coordinates.insert(rng.randint(0, len(plan.coordinates)), extra)


def fault_coordinate_word(rng, plan):
    if plan.coordinates:
        place = rng.randrange(len(plan.coordinates))
        index, value = plan.coordinates[place]
        plan.coordinates[place] = (index, spoil(rng, value))


def fault_word(rng, plan):
    if plan.pieces:
        place = rng.choice((0, len(plan.pieces) - 1, rng.randrange(len(plan.pieces))))
        plan.pieces[place] = spoil(rng, plan.pieces[place])


def fault_too_many(rng, plan):
    size = 2 ** min(plan.n, 10)
    words = [low_word(rng) for _ in range(size + rng.choice((1, 1, 2, 16)))]
    if rng.random() < 0.5:
        words = words[:size] + spoil(rng, words[size:])
    plan.pieces = cut_words(rng, words)


def fault_no_close(rng, plan):
    plan.close = False
    if rng.random() < 0.3:
        plan.pieces = []


PLAN_FAULTS = [
    fault_side_or_weight, fault_sizes, fault_sizes, fault_scale, fault_missing, fault_repeated, fault_order,
    fault_index, fault_coordinate_word, fault_word, fault_too_many, fault_no_close,
]


# Faults in the lines.

def fault_out_of_place(rng, lines):
    lines.insert(rng.randint(0, len(lines)), some_line(rng))


def fault_after_close(rng, lines):
    lines.extend(some_line(rng) for _ in range(rng.randint(1, 3)))


def fault_count(rng, lines):
    """A count byte that its line does not have, or a line of more than 16 words."""
    at = [place for place, line in enumerate(lines) if line[:2] == b"03"]
    if at:
        place = rng.choice(at)
        if rng.random() < 0.5:
            lines[place] = b"03%02x" % rng.randrange(256) + lines[place][4:]
        else:
            lines[place] = words_line([low_word(rng) for _ in range(rng.choice((17, 17, rng.randint(17, 255))))])


def fault_word_missing(rng, lines):
    place = rng.randrange(len(lines))
    lines[place] = lines[place][:-8] if rng.random() < 0.5 else lines[place] + b"%08x" % low_word(rng)


def fault_drop(rng, lines):
    lines.pop(rng.randrange(len(lines)))


def fault_double(rng, lines):
    place = rng.randrange(len(lines))
    lines.insert(place, lines[place])


def fault_swap(rng, lines):
    a, b = rng.randrange(len(lines)), rng.randrange(len(lines))
    lines[a], lines[b] = lines[b], lines[a]


def fault_cut(rng, lines):
    place = rng.randrange(len(lines))
    at = rng.randint(0, len(lines[place]))
    if rng.random() < 0.5:
        lines[place] = lines[place][:at]
    else:
        lines[place:place + 1] = [lines[place][:at], lines[place][at:]]


def fault_join(rng, lines):
    place = rng.randrange(len(lines))
    lines[place:place + 2] = [b"".join(lines[place:place + 2])]


def fault_line_end(rng, lines):
    place = rng.randrange(len(lines))
    mark = rng.choice((b"\r", b" ", b"\t", b"\0", b"0", b"\x0b", b"\xff"))
    lines[place] = lines[place] + mark if rng.random() < 0.8 else mark + lines[place]


def fault_many_empty_pieces(rng, lines):
    place = rng.randint(0, len(lines))
    lines[place:place] = [b"0300"] * rng.randint(1, 2000)


def fault_long(rng, lines):
    length = rng.choice((1, 2, 3, rng.randint(1, LONGEST_LINE), rng.randint(1, 5000), 4096, 65536, LONGEST_LINE))
    filler = rng.choice((b"0", b"0", b"f", b"04", b"03", b" ", b"\0", b"\r", b"\xff", b"z", b"F"))
    long = (filler * length)[:length]
    place = rng.randrange(len(lines))
    shape = rng.random()
    if shape < 0.5:
        lines[place] += long
    elif shape < 0.75:
        lines[place] = (lines[place][:2] + long)[:LONGEST_LINE]
    else:
        lines.insert(place, long)


LINE_FAULTS = [
    fault_out_of_place, fault_out_of_place, fault_after_close, fault_after_close, fault_count, fault_word_missing,
    fault_drop, fault_double, fault_swap, fault_cut, fault_join, fault_line_end, fault_line_end,
    fault_many_empty_pieces, fault_long,
]


# Faults in the bytes.

def fault_byte(rng, data):
    place = rng.randrange(len(data))
    shape = rng.random()
    if shape < 0.3:
        changed = bytes([rng.choice(b"0123456789abcdefABCDEFgz/:`@ \t\r\n\0\x7f\x80\xff")])
    elif shape < 0.4:
        changed = bytes([rng.randrange(256)])
    elif shape < 0.55:
        changed = b""
    elif shape < 0.7:
        changed = data[place:place + 1] * 2
    elif shape < 0.8:
        changed = data[place:place + 1].upper()
    else:
        changed = data[place:place + 1] + rng.choice((b"\r", b"\0", b" ", b"\n", b"\t", b"\xc3\xa9", b"\xff", b"0"))
    return data[:place] + changed + data[place + 1:]


def fault_case(rng, data):
    return data.upper()


def fault_crlf(rng, data):
    if rng.random() < 0.5:
        return data.replace(b"\n", b"\r\n")
    place = data.rfind(b"\n", 0, rng.randint(0, len(data)))
    return data[:max(place, 0)] + b"\r" + data[max(place, 0):]


def fault_end(rng, data):
    return data[:rng.randint(0, len(data))]


BYTE_FAULTS = [fault_byte] * 5 + [fault_case, fault_crlf, fault_end]
