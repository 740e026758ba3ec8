"""Arguments for the C calls: accepted, damaged or wide."""

import calls
from draws import any_word, element, high_word, low_word, spoil, word_for

# The slices that a call may write.
LENT = ("work", "out", "head", "coordinates", "element")


def short(data):
    text = data.hex()
    return text if len(text) <= 200 else text[:96] + "..." + text[-96:]


class Call:
    """One call: its slices by name, in the order of the C arguments, and its numbers."""

    def __init__(self, name, slices, numbers):
        self.name, self.slices, self.numbers = name, slices, numbers

    def expected(self):
        """The result number and the lent slices after the call."""
        model = getattr(calls, self.name)
        s = self.slices
        if self.name == "equality_at_vertex":
            number, out = model(s["point"], self.numbers[0], s["out"])
            return number, {"out": out}
        if self.name == "eval_next":
            number, out = model(s["point"], s["row"], s["out"])
            return number, {"out": out}
        number, work, out = model(s["table"], s["point"], self.numbers, s["work"], s["out"])
        return number, {"work": work, "out": out}

    def described(self):
        parts = ["%s[%d]=%s" % (name, len(data), short(data)) for name, data in self.slices.items()]
        return "%s(%s, numbers %s)" % (self.name, ", ".join(parts), self.numbers)


# Draws.

def old_bytes(rng, length):
    """What a lent slice holds before: it is not input, so mostly unreduced words."""
    if rng.random() < 0.3:
        return bytes([rng.choice((0, 255))]) * length
    return rng.randbytes(length)


def bytes_of_words(words):
    return b"".join(word.to_bytes(4, "little") for word in words)


def points(rng, k, word):
    return b"".join(bytes_of_words(element(rng, word)) for _ in range(k))


def some_k(rng):
    shape = rng.random()
    return rng.randint(0, 4 if shape < 0.7 else 10 if shape < 0.9 else 20)


def vertex_call(rng):
    k = some_k(rng)
    vertex = rng.choice((0, 2 ** k - 1, rng.randrange(2 ** k), rng.randrange(2 ** k)))
    return Call("equality_at_vertex", {"point": points(rng, k, word_for(rng, k)), "out": old_bytes(rng, 16)}, [vertex])


def next_call(rng):
    k = some_k(rng)
    word = word_for(rng, k)
    slices = {"point": points(rng, k, word), "row": points(rng, k, word), "out": old_bytes(rng, 48)}
    return Call("eval_next", slices, [])


def dense_table(rng, n, word):
    zeros = rng.choice((0, 0, 0.5, 0.9))
    return bytes_of_words(0 if rng.random() < zeros else word(rng) for _ in range(2 ** n))


def sparse_table(rng, n):
    """Mostly zeros, so that the model stays quick."""
    table = bytearray(4 * 2 ** n)
    for place in [0, 1, 2 ** n - 1] + [rng.randrange(2 ** n) for _ in range(12)]:
        table[4 * place:4 * place + 4] = rng.randrange(1, calls.model.P).to_bytes(4, "little")
    return bytes(table)


def fold_call(rng, n, k):
    word = any_word if n == 20 else word_for(rng, k)
    slices = {
        "table": sparse_table(rng, n) if n > 8 else dense_table(rng, n, word),
        "point": points(rng, k, word),
        "work": old_bytes(rng, calls.work_length(k)),
        "out": old_bytes(rng, 16 * 2 ** (n - k)),
    }
    name = rng.choice(("compress_prefix_shifted", "compress_suffix_shifted"))
    return Call(name, slices, element(rng, word))


def some_fold_call(rng):
    shape = rng.random()
    n = rng.randint(0, 6 if shape < 0.9 else 12 if shape < 0.995 else 20)
    return fold_call(rng, n, rng.randint(0, n))


# Faults.

def resized(rng, data, length):
    """The bytes cut, or made longer by words that are mostly low."""
    if length <= len(data):
        return data[:max(0, length)]
    more = b"".join(low_word(rng).to_bytes(4, "little") for _ in range((length - len(data)) // 4 + 1))
    return (data + more)[:length]


def fault_length_bytes(rng, call):
    name = rng.choice(list(call.slices))
    data = call.slices[name]
    call.slices[name] = resized(rng, data, len(data) + rng.choice((-1, 1)) * rng.randint(1, 16))


def fault_length_elements(rng, call):
    name = rng.choice(list(call.slices))
    length = len(call.slices[name])
    other = rng.choice((length * 2, length // 2, length + 16, length - 16, length + 32, length + 4, length - 4))
    call.slices[name] = resized(rng, call.slices[name], other)


def fault_empty(rng, call):
    call.slices[rng.choice(list(call.slices))] = b""


def fault_unreduced(rng, call):
    name = rng.choice([name for name in call.slices if name not in LENT])
    data = call.slices[name]
    count = len(data) // 4
    if count:
        place = rng.choice((0, count - 1, rng.randrange(count)))
        call.slices[name] = data[:4 * place] + high_word(rng).to_bytes(4, "little") + data[4 * place + 4:]


def fault_numbers(rng, call):
    """A vertex that is not of the point, or a scale that is not reduced."""
    if call.name == "equality_at_vertex":
        k = len(call.slices["point"]) // 16
        over = 2 ** k
        call.numbers = [rng.choice((
            over, over + 1, 2 * over, 2 ** 32, 2 ** 32 + rng.randrange(over), 2 ** 63, 2 ** 63 + rng.randrange(over),
            2 ** 64 - 1, 2 ** 64 - over, rng.randrange(2 ** 64))) % 2 ** 64]
    elif call.numbers:
        call.numbers = spoil(rng, call.numbers)


def fault_many_coordinates(rng, call):
    """Over 20 coordinates, or more than the table has variables, the other lengths as they would be for it."""
    k = rng.choice((21, 21, 22, 40, 64, 65, 1000)) if rng.random() < 0.5 else rng.randint(1, 20)
    names = rng.choice((("point", "row"), ("point", "row"), ("point",), ("row",)))
    for name in names:
        if name in call.slices:
            call.slices[name] = points(rng, k, low_word)
    if "work" in call.slices and k <= 21:
        call.slices["work"] = old_bytes(rng, calls.work_length(k))
        call.slices["out"] = old_bytes(rng, 16)


def fault_table(rng, call):
    if "table" in call.slices:
        count = len(call.slices["table"]) // 4
        other = rng.choice((0, 3, 5, 6, 7, 12, count + 1, count - 1, count + 4, 3 * count, 2 * count))
        call.slices["table"] = resized(rng, call.slices["table"], 4 * max(0, other))


FAULTS = [
    fault_length_bytes, fault_length_bytes, fault_length_elements, fault_length_elements, fault_empty,
    fault_unreduced, fault_unreduced, fault_unreduced, fault_numbers, fault_numbers, fault_many_coordinates,
    fault_table,
]


def oversized_call(rng, count):
    """A table of more than 2^20 words; the other lengths are those of 2^21."""
    k = rng.choice((11, 11, 20, 21))
    call = fold_call(rng, 0, 0)
    call.slices["table"] = bytes(4 * count)
    call.slices["point"] = points(rng, k, low_word)
    call.slices["work"] = old_bytes(rng, calls.work_length(k))
    call.slices["out"] = old_bytes(rng, 16 * 2 ** (21 - k))
    return call


def late_fault_call(rng):
    """The last word of the widest table is the one that is not reduced."""
    call = fold_call(rng, 20, rng.randint(8, 12))
    call.slices["table"] = call.slices["table"][:-4] + high_word(rng).to_bytes(4, "little")
    return call


OVERSIZED = (2 ** 21, 2 ** 22, 2 ** 20 + 1, 2 ** 21 - 1, 2 ** 21 + 1)

# The first cases are the widest, so that the shortest run has them too.
FIRST = [lambda rng, k=k: fold_call(rng, 20, k) for k in (0, 1, 2, 9, 10, 19, 20)]
FIRST += [lambda rng, count=count: oversized_call(rng, count) for count in OVERSIZED]
FIRST += [late_fault_call]


def draw_call(rng, number):
    if number < len(FIRST):
        return FIRST[number](rng)
    if rng.random() < 0.001:
        return oversized_call(rng, rng.choice(OVERSIZED))
    call = rng.choice((vertex_call, next_call, some_fold_call, some_fold_call))(rng)
    faulty = rng.random()
    for _ in range(0 if faulty < 0.4 else 1 if faulty < 0.75 else rng.randint(2, 4)):
        rng.choice(FAULTS)(rng, call)
    return call
