"""Frames as lines, and an accepted input in parts."""

from draws import element, high_word, low_word, word_for
from model import WEIGHTS

SIZE_EDGES = list(range(21)) + [9, 10, 11, 19, 20, 21, 21, 22, 30, 31, 32, 33, 63, 64, 127, 128, 255]


# Sizes.

def sizes(rng):
    """n and k that are accepted; mostly small."""
    shape = rng.random()
    n = rng.randint(0, 6 if shape < 0.75 else 12 if shape < 0.9 else 20)
    least = max(0, n - 10)
    k = rng.randint(least, n)
    # k = 0 has little to sum, so it is often drawn again.
    if k == 0 and rng.random() < 0.7:
        k = rng.randint(least, n)
    return n, k if rng.random() < 0.95 else least


def any_sizes(rng):
    n = rng.choice(SIZE_EDGES)
    # Half of them close to where n - k or k is refused.
    k = rng.choice((n - 12, n - 11, n - 11, n - 10, n + 1, n + 2, 20, 21))
    return n, k if 0 <= k <= 255 and rng.random() < 0.5 else rng.choice(SIZE_EDGES)


# Lines.

def hexes(words):
    return b"".join(b"%08x" % word for word in words)


def open_line(side, weight, n, k, scale):
    return b"01%02x%02x%02x%02x" % (side, weight, n, k) + hexes(scale)


def coordinate_line(index, coordinate):
    return b"02%02x" % index + hexes(coordinate)


def words_line(words):
    return b"03%02x" % len(words) + hexes(words)


def some_line(rng):
    """A frame of any kind, or an empty line, for places where none belongs."""
    return rng.choice((
        lambda: open_line(rng.randrange(2), rng.randrange(len(WEIGHTS)), *sizes(rng), element(rng)),
        lambda: coordinate_line(rng.randrange(4), element(rng)),
        lambda: words_line([low_word(rng) for _ in range(rng.randrange(17))]),
        lambda: words_line([high_word(rng)]),
        lambda: b"0300",
        lambda: b"04",
        lambda: b"%02x" % rng.randrange(256),
        lambda: b"",
    ))()


# Plans.

class Plan:
    """An accepted input in parts, so that a fault can be put into one of them."""

    def __init__(self, rng):
        self.side, self.weight = rng.randrange(2), rng.randrange(len(WEIGHTS))
        self.n, self.k = sizes(rng)
        word = word_for(rng, self.k)
        self.scale = element(rng, word)
        self.coordinates = [(index, element(rng, word)) for index in range(self.k)]
        self.pieces = cut_words(rng, self.draw_words(rng, word))
        self.close = True

    def draw_words(self, rng, word):
        count = drawn_count(rng, 2 ** self.n, 2 ** (self.n - self.k))
        zeros = rng.choice((0, 0, 0.5, 0.95))
        return [0 if rng.random() < zeros else word(rng) for _ in range(count)]

    def lines(self):
        lines = [open_line(self.side, self.weight, self.n, self.k, self.scale)]
        lines += [coordinate_line(*part) for part in self.coordinates]
        lines += [words_line(piece) for piece in self.pieces]
        return lines + [b"04"] if self.close else lines


def drawn_count(rng, size, row):
    """How many words come: all, or fewer, cut anywhere, before one row, at a row's end or within a row."""
    # Of long rows mostly less than one, so that the model stays quick.
    most = min(size, max(1024 if rng.random() < 0.02 else 64, rng.choice((0, 0, 0, 1, 2)) * row))
    end = row * rng.randint(1, max(1, most // row - 1))
    within = end + rng.choice((1, row - 1, rng.randrange(row)))
    return min(most, rng.choice((most, most, rng.randint(0, most), rng.randrange(row), end, end, within, within)))


def cut_words(rng, words):
    """The words in pieces of 0 to 16."""
    pieces, most = [], rng.choice((1, 4, 16, 16))
    while words:
        count = rng.randint(0 if rng.random() < 0.2 else 1, most)
        pieces.append(words[:count])
        words = words[count:]
    if rng.random() < 0.1:
        pieces.append([])
    return pieces
