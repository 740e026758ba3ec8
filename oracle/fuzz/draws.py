"""Words and elements as both fuzz drivers draw them: often at an edge, or such that they cancel."""

from model import P

LOW_EDGES = [0, 0, 1, 1, 2, 11, P - 1, P - 1, P - 2, (P + 1) // 2, (P - 1) // 2, 2 ** 27, 2 ** 30]
HIGH_EDGES = [P, P, P + 1, 2 ** 31 - 1, 2 ** 31, 2 * P - 1, 2 * P, 2 * P + 1, 2 ** 32 - 1]


def low_word(rng):
    return rng.choice(LOW_EDGES) if rng.random() < 0.4 else rng.randrange(P)


def high_word(rng):
    return rng.choice(HIGH_EDGES) if rng.random() < 0.8 else rng.randrange(P, 2 ** 32)


def tame_word(rng):
    """A word of a few that often cancel or halve each other, so that sums of exactly p come up."""
    return rng.choice((1, 1, 2, P - 1, P - 1, P - 2, (P + 1) // 2, (P - 1) // 2, 0))


def any_word(rng):
    return rng.randrange(2, P)


def word_for(rng, k):
    """How the words of one case are drawn. Where k is great, a 0 or 1 among the coordinates
    makes almost all weights 0, so those are mostly left out."""
    if k > 6 and rng.random() < 0.8:
        return any_word
    return rng.choice((low_word, low_word, low_word, tame_word))


def element(rng, word=low_word):
    shape = rng.random()
    if shape < 0.3 or word is tame_word and shape < 0.9:
        return [word(rng), 0, 0, 0]
    if shape < 0.4:
        return [rng.choice((0, word(rng))) for _ in range(4)]
    return [word(rng) for _ in range(4)]


def spoil(rng, words):
    """The words with one of them (the first and the last most often), or all, not below p."""
    spoilt = list(words)
    if spoilt:
        place = rng.choice((0, len(spoilt) - 1, rng.randrange(len(spoilt))))
        spoilt[place] = high_word(rng)
        if rng.random() < 0.1:
            spoilt = [high_word(rng) for _ in spoilt]
    return spoilt
