"""The four C calls on bytes objects (document 01, "Refused calls" and "Split folds").

Each gives the result number and then its lent buffers as they are after the
call. A refused call gives them back as they came.
"""

import struct

import model

ELEMENT = 16


def words_of(data):
    # "words as four bytes, lowest first"
    return struct.unpack("<%dI" % (len(data) // 4), data)


def elements_of(data):
    words = words_of(data)
    return [words[i:i + 4] for i in range(0, len(words), 4)]


def bytes_of(elements):
    return b"".join(struct.pack("<4I", *element) for element in elements)


def unreduced(words):
    return any(word >= model.P for word in words)


def splits_element(*slices):
    return any(len(data) % ELEMENT for data in slices)


def vertex_refusal(point, vertex, out):
    k = len(point) // ELEMENT
    # "a byte count that splits a word or an element is 1"
    if splits_element(point, out):
        return 1
    # "3: over 20 variables or coordinates"
    if k > 20:
        return 3
    # "a lent out of one element ...; another out length is 4, after 3 and before 5"
    if len(out) != ELEMENT:
        return 4
    # "5: a word not below p that is read as input"
    if unreduced(words_of(point)):
        return 5
    # "7 (vertex at or above 2^k)"
    if vertex >= 2 ** k:
        return 7
    return 0


def equality_at_vertex(point, vertex, out):
    number = vertex_refusal(point, vertex, out)
    if number:
        return number, out
    return 0, bytes_of([model.eq(elements_of(point), vertex)])


def next_refusal(point, row, out):
    # "a byte count that splits a word or an element is 1"
    if splits_element(point, row, out):
        return 1
    # "3: over 20 variables or coordinates"
    if max(len(point), len(row)) > 20 * ELEMENT:
        return 3
    # "4: lengths disagree"; "one of three (carry, done, omega); another out length is 4"
    if len(point) != len(row) or len(out) != 3 * ELEMENT:
        return 4
    # "5: a word not below p that is read as input"
    if unreduced(words_of(point)) or unreduced(words_of(row)):
        return 5
    return 0


def eval_next(point, row, out):
    number = next_refusal(point, row, out)
    if number:
        return number, out
    return 0, bytes_of(model.eval_next(elements_of(point), elements_of(row)))


def work_length(k):
    # "The work buffer has just both tables' words"
    half = k // 2
    return ELEMENT * (2 ** half + 2 ** (k - half))


def fold_refusal(table, point, scale, work, out):
    entries = len(table) // 4
    k = len(point) // ELEMENT
    # "a byte count that splits a word or an element is 1"
    if len(table) % 4 or splits_element(point, work, out):
        return 1
    # "2: entries of a table ... not a power of two, 0 included"
    if bin(entries).count("1") != 1:
        return 2
    n = entries.bit_length() - 1
    # "3: over 20 variables or coordinates"
    if n > 20 or k > 20:
        return 3
    # "4 (also k above n, work, out)"
    if k > n or len(work) != work_length(k) or len(out) != ELEMENT * 2 ** (n - k):
        return 4
    # "5: a word not below p that is read as input": not the old work, not the old out
    if unreduced(words_of(table)) or unreduced(words_of(point)) or unreduced(scale):
        return 5
    return 0


def compress_shifted(side, table, point, scale, work, out):
    number = fold_refusal(table, point, scale, work, out)
    if number:
        return number, work, out
    n = (len(table) // 4).bit_length() - 1
    coordinates = elements_of(point)
    folded = model.fold_sparse(
        side, model.SHIFTED, n, coordinates, tuple(scale), words_of(table))
    return 0, bytes_of(model.split_tables(coordinates, tuple(scale))), bytes_of(folded)


def compress_prefix_shifted(table, point, scale, work, out):
    return compress_shifted(model.PREFIX, table, point, scale, work, out)


def compress_suffix_shifted(table, point, scale, work, out):
    return compress_shifted(model.SUFFIX, table, point, scale, work, out)
