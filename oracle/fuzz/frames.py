"""The program `foldframes` as a function of its input.

Document 01, "Frames"; document 02, (b) for the coordinates, (d) for missing words and (f) for the weight 03.

`Program` takes the lines one at a time, as the program does; `foldframes`
takes the whole input and gives the whole of standard output.
"""

import struct

import model

DIGITS = frozenset(b"0123456789abcdef")

# Bytes of a whole frame, kind included. `03` has its own count.
LENGTHS = {0x01: 21, 0x02: 18, 0x04: 1}


class Refusal(Exception):
    def __init__(self, number):
        super().__init__(number)
        self.number = number


def refuse(number, when):
    if when:
        raise Refusal(number)


def words_of(data):
    # "words as 8 digits, highest first"
    return struct.unpack(">%dI" % (len(data) // 4), data)


def unreduced(words):
    return any(word >= model.P for word in words)


def frame_of(line):
    """The bytes of a line that is a frame by itself, wherever it stands."""
    # "an empty line is 12"
    refuse(12, not line)
    # "lines of lower-case hexadecimal": all else is not a frame.
    refuse(12, not DIGITS.issuperset(line) or len(line) % 2 != 0)
    frame = bytes.fromhex(line.decode("ascii"))
    # An unknown kind.
    refuse(12, frame[0] not in (0x01, 0x02, 0x03, 0x04))
    # "a line too long or too short for its kind"
    if frame[0] == 0x03:
        refuse(12, len(frame) < 2)
        # "count byte (0 to 16), that many words"
        refuse(12, frame[1] > 16)
        refuse(12, len(frame) != 2 + 4 * frame[1])
    else:
        refuse(12, len(frame) != LENGTHS[frame[0]])
    if frame[0] == 0x01:
        # "side (00 prefix, 01 suffix), weight (00 plain, 01 shifted, 02 next)"; document 02: cyclic, "frame value 03"
        refuse(12, frame[1] > 1 or frame[2] > 3)
    return frame


def element_line(element):
    return b"%08x%08x%08x%08x\n" % element


class Program:
    def __init__(self):
        self.opened = False
        self.reading_words = False   # the first `03` or `04` has come
        self.closed = False
        self.stopped = False
        self.coordinates = []        # as they came
        self.words = []

    def line(self, line):
        """What is printed at a line (given without its line feed)."""
        return self.answer(lambda: self.take(line))

    def end(self):
        """What is printed where the input ends."""
        return self.answer(self.take_end)

    def answer(self, step):
        if self.stopped:
            return b""
        try:
            return step()
        except Refusal as refusal:
            # "A refusal prints one line ... and the program stops"
            self.stopped = True
            return b"ff%02x\n" % refusal.number

    def take(self, line):
        # "any line after `04` is 10"
        refuse(10, self.closed)
        # "else 12 (not a frame, a byte outside its values, or out of place)"
        frame = frame_of(line)
        self.check_place(frame[0])
        steps = {0x01: self.open, 0x02: self.coordinate, 0x03: self.feed, 0x04: self.close}
        return steps[frame[0]](frame)

    def take_end(self):
        # "input that ends without `04` is 9"
        refuse(9, not self.closed)
        return b""

    def check_place(self, kind):
        # "Just one `01` comes first"
        refuse(12, (kind == 0x01) == self.opened)
        # coordinates come "before the first `03` or `04`"
        refuse(12, kind == 0x02 and self.reading_words)

    def open(self, frame):
        self.side, self.weight, self.n, self.k = frame[1:5]
        self.scale = words_of(frame[5:])
        # "Then at `01`: 3": "over 20 variables or coordinates"
        refuse(3, self.n > 20 or self.k > 20)
        # "4 (k above n)"
        refuse(4, self.k > self.n)
        # "5"
        refuse(5, unreduced(self.scale))
        # "3 (n - k over 10)"
        refuse(3, self.n - self.k > 10)
        self.opened = True
        return b""

    def coordinate(self, frame):
        index, element = frame[1], words_of(frame[2:])
        # Document 02: "the index starts at 00 and rises by one"
        refuse(13, index != len(self.coordinates))
        # "or one at or above k, gets 13 at that frame, before 5"
        refuse(13, index >= self.k)
        # "At `02`: 5"
        refuse(5, unreduced(element))
        self.coordinates.append(element)
        return b""

    def start_words(self):
        # "missing coordinates are still told at the first `03` or `04`"
        if not self.reading_words:
            refuse(13, len(self.coordinates) < self.k)
            self.reading_words = True

    def feed(self, frame):
        self.start_words()
        words = words_of(frame[2:])
        # "At `03`: 5"
        refuse(5, unreduced(words))
        # "8"
        refuse(8, len(self.words) + len(words) > 2 ** self.n)
        self.words.extend(words)
        return b""

    def close(self, _frame):
        self.start_words()
        self.closed = True
        # "A short `03` list followed by `04` must therefore fold as the padded table does"
        table = model.padded(self.side, self.n, self.k, self.words)
        out = model.fold_halves(self.side, self.weight, self.n, self.coordinates, self.scale, table)
        # "then each out element is a line of 32 digits"
        return b"".join(element_line(element) for element in out)


def lines_of(data):
    """The lines of an input: "A line ends with a line feed, which the last may lack"."""
    lines = data.split(b"\n")
    # "a final line feed makes no further line"; empty input has none at all.
    if lines[-1] == b"":
        lines.pop()
    return lines


def foldframes(data):
    program = Program()
    printed = [program.line(line) for line in lines_of(data)]
    printed.append(program.end())
    return b"".join(printed)


def refusal_of(output):
    """The number an output ends with, or 0: an out line has 32 digits, a refusal four."""
    last = output.splitlines()[-1]
    return int(last[2:], 16) if len(last) == 4 else 0
