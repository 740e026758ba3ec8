"""Makes the C calls of a shared library, on lent memory with guards beside it."""

import ctypes
import mmap
import signal

from call_draws import LENT, short

HANG_SECONDS = 60

# So many bytes on each side of a lent slice must stay as they were.
GUARD = 64

BYTE, WORD = 1, 4

NUMBER, SIZE = ctypes.c_uint32, ctypes.c_uint64


class Form:
    """The C arguments of a call: slices of bytes or of words, each with its length, some of them before the numbers and
    the others after; and then arrays of one length, which pass without it."""

    def __init__(self, unit, before, numbers, after, arrays=0):
        self.unit, self.before, self.arrays = unit, before, arrays
        lent = [ctypes.c_void_p, ctypes.c_size_t]
        self.types = lent * before + numbers + lent * after + [ctypes.c_void_p] * arrays

    def arguments(self, call, lend):
        arguments, last = [], len(call.slices) - self.arrays
        for place, (name, data) in enumerate(call.slices.items()):
            if place == self.before:
                arguments += call.numbers
            arguments.append(lend(name, data, self.unit))
            if place < last:
                arguments.append(len(data) // self.unit)
        return arguments


FOLD = Form(BYTE, 2, [NUMBER] * 4, 2)

# The calls of each library by what follows its prefix.
WARD = {
    "equality_at_vertex": Form(BYTE, 1, [SIZE], 1),
    "eval_next": Form(BYTE, 3, [], 0),
    "compress_prefix_shifted": FOLD,
    "compress_suffix_shifted": FOLD,
}
HOST = {
    "session_open": Form(WORD, 1, [NUMBER] * 4 + [SIZE, SIZE, NUMBER, NUMBER], 1, arrays=2),
    "session_feed": Form(WORD, 2, [], 0, arrays=2),
    "session_close": Form(WORD, 1, [], 0, arrays=2),
    "session_read": Form(WORD, 0, [SIZE], 1, arrays=3),
}
FORMS = {"ward_": WARD, "host_": HOST}


class Arena:
    """Memory for one slice. The page after it is forbidden, so that reading past the end is seen."""

    def __init__(self, size):
        self.size = (size // mmap.PAGESIZE + 1) * mmap.PAGESIZE
        self.memory = mmap.mmap(-1, self.size + mmap.PAGESIZE)
        self.address = ctypes.addressof(ctypes.c_char.from_buffer(self.memory))
        protect = ctypes.CDLL(None, use_errno=True).mprotect
        protect.argtypes = [ctypes.c_void_p, ctypes.c_size_t, ctypes.c_int]
        if protect(self.address + self.size, mmap.PAGESIZE, 0):
            raise OSError(ctypes.get_errno(), "mprotect")

    def lend(self, rng, data, unit):
        """Puts the bytes right before the forbidden page, or between guards at any alignment of bytes or of words."""
        after = 0 if rng.random() < 0.5 else GUARD + unit * rng.randrange(16)
        self.end = self.size - after
        self.start = self.end - len(data)
        self.before = rng.randbytes(GUARD)
        self.after = rng.randbytes(after)
        self.memory[self.start - GUARD:self.size] = self.before + data + self.after
        no_address = unit == BYTE and not data and rng.random() < 0.5
        return None if no_address else self.address + self.start

    def data(self):
        return self.memory[self.start:self.end]

    def guards_stand(self):
        return (self.memory[self.start - GUARD:self.start] == self.before
                and self.memory[self.end:self.size] == self.after)


# The largest slice: a table of 2^22 words, which is also an out of 2^20 elements.
LARGEST = 4 * 2 ** 22 + 4096


class Library:
    def __init__(self, path, prefix):
        library = ctypes.CDLL(path)
        self.forms, self.functions, self.arenas = FORMS[prefix], {}, {}
        for name, form in self.forms.items():
            function = getattr(library, prefix + name)
            function.argtypes, function.restype = form.types, ctypes.c_uint32
            self.functions[name] = function

    def arena(self, name):
        if name not in self.arenas:
            self.arenas[name] = Arena(LARGEST)
        return self.arenas[name]

    def run(self, call, rng):
        """The result number, and what the call did that none may do."""
        slices = call.slices
        arguments = self.forms[call.name].arguments(
            call, lambda name, data, unit: self.arena(name).lend(rng, data, unit))
        # A call that hangs ends the process and counts as a crash.
        signal.alarm(HANG_SECONDS)
        number = self.functions[call.name](*arguments)
        signal.alarm(0)
        broken = ["%s: bytes beside it changed" % name for name in slices if not self.arenas[name].guards_stand()]
        broken += [
            "%s: input changed" % name for name, data in slices.items()
            if name not in LENT and self.arenas[name].data() != data]
        return number, broken

    def check(self, call, rng):
        """The expected result number, and what is wrong, or None."""
        expected, after = call.expected()
        number, broken = self.run(call, rng)
        if number != expected:
            broken.append("result %d for %d" % (number, expected))
        for name, data in after.items():
            got = self.arenas[name].data()
            if got != data:
                broken.append("%s: %s for %s" % (name, short(got), short(data)))
        return expected, "; ".join(broken) or None
