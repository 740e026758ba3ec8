"""Runs a program on an input that is cut into blocks, each of which is what one read gives.

A pipe may join what is written to it or split it; the pair of sockets that is used here keeps blocks apart.
"""

import collections
import math
import select
import signal
import socket
import subprocess
import time

# A block longer than what the program reads at once would lose its end.
LONGEST = 4096

# Of blocks of a single byte there are at most so many.
SINGLE = 20_000

# An answer, or the end of a run, may take so long.
SECONDS = 20

# What a run did; `late` says which answer did not come while the input was held open.
Run = collections.namedtuple("Run", "status output errors late")

# When `sent` bytes are sent, the input is held open until `printed` is there and, where it has to, the program ends.
Hold = collections.namedtuple("Hold", "sent printed ends")


# Cuts.

def whole(data):
    """As few blocks as there can be."""
    return [data[at:at + LONGEST] for at in range(0, len(data), LONGEST)]


def byte_by_byte(data):
    """The first bytes one by one, and what is over as it may be."""
    return [data[at:at + 1] for at in range(min(len(data), SINGLE))] + whole(data[SINGLE:])


def at_random(data, rng):
    """Blocks of drawn sizes, some thousand of them at most."""
    most = min(LONGEST, max(rng.choice((1, 3, 7, 40, 400)), len(data) // 1000))
    blocks, at = [], 0
    while at < len(data):
        size = rng.randint(1, most)
        blocks.append(data[at:at + size])
        at += size
    return blocks


# Runs.

class Running:
    """A run under way, and what it has printed so far."""

    def __init__(self, program, stdin):
        self.process = subprocess.Popen(
            [program], stdin=stdin, stdout=subprocess.PIPE, stderr=subprocess.PIPE, bufsize=0)
        self.output, self.late = b"", None

    def read(self, size):
        """Reads until so many bytes are there, or no more come in time."""
        pipe, until = self.process.stdout, time.monotonic() + SECONDS
        while len(self.output) < size and select.select([pipe], [], [], max(0, until - time.monotonic()))[0]:
            part = pipe.read(65536)
            if not part:
                break
            self.output += part

    def ends(self):
        try:
            self.process.wait(SECONDS)
            return True
        except subprocess.TimeoutExpired:
            return False

    def hold(self, hold):
        self.read(len(hold.printed))
        if not self.output.startswith(hold.printed):
            self.late = "the answer did not come before the input went on"
        elif hold.ends and not self.ends():
            self.late = "the program did not stop at its refusal"

    def finish(self):
        """The whole run. A program that does not end is killed."""
        with self.process:
            self.read(math.inf)
            if not self.ends():
                self.process.kill()
            status = self.process.wait()
            return Run(status, self.output, self.process.stderr.read(), self.late)


def run(program, blocks, holds=()):
    """Runs the program on the blocks, none of them empty, with the holds in order."""
    ours, theirs = socket.socketpair(socket.AF_UNIX, socket.SOCK_SEQPACKET)
    with ours:
        with theirs:
            running = Running(program, theirs)
        ours.settimeout(SECONDS)
        send(ours, running, blocks, list(holds))
    return running.finish()


def send(ours, running, blocks, holds):
    sent = 0
    for block in blocks:
        try:
            ours.send(block)
        except (ConnectionError, TimeoutError):
            # The program has stopped, or hangs: it reads no more.
            return
        sent += len(block)
        while holds and holds[0].sent <= sent:
            running.hold(holds.pop(0))


# Comparing.

def fault_of(run, expected):
    """What is wrong with a run, or None; another exit status than 0 counts as a crash."""
    if run.status == -signal.SIGKILL:
        return "crash: hung for %d seconds" % SECONDS
    if run.status != 0:
        return "crash: exit status %d" % run.status
    if run.output != expected:
        return "output differs: %s for %s" % (short(run.output), short(expected))
    if run.errors:
        return "standard error is not empty: %s" % short(run.errors)
    return run.late


def short(data):
    return repr(data if len(data) <= 150 else data[:70] + b"..." + data[-70:])
