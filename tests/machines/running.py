"""Runs of the programs, one after the other: each gets its input from a file in memory and writes into one, so that nothing waits.
And what is seen of a run whose input comes through a pipe."""
import array
import collections
import fcntl
import mmap
import os
import select
import struct
import termios

# The programs by their names, as programs.txt has them; and those that a check calls by words of their own.
with open(os.path.join(os.path.dirname(os.path.abspath(__file__)), "..", "..", "programs.txt"), encoding="ascii") as table:
    NAMES = tuple(line.split()[0] for line in table if not line.startswith("#"))
RTGS, CHAIN, STORE, VIEW, PAGE, LIVE, GATE = "rtgs", "day_chain", "durable_day", "liquidity_view", "day_page", "live_day", "party_gate"

# A run hangs that has taken so many seconds of a processor, or fifteen times as many by the clock: a busy machine may leave it waiting.
SECONDS, PATIENCE = 20, 15

# What the library of faults.py is told to refuse, and what it counts.
PLAN = ("read_at", "read_error", "read_most", "write_at", "write_error", "write_most", "memory_at", "memory_on", "thread_at", "thread_on", "read_lines")
COUNTS = ("reads", "writes", "requests", "threads", "late_reads", "ends", "late_writes", "taken", "loaded", "given")
FIRST_COUNT, SHARED = 16, 198
Ended = collections.namedtuple("Ended", ("status", "text", *COUNTS))


def builds_of(words, wanted=NAMES):
    """The paths of the builds that words name, or None where a word is none or one that is wanted is not named."""
    builds = dict(word.split("=", 1) for word in words if "=" in word)
    return {name: os.path.abspath(path) for name, path in builds.items()} if len(builds) == len(words) and builds.keys() >= set(wanted) else None


def used_by(number):
    """The seconds of processor that a process has taken."""
    with open(f"/proc/{number}/stat", "rb") as file:
        fields = file.read().rsplit(b")", 1)[1].split()
    return (int(fields[11]) + int(fields[12])) / os.sysconf("SC_CLK_TCK")


def left_in(pipe):
    """How many bytes of a pipe were not read yet."""
    count = array.array("i", [0])
    fcntl.ioctl(pipe, termios.FIONREAD, count)
    return count[0]


def sleeps(number):
    """Whether a process of one thread sleeps: over an empty pipe, that it waits for more."""
    with open(f"/proc/{number}/stat", "rb") as file:
        return file.read().rsplit(b")", 1)[1].split()[0] == b"S"


class Runs:
    """The status of a run is a number, below zero the signal that ended it, or `hangs`."""

    def __init__(self, programs, library=None):
        self.programs, self.count = programs, 0
        self.input, self.output, self.shared = (os.memfd_create(name) for name in ("input", "output", "shared"))
        self.nowhere = os.open(os.devnull, os.O_RDWR)
        os.ftruncate(self.shared, 4096)
        self.plan = mmap.mmap(self.shared, 4096)
        self.given, self.surroundings = None, {"LD_PRELOAD": library} if library else {}
        self.ends = [(os.POSIX_SPAWN_DUP2, here, there) for here, there in ((self.input, 0), (self.output, 1), (self.nowhere, 2), (self.shared, SHARED))]

    def run(self, program, words, given, seconds=SECONDS, **plan):
        if self.given is not given:
            os.ftruncate(self.input, 0)
            os.pwrite(self.input, given, 0)
            self.given = given
        os.lseek(self.input, 0, os.SEEK_SET)
        os.ftruncate(self.output, 0)
        os.lseek(self.output, 0, os.SEEK_SET)
        struct.pack_into("=32q", self.plan, 0, *([plan.get(name, 0) for name in PLAN] + [0] * (32 - len(PLAN))))
        number = os.posix_spawn(self.programs[program], [self.programs[program], *words], self.surroundings, file_actions=self.ends)
        self.count += 1
        waiting = os.pidfd_open(number)
        hangs = True
        for _ in range(PATIENCE):
            if select.select([waiting], [], [], seconds)[0]:
                hangs = False
            if not hangs or used_by(number) > seconds:
                break
        os.close(waiting)
        if hangs:
            os.kill(number, 9)
        status = os.waitstatus_to_exitcode(os.waitpid(number, 0)[1])
        text = os.pread(self.output, os.fstat(self.output).st_size, 0)
        return Ended("hangs" if hangs else status, text, *struct.unpack_from("=10q", self.plan, 8 * FIRST_COUNT))
