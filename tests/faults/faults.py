#!/usr/bin/env python3
"""Streams that fail and memory that is refused, tried on all programs.

    tests/faults/faults.py [few] [seed=N] [from=N] [jobs=N] [seconds=N] NAME=PATH..

Each program is named with the path of its build. A library in C, which is built into a temporary folder and loaded in front of the C library, counts what a program asks of its
streams, of memory and of threads, and refuses what it is told. Each case is a program, its words and an input: the examples, by
`settle` with 0, 1 and 4 workers, `check`, `migrate`, `replay` and `follow`; trials; refused days and spoilt journals; chains; stores
that are new, cut, shown, gone on with, or of another day; views and pages; live days, gone on with after a break too; what gates pass on; and a day whose
output is longer than what is gathered at once. Of each case these are tried:

- reads and writes of 1 to 7 bytes at most: the answer is the same;
- each read fails (an error of the device; nothing there now; interrupted): status 4, and nothing is written or read behind it;
- each write fails (an error of the device; no room; interrupted; no byte taken): status 5, what was written is just what was taken
  before, and that is a front of the answer; nothing is written behind it;
- the same where reads and writes take a few bytes each;
- each request for memory is refused, alone and with all that follow: the answer is the same, or status 1 and nothing is written, by
  chains some whole days;
- each thread is refused, alone and with all that follow: the answer is the same.

A live day is told while it is read, and passed on by a gate while it is told. So at a read that fails what was written is just what is told of the bytes read until then, as the
second machine says, or a second filter; behind a write that fails nothing is read; and where memory is refused nothing was read. All of it is tried
record by record, too: each read gives a line at most, so that each moment at which the program asks for more is seen.

With workers the answer may be another one each time; then its journal has to be legal as `replay` says, and a front of it as
`liquidity_view` says. In no run is anything read behind the end, and none hangs: takes twenty seconds of a processor, or five minutes by the clock.
With `few`, of each sort at most six are tried of a case, of memory twelve, and of every fourth example: another choice for each seed. Else all are, but for calls
that take a few bytes each, of which at most a hundred fail. Cases are tried in one order: from case N on, else from the first, and
none is begun after so many seconds, where they are said. So the rest is tried by later runs, of one job each: where 117 cases from the
first on were tried, from=118 goes on. The last lines are how many runs of each sort there were, how they ended, how many of the cases
were tried, and 'N runs, M failed'. Where no compiler is found, or its library can't be loaded, the only line says so, and the status
is 0.
"""
import collections
import concurrent.futures
import errno
import os
import shutil
import subprocess
import sys
import tempfile
import time

sys.dont_write_bytecode = True
sys.path.insert(0, os.path.dirname(os.path.dirname(os.path.abspath(__file__))) + "/machines")
import live_machine as live
from running import CHAIN, GATE, LIVE, PAGE, RTGS, STORE, VIEW, Runs, builds_of

LIBRARY = r"""
#define _GNU_SOURCE
#include <dlfcn.h>
#include <errno.h>
#include <pthread.h>
#include <stdatomic.h>
#include <stddef.h>
#include <stdint.h>
#include <string.h>
#include <sys/mman.h>
#include <sys/syscall.h>
#include <sys/uio.h>
#include <unistd.h>

extern void *__libc_malloc(size_t), *__libc_calloc(size_t, size_t), *__libc_realloc(void *, size_t), *__libc_memalign(size_t, size_t);

/* What is to fail: which call, from 1, with which error (-1: a write takes no byte); how many bytes a call may take; whether all that
   follow fail too; and whether a read gives a line at most. Behind it what was asked. */
enum { READ_AT, READ_ERROR, READ_MOST, WRITE_AT, WRITE_ERROR, WRITE_MOST, MEMORY_AT, MEMORY_ON, THREAD_AT, THREAD_ON, READ_LINES,
    READS = 16, WRITES, REQUESTS, THREADS, LATE_READS, ENDS, LATE_WRITES, TAKEN, LOADED, GIVEN };
static _Atomic int64_t *plan;

__attribute__((constructor)) static void begin(void) {
    void *at = mmap(0, 4096, PROT_READ | PROT_WRITE, MAP_SHARED, 198, 0);
    if (at != MAP_FAILED) { plan = at; plan[LOADED] = 1; }
}

static int fails(int which, int64_t call) {
    return plan[which] && (call == plan[which] || (call > plan[which] && plan[which + 1]));
}

ssize_t read(int file, void *room, size_t count) {
    if (!plan || file != 0) return syscall(SYS_read, file, room, count);
    int64_t call = ++plan[READS];
    if (plan[ENDS] || (plan[READ_AT] && call > plan[READ_AT]) || (plan[WRITE_AT] && plan[WRITES] >= plan[WRITE_AT])) plan[LATE_READS]++;
    if (call == plan[READ_AT]) { errno = plan[READ_ERROR]; return -1; }
    if (plan[READ_MOST] && count > (size_t)plan[READ_MOST]) count = plan[READ_MOST];
    ssize_t came = syscall(SYS_read, file, room, count);
    if (came == 0) plan[ENDS]++;
    char *end = came > 0 && plan[READ_LINES] ? memchr(room, '\n', came) : 0;
    if (end) {
        /* What is behind the line stays in the file. */
        ssize_t line = end + 1 - (char *)room;
        if (lseek(file, line - came, SEEK_CUR) >= 0) came = line;
    }
    if (came > 0) plan[GIVEN] += came;
    return came;
}

ssize_t write(int file, const void *piece, size_t count) {
    if (!plan || file != 1) return syscall(SYS_write, file, piece, count);
    int64_t call = ++plan[WRITES];
    if (plan[WRITE_AT] && call > plan[WRITE_AT]) plan[LATE_WRITES]++;
    if (call == plan[WRITE_AT]) {
        if (plan[WRITE_ERROR] < 0) return 0;
        errno = plan[WRITE_ERROR];
        return -1;
    }
    if (plan[WRITE_MOST] && count > (size_t)plan[WRITE_MOST]) count = plan[WRITE_MOST];
    ssize_t went = syscall(SYS_write, file, piece, count);
    if (went > 0) plan[TAKEN] += went;
    return went;
}

static int refused(void) {
    if (!plan || !fails(MEMORY_AT, ++plan[REQUESTS])) return 0;
    errno = ENOMEM;
    return 1;
}

void *malloc(size_t n) { return refused() ? 0 : __libc_malloc(n); }
void *calloc(size_t n, size_t m) { return refused() ? 0 : __libc_calloc(n, m); }
void *realloc(void *p, size_t n) { return refused() ? 0 : __libc_realloc(p, n); }
void *memalign(size_t a, size_t n) { return refused() ? 0 : __libc_memalign(a, n); }
void *aligned_alloc(size_t a, size_t n) { return refused() ? 0 : __libc_memalign(a, n); }
int posix_memalign(void **p, size_t a, size_t n) {
    if (refused()) return ENOMEM;
    void *made = __libc_memalign(a, n);
    if (!made) return ENOMEM;
    *p = made;
    return 0;
}

int pthread_create(pthread_t *thread, const pthread_attr_t *how, void *(*what)(void *), void *with) {
    static int (*create)(pthread_t *, const pthread_attr_t *, void *(*)(void *), void *);
    if (!create) *(void **)&create = dlsym(RTLD_NEXT, "pthread_create");
    if (plan && fails(THREAD_AT, ++plan[THREADS])) return EAGAIN;
    return create(thread, how, what, with);
}
"""

READ_ERRORS = (errno.EIO, errno.EAGAIN, errno.EINTR)
WRITE_ERRORS = (errno.EIO, errno.ENOSPC, errno.EPIPE, errno.EAGAIN, errno.EINTR, -1)


def journal_of(text):
    return b"".join(line for line in text.splitlines(True) if line[:2] in (b"J;", b"M;"))


def file_of(path):
    with open(path, "rb") as file:
        return file.read()


def passed_on(party, told):
    """What a gate passes on to a party of the whole lines of these bytes, of which none is too long: its own, and the last one."""
    passed = b""
    for line in told.split(b"\n")[:-1]:
        fields = line.split(b";")
        if fields[0] in (b"OK", b"E") and len(fields) > 1:
            return passed + line + b"\n"
        if fields[0] == b"S" and len(fields) > 3 and fields[2] == party:
            passed += line + b"\n"
    return passed


class Case:
    """A program, its words and an input, and whether its answer may be another one each time."""

    def __init__(self, program, words, given, day=None):
        self.program, self.words, self.given, self.day = program, words, given, day
        # It answers while its input comes.
        self.is_live = program in (LIVE, GATE)

    def __str__(self):
        return f"{self.program} {' '.join(self.words)} of {len(self.given)} bytes"


class Trying:
    def __init__(self, runs, case, few, seed):
        self.runs, self.case, self.few, self.seed, self.wrong, self.known, self.told = runs, case, few, seed, [], set(), {}
        self.sorts, self.ends = collections.Counter(), collections.Counter()

    def these(self, last, most=1000000):
        """The numbers from 1 to the last, or some of them: the first and the last, and some between."""
        most = min(most, 6) if self.few else most
        if last <= most:
            return range(1, last + 1)
        return sorted({1, last} | {1 + (last - 1) * i // (most - 1) - self.seed % ((last - 1) // (most - 1)) for i in range(1, most - 1)})

    def is_whole(self, text):
        """Whether the text is the answer, or one that it may be."""
        if self.case.day is None or text == self.clean.text or text in self.known:
            return text == self.clean.text or text in self.known
        journal = journal_of(text)
        lines = journal.count(b"J;")
        said = self.runs.run(RTGS, ["replay"], self.case.day + journal)
        if (said.status, said.text) != (0, b"LEGAL;%d\n" % lines) or not text.endswith(b"\nOK;%d\n" % lines):
            return False
        self.known.add(text)
        return True

    def is_front(self, text):
        if self.case.day is None:
            return self.clean.text.startswith(text)
        if any(known.startswith(text) for known in (self.clean.text, *self.known)):
            return True
        whole = text[:text.rfind(b"\n") + 1]
        journal = journal_of(whole)
        if journal == whole and b"J;" in journal:
            # The newest line may lack moves.
            journal = journal[:journal.rfind(b"J;")]
        lines = sum(line.startswith(b"J;") for line in journal.splitlines())
        said = self.runs.run(VIEW, ["view", "A", "1", "0"], self.case.day + journal)
        return (said.status, said.text) == (0, b"OK;%d\n" % lines)

    def must(self, sort, right, ended, **plan):
        self.sorts[sort] += 1
        self.ends[f"{sort}: {ended.status}"] += 1
        if not right(ended) or ended.late_reads + ended.late_writes > 0 or ended.ends > 1 or ended.loaded != 1:
            self.wrong.append(f"{self.case}: {sort} {plan}: {ended._replace(text=ended.text[:80])}")

    def run(self, **plan):
        return self.runs.run(self.case.program, self.case.words, self.case.given, **plan)

    def attempt(self, sort, right, **plan):
        self.must(sort, right, self.run(**plan), **plan)

    def attempt_cut(self, sort, at, **plan):
        self.attempt(sort, lambda ended: self.cut(ended, at), write_at=at, **plan)

    def is_answer(self, ended):
        return ended.status == self.clean.status and self.is_whole(ended.text)

    def is_short(self, ended):
        """The answer, or memory was wanting."""
        if ended.status != 1:
            return self.is_answer(ended)
        if self.case.program != CHAIN:
            return ended.text == b"" and (not self.case.is_live or ended.reads == 0)
        # Whole days at the front: what follows begins another one, or is behind all of them.
        rest = self.clean.text[len(ended.text):]
        return self.clean.text.startswith(ended.text) and (ended.text == b"" or rest[:2] in (b"D;", b"Y;", b"E;", b"CH"))

    def cut(self, ended, at):
        """A front; or, with workers, an answer that took fewer writes than there would have been before the one that fails."""
        if ended.writes < at:
            return self.case.day is not None and self.is_answer(ended)
        return ended.status == 5 and len(ended.text) == ended.taken and self.is_front(ended.text) and ended.text != self.clean.text

    def due(self, count):
        """What is told of the first bytes, while more may come."""
        if count not in self.told and self.case.program == GATE:
            self.told[count] = passed_on(self.case.words[1].encode(), self.case.given[:count])
        elif count not in self.told:
            self.told[count] = (live.told if self.case.words == ["run"] else live.told_again)(self.case.given[:count])
        return self.told[count]

    def unread(self, ended):
        if self.case.is_live:
            return ended.status == 4 and ended.text == self.due(ended.given)
        return ended.status == 4 and ended.text == b"" and ended.writes == 0

    def is_right(self, ended):
        if self.case.program == GATE and ended.status != 2:
            return ended.status == 0 and ended.text == self.due(len(self.case.given))
        if self.case.program != LIVE or ended.status == 2:
            return ended.status in (0, 2, 3, 6, 8, 9) and self.is_whole(ended.text)
        return (ended.status, ended.text) == (live.live_text if self.case.words == ["run"] else live.resumed)(self.case.given)

    def tried(self):
        self.clean = self.run()
        clean, size = self.clean, len(self.clean.text)
        self.must("nothing fails", self.is_right, clean)
        for most in self.these(7):
            self.attempt("short reads", self.is_answer, read_most=most)
            self.attempt("short writes", self.is_answer, write_most=most)
        self.attempt("short reads and writes", self.is_answer, read_most=3, write_most=2)
        for error in READ_ERRORS:
            for at in self.these(clean.reads):
                self.attempt("a read fails", self.unread, read_at=at, read_error=error)
        for error in WRITE_ERRORS:
            for at in self.these(clean.writes):
                self.attempt_cut("a write fails", at, write_error=error)
        if clean.reads:
            for most in (1, 7):
                reads = self.run(read_most=most).reads if self.case.is_live else -(-len(self.case.given) // most) + 1
                for at in self.these(reads, 100):
                    self.attempt("a short read fails", self.unread, read_at=at, read_error=errno.EIO, read_most=most)
        for most in (1, 2, 7):
            for at in self.these(-(-size // most), 100):
                self.attempt_cut("a short write fails", at, write_error=errno.ENOSPC, write_most=most)
        if self.case.is_live and clean.reads:
            by_line = self.run(read_lines=1)
            self.must("record by record", self.is_answer, by_line)
            for at in self.these(by_line.reads, 100):
                self.attempt("a read fails, record by record", self.unread, read_at=at, read_error=errno.EIO, read_lines=1)
            for error in WRITE_ERRORS[:2 if self.few else None]:
                for at in self.these(by_line.writes, 100):
                    self.attempt_cut("a write fails, record by record", at, write_error=error, read_lines=1)
            for at in self.these(size, 100):
                self.attempt_cut("a short write fails, record by record", at, write_error=errno.ENOSPC, write_most=1, read_lines=1)
        for on in (0, 1):
            for at in self.these(clean.requests, 12 if self.few else 1000):
                self.attempt("memory is refused" + " from there on" * on, self.is_short, memory_at=at, memory_on=on)
            for at in self.these(clean.threads):
                self.attempt("a thread is refused" + " from there on" * on, self.is_answer, thread_at=at, thread_on=on)
        return self


def cases(runs, few, seed):
    """What is tried: the examples, trials, chains, stores, views, pages and what is refused."""
    made = []

    def add(program, words, given, day=None):
        made.append(Case(program, words.split(), given, day))
        return made[-1]

    def answer(case):
        return runs.run(case.program, case.words, case.given).text

    days = sorted(name for name in os.listdir("examples") if name.endswith(".day"))
    good = [name for name in days if not os.path.exists(f"examples/{name[:-4]}.status")]
    for name in good[seed % 4::4] if few else good:
        day = file_of("examples/" + name)
        told = answer(add(RTGS, "settle --workers 0", day))
        journal = journal_of(told)
        lines = journal.count(b"J;")
        for workers in (1, 4):
            add(RTGS, f"settle --workers {workers}", day, day)
        add(RTGS, "check", day)
        add(RTGS, "migrate", day)
        add(RTGS, "replay", day + journal)
        add(RTGS, "replay", day + journal.replace(b"J;4;", b"J;5;", 1))
        parties = sorted({row.split(b";")[3].decode() for row in day.splitlines() if row.startswith(b"ACC;")})
        for party in parties[:1] if few else [parties[0], "NOBODY"]:
            add(RTGS, f"follow {party}", day + told)
            add(VIEW, f"view {party} 1 9999999", day + journal)
            add(PAGE, f"page {party}", day + journal)
            add(GATE, f"out {party}", live.told(day))
        add(PAGE, "page", day + journal)
        add(CHAIN, "", day)
        add(LIVE, "run", day)
        at = len(day) // 2
        for read, written in ((day[:at], live.told(day[:at])), (day, live.told(day)[:-9])):
            add(LIVE, "resume", live.broken_run(read, written, day[len(read):]))
        add(LIVE, "resume", live.broken_run(day[:at], live.told(day[:at]) + b"J", day[at:]))
        stored = answer(add(STORE, "run 9999999", day))
        for calls in (0, 3, 4 + 2 * lines):
            left = answer(add(STORE, f"run {calls}", day))
            add(STORE, "run 9999999", day + left)
        add(STORE, "show", day + stored)
        add(STORE, "show", day + stored[:-9])
    refused_days = sorted(name for name in os.listdir("examples/refusals") if name.endswith(".day"))
    for refused in refused_days[seed % 4::4] if few else refused_days:
        day = file_of("examples/refusals/" + refused)
        for program, words in ((RTGS, "settle --workers 0"), (RTGS, "settle --workers 4"), (RTGS, "migrate"), (RTGS, "replay"), (CHAIN, ""), (STORE, "run 99"), (VIEW, "view A 1 2"), (PAGE, "page"), (LIVE, "run")):
            add(program, words, day)
    for _, _, given, _ in live.ROWS[seed % 8::8] if few else live.ROWS:
        add(LIVE, "run", live.lines_of(live.SETUP + given))
    for workers in (0, 1, 4):
        add(RTGS, f"trial 1 {3 if few else 40} --workers {workers}", b"")
    for program, words in ((RTGS, "settle 0"), (CHAIN, "day"), (STORE, "run"), (VIEW, "view a 1 1"), (PAGE, "pages"), (LIVE, "runs"), (GATE, "out a")):
        add(program, words, b"")
    add(LIVE, "resume", b"RECORDS;1\n")
    chained = file_of("crates/chain_main/stdin")
    for chain in (file_of("examples/year_end.chain"), chained, chained.replace(b"2025-06-03", b"2025-06-04"), chained.replace(b"\nEND\n", b"\nENT\n")):
        add(CHAIN, "", chain)
    long_day = subprocess.run(["sh", "examples/payments.sh", "400"], stdout=subprocess.PIPE, check=True).stdout
    told = answer(add(RTGS, "settle --workers 0", long_day))
    add(RTGS, "settle --workers 4", long_day, long_day)
    add(RTGS, "replay", long_day + journal_of(told))
    add(CHAIN, "", long_day)
    add(STORE, "run 9999999", long_day)
    add(LIVE, "run", long_day)
    add(GATE, "out NORTH", live.told(long_day))
    return made


def library_of(room):
    """The library, or why there is none."""
    compiler = shutil.which("gcc") or shutil.which("cc")
    if not compiler:
        return None, "no C compiler is found"
    with open(room + "/faults.c", "w") as source:
        source.write(LIBRARY)
    made = subprocess.run([compiler, "-O1", "-shared", "-fPIC", "-o", room + "/faults.so", room + "/faults.c", "-ldl"], stderr=subprocess.PIPE)
    if made.returncode != 0:
        return None, "the library is not compiled here: " + made.stderr.decode(errors="replace").strip().split("\n")[-1]
    return room + "/faults.so", None


def try_all(at):
    """The cases of a process: every so many."""
    programs, library, few, seed, first, until, all_jobs, job = at
    runs = Runs(programs, library)
    told, all_cases = [], cases(runs, few, seed)
    for case in all_cases[first - 1 + job::all_jobs]:
        if until and time.monotonic() > until:
            break
        trying = Trying(runs, case, few, seed).tried()
        told.append((trying.sorts, trying.ends, trying.wrong))
    return runs.count, told, len(all_cases)


def main(words):
    few, seed, first, jobs, until = False, 0, 1, 1, None
    while words and (words[0] == "few" or words[0].startswith(("seed=", "from=", "jobs=", "seconds="))):
        word = words.pop(0)
        few = few or word == "few"
        seed = int(word[5:]) if word.startswith("seed=") else seed
        first = int(word[5:]) if word.startswith("from=") else first
        jobs = int(word[5:]) if word.startswith("jobs=") else jobs
        until = time.monotonic() + int(word[8:]) if word.startswith("seconds=") else until
    programs = builds_of(words)
    if not programs or first < 1:
        print(__doc__)
        return 2
    with tempfile.TemporaryDirectory() as room:
        library, why = library_of(room)
        if library and Runs(programs, library).run(RTGS, ["check"], b"").loaded != 1:
            why = "the library can't be loaded in front of the program"
        if why:
            print(f"faults: passed over: {why}")
            return 0
        sorts, ends, wrong, count, tried = collections.Counter(), collections.Counter(), [], 0, 0
        with concurrent.futures.ProcessPoolExecutor(jobs) as pool:
            for more, told, whole in pool.map(try_all, [(programs, library, few, seed, first, until, jobs, job) for job in range(jobs)]):
                count += more
                tried += len(told)
                for sort, end, bad in told:
                    sorts, ends, wrong = sorts + sort, ends + end, wrong + bad
    for line in wrong[:20]:
        print(line)
    for sort, times in sorted(sorts.items()):
        by = ", ".join(f"{end.split(': ')[1]} {n} times" for end, n in sorted(ends.items()) if end.split(": ")[0] == sort)
        print(f"{sort}: {times} runs; status {by}")
    print(f"{tried} of {whole} cases, from case {first} on")
    print(f"{count} runs, {len(wrong)} failed")
    return 1 if wrong else 0


if __name__ == "__main__":
    sys.exit(main(sys.argv[1:]))
