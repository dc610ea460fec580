#!/usr/bin/env python3
"""How long a live day's answers take: of each message the time from the moment at which it is sent until all that is told of it is read.

    tests/live/answer_times.py LIVE_DAY DAY [RUNS]

The day, of which no record may be bad, is settled once from a file; that says how many bytes each message is answered with. Then its
messages are sent through a pipe one after the other, each once the answer to the one before it is there, batches with their entries in
one piece; RUNS times (once where none is said), and of each message the least time counts. Before that the setup is sent, and read. The
same is done with `cat` in place of the program, which sends each message back: what the pipes and this script take.
Written are: what the run from the file takes; how long the program takes until it asks for the first record, and what it takes of
memory then; seconds of processor and the most memory of a run, of its messages those that are answered within so many microseconds; and
of each tenth of the messages the mean, and by kinds those of the first and the last tenth. A row of docs/performance.md stands last.
"""
import os
import re
import subprocess
import sys
import time

sys.dont_write_bytecode = True
sys.path.insert(0, os.path.dirname(os.path.dirname(os.path.abspath(__file__))) + "/machines")
from running import left_in, sleeps

MESSAGES = (b"PAY", b"BAT", b"LIQ", b"OBJ", b"CNF", b"CYC")
MARK = re.compile(rb"^J;[0-9]+;(IN|TIME|SWEEP|END);[0-9]+;([0-9]+);", re.M)


def seconds(text):
    return sum(int(part) * unit for part, unit in zip(text.split(b":"), (3600, 60, 1)))


def events_of(day):
    """The setup, and behind it what is sent at once: kind and bytes."""
    setup, events = [], []
    for row in day.splitlines(True):
        kind = row[:row.index(b";")] if b";" in row else row.strip()
        if kind in MESSAGES + (b"TIM", b"END"):
            events.append([kind, row])
        elif kind == b"ENT":
            events[-1][1] += row
        else:
            setup.append(row)
    return b"".join(setup), events


def answers_to(events, output):
    """How many bytes each event is answered with."""
    marks, at, begins = list(MARK.finditer(output)), 0, []
    for kind, row in events:
        begins.append(marks[at].start())
        wanted = b"IN" if kind in MESSAGES else b"TIME"
        if kind == b"END":
            break
        if marks[at][1] != wanted:
            sys.exit("answer_times: %r is answered with %r" % (row[:80], marks[at][0]))
        # A stop has its Time lines up to its own time.
        while kind == b"TIM" and int(marks[at][2]) != seconds(row[4:12]):
            at += 1
        at += 1
    return [end - begin for begin, end in zip(begins, begins[1:] + [len(output)])]


class Run:
    def __init__(self, words):
        self.process = subprocess.Popen(words, stdin=subprocess.PIPE, stdout=subprocess.PIPE, bufsize=0)
        self.to, self.back = self.process.stdin.fileno(), self.process.stdout.fileno()

    def settle_down(self):
        """Until it sleeps over an empty pipe, twice in a row."""
        calm = 0
        while calm < 2:
            calm = calm + 1 if left_in(self.to) == 0 and sleeps(self.process.pid) else 0
            time.sleep(0.0005)

    def ask(self, given, count):
        """The nanoseconds until so many bytes are there, and these."""
        parts, begun = [], time.perf_counter_ns()
        os.write(self.to, given)
        while count > 0:
            part = os.read(self.back, min(count, 1 << 20))
            if not part:
                sys.exit("answer_times: the program ended")
            parts.append(part)
            count -= len(part)
        return time.perf_counter_ns() - begun, b"".join(parts)

    def memory(self):
        with open("/proc/%d/statm" % self.process.pid) as file:
            return int(file.read().split()[1]) * os.sysconf("SC_PAGESIZE") / 1e6

    def end(self):
        """Its status, seconds of processor, and the most memory in MB."""
        self.process.stdin.close()
        _, status, used = os.wait4(self.process.pid, 0)
        self.process.returncode = os.waitstatus_to_exitcode(status)
        self.process.stdout.close()
        return self.process.returncode, used.ru_utime + used.ru_stime, used.ru_maxrss / 1024


def at_once(program, day):
    """The output of a run over a file, its seconds of processor and memory."""
    with open(day, "rb") as source:
        process = subprocess.Popen([program, "run"], stdin=source, stdout=subprocess.PIPE)
        output = process.stdout.read()
        _, status, used = os.wait4(process.pid, 0)
        process.returncode = os.waitstatus_to_exitcode(status)
    if process.returncode != 0 or re.search(rb"^R;", output, re.M):
        sys.exit("answer_times: status %d, or a record is refused" % process.returncode)
    return output, used.ru_utime + used.ru_stime, used.ru_maxrss / 1024


def one_by_one(program, setup, events, counts, output):
    """The nanoseconds of each event, the milliseconds and the memory at the first record, and what the run took."""
    begun, run = time.monotonic(), Run([program, "run"])
    run.settle_down()
    ready = (1000 * (time.monotonic() - begun), run.memory())
    run.ask(setup, 0)
    run.settle_down()
    took, text, begun = [], [], time.monotonic()
    for (_, given), count in zip(events, counts):
        nanoseconds, answer = run.ask(given, count)
        took.append(nanoseconds)
        text.append(answer)
    clock = time.monotonic() - begun
    status, processor, most = run.end()
    if status != 0 or b"".join(text) != output:
        sys.exit("answer_times: status %d, or another output than that of the file" % status)
    return took, ready, (processor, most, clock)


def sent_back(events):
    """The same with cat."""
    run = Run(["cat"])
    took = [run.ask(given, len(given))[0] for kind, given in events if kind in MESSAGES]
    run.end()
    return took


def within(took, share):
    return sorted(took)[min(len(took) - 1, int(share * len(took)))] / 1000


def mean(took):
    return sum(took) / len(took) / 1000 if took else 0


def main(words):
    if len(words) not in (2, 3) or not words[2:] == [] and not words[2].isdigit():
        print(__doc__)
        return 2
    program, path = os.path.abspath(words[0]), words[1]
    with open(path, "rb") as file:
        setup, events = events_of(file.read())
    output, processor, most = at_once(program, path)
    counts = answers_to(events, output)
    print("from a file: %.2f seconds of processor, %.0f MB, %d bytes written" % (processor, most, len(output)))
    runs = [one_by_one(program, setup, events, counts, output) for _ in range(int((words + ["1"])[2]))]
    least = [min(times) for times in zip(*(run[0] for run in runs))]
    for _, ready, (processor, most, clock) in runs:
        print("one by one: asks after %.0f ms with %.0f MB; %.2f seconds of processor, %.2f by the clock, %.0f MB" % (*ready, processor, clock, most))
    kinds = [kind for kind, _ in events if kind in MESSAGES]
    took = [nanoseconds for nanoseconds, (kind, _) in zip(least, events) if kind in MESSAGES]
    back = sent_back(events)
    for name, times in (("answers", took), ("cat", back), ("stops", [nanoseconds for nanoseconds, (kind, _) in zip(least, events) if kind == b"TIM"])):
        if times:
            print("%s: %d; microseconds of half of them %.0f, of 9 in 10 %.0f, of 99 in 100 %.0f, of 999 in 1,000 %.0f, at most %.0f; mean %.1f" %
                  (name, len(times), *(within(times, share) for share in (0.5, 0.9, 0.99, 0.999, 1)), mean(times)))
    size = max(len(took) // 10, 1)
    tenths = [took[i * size:(i + 1) * size] for i in range(10)]
    print("mean of each tenth: " + ", ".join("%.1f" % mean(tenth) for tenth in tenths))
    print("median of each tenth: " + ", ".join("%.1f" % within(tenth, 0.5) for tenth in tenths if tenth))
    for kind in sorted(set(kinds)):
        first, last = ([time for time, of in zip(took[part], kinds[part]) if of == kind] for part in (slice(0, size), slice(-size, None)))
        print("%s: %d; mean of the first tenth %.1f, of the last %.1f" % (kind.decode(), kinds.count(kind), mean(first), mean(last)))
    name = os.path.basename(path).removesuffix(".day")
    first, last = mean(tenths[0]), mean(took[-size:])
    print("| %s | %s | %.2f (%.2f) | %.0f MB | %.0f ms | %.0f | %.0f | %.0f | %.0f | %.1f, %.1f | %.2f | %.0f |" % (
        name, format(len(took), ","), runs[-1][2][0], runs[-1][2][2], runs[-1][2][1], runs[-1][1][0], within(took, 0.5), within(took, 0.99), within(took, 0.999),
        within(took, 1), first, last, last / first, within(back, 0.5)))
    return 0


if __name__ == "__main__":
    sys.exit(main(sys.argv[1:]))
