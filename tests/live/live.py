#!/usr/bin/env python3
"""The program of a live day over files, pipes and a FIFO, judged by the second machine (live_machine.py).

    tests/live/live.py [jobs=N] [inputs=N] PATH

Inputs are the worked rows of live_machine.py, the examples, and so many (100 where none is said) that are made of a number each. The
status and the text have to be those of the row or of the example, or what the second machine says, byte for byte, of an input that
comes

- at once, from a file;
- in pieces of 1, 2, 7 and 4,096 bytes, of which each read gets one: a pipe in packet mode;
- record by record through a FIFO that stays open, every other one in halves. What follows is sent once the program sleeps over an empty
  FIFO. Until then it has to write what is told of all that was sent, and nothing else; behind a line END it has to end by itself;
- after a break, by `resume`: cut behind records and inside of them, with all of what was told of that, some, or none; with a line that
  is another one; after a run that was killed at work; and with what follows the break record by record.

Beside that words that are none, headers that are none, streams that fail, little memory, a reader that goes away, days past their
limits, and inputs of 128 MiB and one byte more. A run hangs that takes twenty seconds of a processor, or five minutes by the clock,
without an answer. The last line is 'N runs over M inputs of a live day, K failed'.
"""
import concurrent.futures
import os
import select
import sys
import tempfile
import time

sys.dont_write_bytecode = True
sys.path.insert(0, os.path.dirname(os.path.dirname(os.path.abspath(__file__))) + "/machines")
import live_machine as live
from running import LIVE, PATIENCE, SECONDS, Runs, left_in, sleeps, used_by

USAGE = b"usage: live_day run | resume | keep FILE [BYTES] | count FILE | show FILE\n"
PIECES = (1, 2, 7, 4096)


class Wrong(Exception):
    """What a run did, and what it had to do."""


def file_of(path):
    with open(path, "rb") as file:
        return file.read()


def short(text):
    return text if len(text) < 200 else text[:80] + b" .. " + text[-80:]


# ---- a run whose input comes while it is at work

class Session:
    """A run over a FIFO, or over a pipe each of whose reads gets one piece that was sent."""

    def __init__(self, program, words, in_packets=False):
        self.nowhere = os.open(os.devnull, os.O_RDWR)
        if in_packets:
            source, self.to = os.pipe2(os.O_DIRECT | os.O_CLOEXEC)
        else:
            with tempfile.TemporaryDirectory() as room:
                os.mkfifo(room + "/in")
                source = os.open(room + "/in", os.O_RDONLY | os.O_NONBLOCK)
                self.to = os.open(room + "/in", os.O_WRONLY)
            os.set_blocking(source, True)
        self.back, sink = os.pipe()
        ends = [(os.POSIX_SPAWN_DUP2, here, there) for here, there in ((source, 0), (sink, 1), (self.nowhere, 2))]
        self.number = os.posix_spawn(program, [program, *words], {}, file_actions=ends)
        os.close(source)
        os.close(sink)
        os.set_blocking(self.to, False)
        self.ended = os.pidfd_open(self.number)
        self.text, self.status = b"", None

    def take(self, seconds=0):
        """Takes what was written; whether there was something."""
        if not self.back or not select.select([self.back], [], [], seconds)[0]:
            return False
        more = os.read(self.back, 1 << 16)
        self.text += more
        return more != b""

    def send(self, given, size=None):
        """Sends bytes, in pieces of so many, as far as they are taken."""
        at = 0
        while at < len(given) and not select.select([self.ended], [], [], 0)[0]:
            ready = select.select([self.back], [self.to], [], 1)
            if ready[0] and not self.take():
                return
            if ready[1]:
                try:
                    at += os.write(self.to, given[at:at + (size or 4096)])
                except BrokenPipeError:
                    return

    def wait(self):
        """Until it asks for more over an empty FIFO, and has written all that it has to say, or has ended: which of them."""
        pause, begun = 0.0002, time.monotonic()
        while True:
            has_ended = bool(select.select([self.ended], [], [], 0)[0])
            asks = not has_ended and left_in(self.to) == 0 and sleeps(self.number)
            if self.take(0 if has_ended or asks else pause):
                continue
            if has_ended:
                return "ends"
            if asks:
                return "asks"
            pause = min(2 * pause, 0.01)
            if used_by(self.number) > SECONDS or time.monotonic() - begun > SECONDS * PATIENCE:
                raise Wrong("hangs behind %r" % short(self.text))

    def finish(self):
        """The status, once nothing more comes."""
        os.close(self.to)
        self.to = None
        begun = time.monotonic()
        while not select.select([self.ended], [], [], 0)[0]:
            self.take(0.01)
            if used_by(self.number) > SECONDS or time.monotonic() - begun > SECONDS * PATIENCE:
                raise Wrong("hangs behind the end of the input")
        while self.take():
            pass
        return self.reap()

    def reap(self):
        if self.status is None:
            self.status = os.waitstatus_to_exitcode(os.waitpid(self.number, 0)[1])
        return self.status

    def close(self):
        if self.status is None:
            os.kill(self.number, 9)
            self.reap()
        for file in (self.to, self.back, self.ended, self.nowhere):
            if file is not None:
                os.close(file)


class Trying:
    def __init__(self, program):
        self.program, self.count, self.wrong = os.path.abspath(program), 0, []
        self.runs = Runs({LIVE: self.program})

    def must(self, name, got, wanted):
        if got != wanted:
            self.wrong.append("%s: status %s and %r, and not %s and %r" % (name, got[0], short(got[1]), wanted[0], short(wanted[1])))

    def at_once(self, name, words, given, wanted, seconds=SECONDS):
        self.count += 1
        ended = self.runs.run(LIVE, words, given, seconds=seconds)
        self.must(name, (ended.status, ended.text), wanted)

    def session(self, name, words, body, in_packets=False):
        """A run that is held by a body."""
        self.count += 1
        session = Session(self.program, words, in_packets)
        try:
            body(session)
        except Wrong as why:
            self.wrong.append("%s: %s" % (name, why))
        finally:
            session.close()

    def in_pieces(self, name, given, size, wanted):
        def body(session):
            session.send(given, size)
            self.must("%s, in pieces of %d" % (name, size), (session.finish(), session.text), wanted)

        self.session(name, ["run"], body, True)

    def record_by_record(self, name, given, wanted, before=0, written=b""):
        """So many bytes come first, by `resume` if there are any, of which this was written before."""
        head = live.broken_run(given[:before], written, b"") if before else b""
        name += ", record by record" + " after a break at byte %d" % before * bool(before)

        def body(session):
            sent = given[:before]
            # Every other record in halves.
            halves = [(line[:len(line) // 2 * (i % 2)], line[len(line) // 2 * (i % 2):]) for i, line in enumerate(given[before:].splitlines(True))]
            for part in [head] * bool(head) + [part for pair in halves for part in pair if part]:
                session.send(part)
                sent += b"" if part is head else part
                is_over = live.END_LINE.search(sent) or live.Heard(sent, False).is_broken
                due = (wanted[1] if is_over else live.told(sent))[len(written):]
                does = session.wait()
                if session.text != due or does != ("ends" if is_over else "asks"):
                    raise Wrong("behind %r it %s, and has written %r, and not %r" % (short(sent), does, short(session.text[-300:]), short(due[-300:])))
                if is_over:
                    break
            self.must(name, (session.finish(), session.text), (wanted[0], wanted[1][len(written):]))

        self.session(name, ["resume"] if before else ["run"], body)

    def after_breaks(self, name, given, wanted, places):
        """Breaks at places of the input."""
        for at in places:
            told = live.told(given[:at])
            for cut in sorted({0, len(told) // 2, max(len(told) - 1, 0), len(told)}):
                self.at_once("%s, after a break at byte %d, with %d bytes of output" % (name, at, cut), ["resume"],
                             live.broken_run(given[:at], told[:cut], given[at:]), (wanted[0], wanted[1][cut:]))
        at = places[len(places) // 2] or len(given)
        told = live.told(given[:at])
        for other in (told + b"J", told[:-1] + b"\n\n", told.replace(b"\n", b";\n", 1), told.replace(b"0\n", b"\n", 1), told[:len(told) // 2] + b";" + told[len(told) // 2:]):
            broken = live.broken_run(given[:at], other, given[at:])
            self.at_once("%s, after a break at byte %d, with another output" % (name, at), ["resume"], broken, live.resumed(broken))
        self.record_by_record(name, given, wanted, at, told[:-7])

    def killed(self, name, given, wanted):
        """A run that is killed at work, at a moment of its own, and one that goes on with what it left."""
        at = len(given) // 2
        left = []

        def body(session):
            session.send(given[:at])
            session.take(0.002 * (at % 10))
            os.kill(session.number, 9)
            session.reap()
            while session.take():
                pass
            left.append(session.text)

        self.session(name, ["run"], body)
        if left:
            self.at_once("%s, after it was killed behind %d bytes" % (name, len(left[0])), ["resume"], live.broken_run(given[:at], left[0], given[at:]),
                         (wanted[0], wanted[1][len(left[0]):]))
            if not wanted[1].startswith(left[0]):
                self.wrong.append("%s: killed, it had written %r" % (name, short(left[0])))

    def input(self, name, given, wanted, sort):
        wanted = wanted or live.live_text(given)
        self.at_once(name, ["run"], given, wanted)
        for size in (1, 7) if sort == "made" else PIECES:
            self.in_pieces(name, given, size, wanted)
        if sort == "refused":
            return
        self.record_by_record(name, given, wanted)
        self.killed(name, given, wanted)
        ends = [at + 1 for at, byte in enumerate(given) if byte in b"\r\n"]
        whole = {0, len(given), *ends[::len(ends) // 3 + 1]} if sort != "made" else set()
        self.after_breaks(name, given, wanted, sorted({len(given) // 2} | whole))

    # -- what is no day

    def edges(self):
        day = live.lines_of(live.SETUP + live.PAYMENT + b"END|")
        paid, over = live.lines_of(live.PAID), live.lines_of(live.MIDNIGHT_AT_3 + live.HELD)
        for words in ([], [""], ["Run"], ["run", ""], ["run", "resume"], ["resume", "run"], ["run "], ["runs"], ["--help"], ["shows"], [b"\xff"], ["run", b"\xff"]):
            self.at_once("the words %s" % words, words, day, (2, USAGE))
        self.at_once("no input", ["run"], b"", (3, b"E;1;CUT\n"))
        for name, status, read, written, rest, wanted in live.BREAKS:
            self.at_once(name, ["resume"], live.broken_run(*map(live.lines_of, (read, written, rest))), (status, live.lines_of(wanted)))
        for given in live.NO_HEADERS:
            self.at_once("the header %r" % given, ["resume"], live.lines_of(given), (3, b"E;0;CUT\n"))
        self.at_once("a header that never ends", ["resume"], b"RECORDS;0" * 1000, (3, b"E;0;CUT\n"))
        # A wrong header, and an output that is none, are told while more may come.
        for name, given, wanted in (("a wrong header", b"RECORDS;x\n", (3, b"E;0;CUT\n")), ("an output that is none", live.broken_run(day[:-4], paid + b"J", b""), (6, b"ILLEGAL;8\n"))):
            def told_at_once(session):
                session.send(given)
                does = session.wait()
                self.must("%s, over a FIFO that %s" % (name, does), (session.finish(), session.text), wanted)
                if does != "ends":
                    raise Wrong("it asks for more")

            self.session(name, ["resume"], told_at_once)
        self.streams(day)
        self.lengths(day, paid, over)
        for name, given, wanted in at_limits(100_000, 1_000_000, 10_000):
            self.at_once(name, ["run"], given, wanted, 60)

    def streams(self, day):
        for name, source, sink, words, wanted in (("a directory", "/", None, ["run"], (4, b"")), ("a directory", "/", None, ["resume"], (4, b"")),
                                                  ("a full device", None, "/dev/full", ["run"], (5, b"")), ("a full device", "/", "/dev/full", ["runs"], (5, b""))):
            self.count += 1
            read, write = os.pipe()
            os.write(write, day)
            os.close(write)
            back, sent = os.pipe()
            files = [os.open(source, os.O_RDONLY) if source else os.dup(read), os.open(sink, os.O_WRONLY) if sink else os.dup(sent)]
            number = os.posix_spawn(self.program, [self.program, *words], {}, file_actions=[(os.POSIX_SPAWN_DUP2, file, at) for at, file in enumerate(files)])
            for file in [read, sent, *files]:
                os.close(file)
            status = os.waitstatus_to_exitcode(os.waitpid(number, 0)[1])
            self.must("%s, %s" % (name, words), (status, os.read(back, 4096)), wanted)
            os.close(back)

        # Room for the greatest day is taken before a byte is read: with 64 MiB of addresses there is none.
        self.count += 1
        with tempfile.TemporaryFile() as source, tempfile.TemporaryFile() as sink:
            os.pwrite(source.fileno(), day, 0)
            ends = [(os.POSIX_SPAWN_DUP2, source.fileno(), 0), (os.POSIX_SPAWN_DUP2, sink.fileno(), 1), (os.POSIX_SPAWN_DUP2, self.runs.nowhere, 2)]
            number = os.posix_spawn("/bin/sh", ["sh", "-c", 'ulimit -v 65536; exec "$0" run', self.program], {}, file_actions=ends)
            status = os.waitstatus_to_exitcode(os.waitpid(number, 0)[1])
            self.must("little memory", (status, os.pread(sink.fileno(), 4096, 0)), (1, b""))
            if os.lseek(source.fileno(), 0, os.SEEK_CUR):
                self.wrong.append("little memory: something was read")

        def reader_leaves(session):
            session.send(day[:-4])
            session.wait()
            os.close(session.back)
            session.back = None
            os.write(session.to, b"TIM;09:00:00\n")
            while not select.select([session.ended], [], [], 0.01)[0]:
                if used_by(session.number) > SECONDS:
                    raise Wrong("hangs where its reader has left")
            if session.reap() != 5:
                raise Wrong("status %s where its reader has left, and not 5" % session.status)

        self.session("a reader that leaves", ["run"], reader_leaves)

    def lengths(self, day, paid, over):
        """As many bytes as may come, and one more: line ends between the records and what ends them."""
        cut = day[:-4]

        def filled(text, size, end=b""):
            return text + b"\n" * (size - len(text) - len(end)) + end

        longest = live.LONGEST
        self.at_once("the longest input, without END", ["run"], filled(cut, longest), (3, paid + b"E;7;CUT\n"), 60)
        self.at_once("an input that is too long", ["run"], filled(cut, longest + 1), (7, paid + b"E;0;SIZE\n"), 60)
        self.at_once("the longest input", ["run"], filled(cut, longest, b"END"), (0, paid + over), 60)
        self.at_once("END is a byte too late", ["run"], filled(cut, longest + 1, b"END\n"), (7, paid + b"E;0;SIZE\n"), 60)
        head = b"RECORDS;%d\n" % longest
        written = b"OUTPUT;%d\n" % len(paid) + paid
        self.at_once("as much as may have been read", ["resume"], head + filled(cut, longest, b"\nEN") + written + b"D", (7, b"E;0;SIZE\n"), 60)
        self.at_once("as much as may have been read, and no more", ["resume"], head + filled(cut, longest, b"\nEND") + written, (0, over), 60)


def at_limits(messages, entries, of_batch):
    """Days of version 1 that pass its limits: what is past one is refused, and what was refused counts for none. With what is told."""
    head, accounts = b"DAY;2025-06-02\n", b"ACC;X1;DCA;BANKA;;100.00\nACC;Y1;DCA;BANKB;;0.00\n"

    def told(lines):
        return (0, "".join(line + "\n" for line in lines).encode())

    # One payment again and again, behind the first of which five are bad.
    payment = b"PAY;BANKA;P1;N;X1;Y1;60.00\n"
    given = head + accounts + payment + payment.replace(b"P1", b"P_1") * 5 + payment * (messages + 1) + b"END\n"
    lines = live.PAID.decode().split("|")[:-1] + ["R;%d;ID" % record for record in range(5, 10)]
    for n in range(2, messages + 1):
        lines += ["J;%d;IN;%d;0;DU;0" % (n + 1, n), "S;%d;BANKA;DUPL;%d;BANKA;P1;0;DU" % (n + 1, n)]
    lines += ["R;%d;LIMIT" % (messages + 9), "R;%d;LIMIT" % (messages + 10), "J;%d;TIME;0;86400;OK;0" % (messages + 2), "J;%d;END;0;0;OK;0" % (messages + 3)]
    yield "more messages than there may be", given, told(lines + ["B;X1;40.00", "B;Y1;60.00", "OK;%d" % (messages + 3)])
    # Batches whose sum is wrong, behind the first of which one is refused by its last entry; and one more.
    head += b"AS;CH1;E\n" + accounts
    count = entries // of_batch

    def batch(name, last=b"ENT;X1;Y1;0.01\n"):
        return b"BAT;CH1;%b;E;;;%d;0.00\n" % (name, of_batch) + b"ENT;X1;Y1;0.01\n" * (of_batch - 1) + last

    given = head + batch(b"B1") + batch(b"BAD", b"ENT;X1;Y1;0.1\n") + b"".join(batch(b"B%d" % n) for n in range(2, count + 2)) + b"END\n"
    lines = []
    for n in range(1, count + 1):
        lines += ["J;%d;IN;%d;0;SM;0" % (n, n), "S;%d;CH1;RJCT;%d;CH1;B%d;0;SM" % (n, n, n)] + ["R;%d;AMOUNT" % (4 + 2 * (of_batch + 1))] * (n == 1)
    lines += ["R;%d;LIMIT" % (4 + (count + 1) * (of_batch + 1) + 2), "J;%d;TIME;0;86400;OK;0" % (count + 1), "J;%d;END;0;0;OK;0" % (count + 2)]
    yield "more entries than there may be", given, told(lines + ["B;X1;100.00", "B;Y1;0.00", "OK;%d" % (count + 2)])
    given = head + b"BAT;CH1;B1;E;;;%d;1.00\n" % (of_batch + 1) + b"ENT;X1;Y1;0.01\n" * (of_batch + 1) + b"END\n"
    lines = ["R;%d;LIMIT" % (4 + of_batch + 2), "J;1;TIME;0;86400;OK;0", "J;2;END;0;0;OK;0", "B;X1;100.00", "B;Y1;0.00", "OK;2"]
    yield "a batch of more entries than there may be", given, told(lines)


def inputs(count):
    """Name, bytes, what has to come (or None: ask the second machine), and the sort of each."""
    made = [(name, live.input_of(given), (status, live.lines_of(wanted)), "row") for name, status, given, wanted in live.ROWS]
    # The same behind a byte order mark, and with other line ends, which stand in no quotes there.
    for name, given, wanted, _ in [made[0], made[2], made[6]]:
        for what, other in (("a byte order mark", b"\xef\xbb\xbf" + given), ("CR", given.replace(b"\n", b"\r")), ("CR LF", given.replace(b"\n", b"\r\n"))):
            made.append((name + ", with " + what, other, wanted, "row"))
    for folder, sort in (("examples", "example"), ("examples/refusals", "refused")):
        for day in sorted(os.listdir(folder)):
            if day.endswith((".day", ".live")):
                told = folder + "/" + day[:-4] + "told"
                made.append((folder + "/" + day, file_of(folder + "/" + day), (0, file_of(told)) if day.endswith(".live") else None, sort))
    return made + [("input %d" % number, live.made(number), None, "made") for number in range(count)]


def try_inputs(at):
    program, count, jobs, job = at
    trying = Trying(program)
    if job == 0:
        trying.edges()
    for one in inputs(count)[job::jobs]:
        trying.input(*one)
    return trying.count, trying.wrong


def main(words):
    jobs, count = 1, 100
    while words and "=" in words[0]:
        name, _, value = words.pop(0).partition("=")
        jobs, count = int(value) if name == "jobs" else jobs, int(value) if name == "inputs" else count
    if len(words) != 1:
        print(__doc__)
        return 2
    with concurrent.futures.ProcessPoolExecutor(jobs) as pool:
        done = list(pool.map(try_inputs, [(words[0], count, jobs, job) for job in range(jobs)]))
    wrong = [line for _, lines in done for line in lines]
    for line in wrong[:20]:
        print(line)
    print("%d runs over %d inputs of a live day, %d failed" % (sum(runs for runs, _ in done), len(inputs(count)), len(wrong)))
    return 1 if wrong else 0


if __name__ == "__main__":
    sys.exit(main(sys.argv[1:]))
