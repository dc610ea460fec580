#!/usr/bin/env python3
"""Texts in and texts out, tried on a program.

    texts.py cases PROGRAM FILE..   the cases of these files
    texts.py writes PROGRAM         that a long output takes few writes, by rtgs

In a file, cases stand apart by an empty line. A case is

- lines `# ..`, which say what it shows;
- `> WORDS`, the words of the command line, where a word may stand in quotes as in a shell; `>/ WORDS`: standard input is a folder, so
  that the first read fails; `>> WORDS`: before the lines below the program reads what it read in the last case with `>`, and then what
  was written in the case above; `>J WORDS`: the same, but of what was written its journal alone, the lines `J;..` and `M;..`;
- what the program is to read;
- `< STATUS`, and behind a space how what has to be written stands to what is: nothing, where it is the same; `end`, where this ends so;
  `front`, where it begins so; `part`, where it stands in it; `any`, where it doesn't matter; `room`, where the output is a file that has
  room for just so many bytes;
- what has to be written.

In what is read and written `\\xNN` is a byte, `\\r` a carriage return, and a `\\` at the end of a line says that no line end is there.
One line tells of each case that goes wrong; the last is 'N passed, M failed'.
"""
import os
import re
import resource
import shlex
import signal
import socket
import subprocess
import sys
import tempfile

SECONDS = 120
ENDED = re.compile(r"< ([0-9]+)(?: (end|front|part|any|room))?$")

# How many bytes an output gathers before it is written.
PIECE = 16384


class Case:
    def __init__(self, place):
        self.place, self.about, self.mark, self.words, self.given, self.status, self.how, self.text = place, [], None, None, b"", None, None, b""


def bytes_of(line):
    """The bytes of a line."""
    is_open = line.endswith("\\")
    line = re.sub(r"\\x([0-9a-f]{2})|\\r", lambda found: chr(int(found[1], 16)) if found[1] else "\r", line[:-1] if is_open else line)
    return line.encode("latin-1") + (b"" if is_open else b"\n")


def cases_of(path):
    cases, case = [], None
    with open(path, encoding="ascii") as file:
        for number, line in enumerate(file.read().split("\n"), 1):
            ended = ENDED.match(line) if case and case.mark and case.status is None else None
            if case is None or case.mark is None:
                case = case or Case("%s:%d" % (path, number))
                if line.startswith("#"):
                    case.about.append(line[1:].strip())
                elif line.startswith(">"):
                    case.mark, words = re.match(r"(>[>J/]?)(?: (.*))?$", line).groups()
                    case.words, case.place = shlex.split(words or ""), "%s:%d" % (path, number)
                elif line == "":
                    case = None
                else:
                    raise SystemExit("%s:%d: no line before a case" % (path, number))
            elif ended:
                case.status, case.how = int(ended[1]), ended[2]
            elif case.status is None:
                case.given += bytes_of(line)
            elif line == "":
                cases.append(case)
                case = None
            else:
                case.text += bytes_of(line)
    if case is not None:
        raise SystemExit("%s: the last case has no end" % path)
    return cases


def run(program, words, given, room=None):
    """The status and what was written; the input is a folder where none is given."""
    def begin():
        # Where there is no room, a write takes less, and the next one fails.
        signal.signal(signal.SIGXFSZ, signal.SIG_IGN)
        if room is not None:
            resource.setrlimit(resource.RLIMIT_FSIZE, (room, room))

    with tempfile.TemporaryFile() as sink, tempfile.TemporaryFile() as file:
        if given is None:
            source = os.open("/", os.O_RDONLY)
        else:
            file.write(given)
            file.flush()
            file.seek(0)
            source = os.dup(file.fileno())
        done = subprocess.run([program, *words], stdin=source, stdout=sink, stderr=subprocess.DEVNULL, preexec_fn=begin, restore_signals=False, timeout=SECONDS, check=False)
        os.close(source)
        sink.seek(0)
        return done.returncode, sink.read()


def is_right(case, status, written):
    if status != case.status:
        return False
    if case.how == "end":
        return written.endswith(case.text)
    if case.how == "front":
        return written.startswith(case.text)
    if case.how == "part":
        return case.text in written
    return case.how == "any" or written == case.text


def try_cases(program, cases):
    before = above = b""
    wrong = []
    for case in cases:
        given = case.given
        if case.mark == ">>":
            given = before + above + given
        elif case.mark == ">J":
            given = before + b"".join(line for line in above.splitlines(True) if line[:2] in (b"J;", b"M;")) + given
        status, written = run(program, case.words, None if case.mark == ">/" else given, len(case.text) if case.how == "room" else None)
        if case.mark == ">":
            before = given
        above = written
        if not is_right(case, status, written):
            wrong.append("%s: > %s: status %d and %r, and not %d and %s %r" % (case.place, shlex.join(case.words), status, written[-400:], case.status, case.how or "just", case.text[-400:]))
    return wrong


def pieces_of(program, words, given):
    """The status, and each piece that was written at once: standard output is a socket that keeps them apart."""
    here, there = socket.socketpair(socket.AF_UNIX, socket.SOCK_SEQPACKET)
    with tempfile.TemporaryFile() as file, here:
        file.write(given)
        file.flush()
        file.seek(0)
        with subprocess.Popen([program, *words], stdin=file, stdout=there, stderr=subprocess.DEVNULL) as running:
            there.close()
            pieces = []
            while piece := here.recv(1 << 20):
                pieces.append(piece)
            return running.wait(SECONDS), pieces


def try_writes(program):
    """300 payments: each write but the last takes as much as is gathered, so there are few."""
    given = b"DAY;2025-06-02\nACC;X1;DCA;BANKA;;1000.00\nACC;Y1;DCA;BANKB;;0.00\n"
    given += b"".join(b"PAY;BANKA;P%d;N;X1;Y1;1.00\n" % number for number in range(300)) + b"END\n"
    status, pieces = pieces_of(program, ["settle", "--workers", "0"], given)
    size = sum(map(len, pieces))
    if status == 0 and len(pieces) == -(-size // PIECE) < 10 and all(len(piece) == PIECE for piece in pieces[:-1]) and pieces[-1].endswith(b"\nOK;602\n"):
        return []
    return ["300 payments: status %d, and %d writes of %d bytes" % (status, len(pieces), size)]


def main(words):
    if len(words) < 2 or words[0] not in ("cases", "writes"):
        print(__doc__)
        return 2
    program = os.path.abspath(words[1])
    if words[0] == "writes":
        count, wrong = 1, try_writes(program)
    else:
        files = [cases_of(path) for path in words[2:]]
        count, wrong = sum(map(len, files)), [line for cases in files for line in try_cases(program, cases)]
    for line in wrong:
        print(line)
    print("%d passed, %d failed" % (count - len(wrong), len(wrong)))
    return 1 if wrong else 0


if __name__ == "__main__":
    sys.exit(main(sys.argv[1:]))
