#!/usr/bin/env python3
"""Tries `party_gate out` of one build: rows by reasoning, pieces of every size, a line at a time, writes one by one, and what fails.

    out.py PROGRAM    a line for each thing that was tried, 'ok NAME' or 'FAILED NAME: WHY'; status 1 where one failed
"""

import os
import random
import resource
import select
import subprocess
import sys
import tempfile

PROGRAM = os.path.abspath(sys.argv[1])
USAGE = b"usage: party_gate out NAME\n"
LONGEST = 4096
failed = 0


def tell(name, why=""):
    global failed
    if why:
        failed += 1
    print(f"FAILED {name}: {why}" if why else f"ok {name}", flush=True)


def run(words, given):
    done = subprocess.run([PROGRAM, *words], input=given, stdout=subprocess.PIPE, stderr=subprocess.PIPE, timeout=120)
    return done.returncode, done.stdout, done.stderr


def check(name, words, given, status, wanted):
    ended, told, said = run(words, given)
    if ended != status:
        tell(name, f"status {ended}, and not {status}")
    elif told != wanted:
        tell(name, f"told {told[:200]!r}, and not {wanted[:200]!r}")
    elif said:
        tell(name, f"said {said[:200]!r}")
    else:
        tell(name)


# ---- a second filter, which cuts the whole text into fields

def filtered(name, text):
    """The status, and what a party of this name is told."""
    told = b""
    while True:
        line, feed, rest = text.partition(b"\n")
        if not feed:
            fields = line[:LONGEST].split(b";")
            return (7 if len(line) >= LONGEST and whose(name, fields) else 0), told
        mine = whose(name, line[:LONGEST].split(b";") if len(line) >= LONGEST else line.split(b";"))
        if mine and len(line) >= LONGEST:
            return 7, told
        if mine:
            told += line + feed
        if mine == "last":
            return 0, told
        text = rest


def whose(name, fields):
    if len(fields) >= 2 and fields[0] in (b"OK", b"E"):
        return "last"
    if len(fields) >= 4 and fields[0] == b"S" and fields[2] == name:
        return "own"
    return ""


# ---- rows: what is told, whose gate it is, the status, and what is passed on

DAY = (
    b"J;1;IN;1;0;OK;0\nS;1;BANKA;ACPT;1;BANKA;P1;0;OK\nJ;2;BOOK;1;0;OK;1\nM;1;2;60.00\nS;2;BANKA;DBIT;X1;60.00\nS;2;BANKB;CRDT;Y1;60.00\n"
    b"S;2;BANKA;SETL;1;BANKA;P1;0;OK\nR;7;ID\nJ;3;TIME;0;86400;OK;0\nJ;4;END;0;0;OK;0\nB;X1;40.00\nB;Y1;60.00\nB;TA;0.00\nOK;4\n"
)
A = b"S;1;BANKA;ACPT;1;BANKA;P1;0;OK\nS;2;BANKA;DBIT;X1;60.00\nS;2;BANKA;SETL;1;BANKA;P1;0;OK\nOK;4\n"
B = b"S;2;BANKB;CRDT;Y1;60.00\nOK;4\n"
OWN = b"S;1;A;"
LAST_LONG = b"OK;" + b"9" * (LONGEST - 4)
ROWS = [
    ("the sender of a payment", "BANKA", DAY, 0, A),
    ("who is paid", "BANKB", DAY, 0, B),
    ("a party that isn't told of anything but the end", "CH1", DAY, 0, b"OK;4\n"),
    ("a name that begins like another", "BANK", DAY, 0, b"OK;4\n"),
    ("a name that goes on where another ends", "BANKAB", DAY, 0, b"OK;4\n"),
    ("a name in another field", "P1", DAY, 0, b"OK;4\n"),
    ("a name that is a kind", "S", b"S;1;S;ACPT\nS;1;A;ACPT\nOK;1\n", 0, b"S;1;S;ACPT\nOK;1\n"),
    ("a name that is the last line's", "OK", b"S;1;OK;ACPT\nS;1;E;ACPT\nOK;1\nOK;2\n", 0, b"S;1;OK;ACPT\nOK;1\n"),
    ("a refusal ends it", "BANKA", b"S;1;BANKA;ACPT\nE;8;CUT\nS;2;BANKA;SETL\n", 0, b"S;1;BANKA;ACPT\nE;8;CUT\n"),
    ("nothing behind the last line", "BANKA", b"OK;1\n" + DAY, 0, b"OK;1\n"),
    ("no last line", "BANKB", DAY[:-5], 0, b"S;2;BANKB;CRDT;Y1;60.00\n"),
    ("a line without its line feed", "BANKB", b"S;1;BANKB;ACPT\nS;2;BANKB;SETL", 0, b"S;1;BANKB;ACPT\n"),
    ("a last line without its line feed", "BANKB", b"S;1;BANKB;ACPT\nOK;1", 0, b"S;1;BANKB;ACPT\n"),
    ("nothing is told", "BANKB", b"", 0, b""),
    ("empty lines", "BANKB", b"\n\n\nS;1;BANKB;ACPT\n\nOK;1\n", 0, b"S;1;BANKB;ACPT\nOK;1\n"),
    ("a name without a field behind it", "BANKB", b"S;1;BANKB\nS;1;BANKB;\nOK;1\n", 0, b"S;1;BANKB;\nOK;1\n"),
    ("other kinds with the name", "BANKB", b"J;1;BANKB;x\nM;1;BANKB;x\nR;1;BANKB;x\nB;1;BANKB;x\n;1;BANKB;x\nSS;1;BANKB;x\nOK;1\n", 0, b"OK;1\n"),
    ("a name in another case", "BANKB", b"S;1;bankb;x\nS;1;Bankb;x\ns;1;BANKB;x\nOK;1\n", 0, b"OK;1\n"),
    ("words that are no last line", "BANKB", b"OK\nOKAY;1\nE\nEE;1\n;OK;1\n OK;1\nok;1\nS;1;BANKB;x\n", 0, b"S;1;BANKB;x\n"),
    ("a carriage return is part of its line", "BANKB", b"S;1;BANKB;x\r\nS;1;BANKB\r;x\nOK;1\r\n", 0, b"S;1;BANKB;x\r\nOK;1\r\n"),
    ("any bytes", "BANKB", b"\x00\xff\xfe\nS;\x00\xff;BANKB;\x80\x00\nOK;1\n", 0, b"S;\x00\xff;BANKB;\x80\x00\nOK;1\n"),
    ("the longest line", "A", OWN + b"x" * (LONGEST - 7) + b"\nOK;1\n", 0, OWN + b"x" * (LONGEST - 7) + b"\nOK;1\n"),
    ("a line one byte longer", "A", b"S;1;A;y\n" + OWN + b"x" * (LONGEST - 6) + b"\nOK;1\n", 7, b"S;1;A;y\n"),
    ("a line that is longer and never ends", "A", b"S;1;A;y\n" + OWN + b"x" * LONGEST, 7, b"S;1;A;y\n"),
    ("a line that could still end in time", "A", b"S;1;A;y\n" + OWN + b"x" * (LONGEST - 7), 0, b"S;1;A;y\n"),
    ("the longest last line", "A", LAST_LONG + b"\nS;1;A;y\n", 0, LAST_LONG + b"\n"),
    ("a last line one byte longer", "A", LAST_LONG + b"9\nS;1;A;y\n", 7, b""),
    ("another's line may be of any length", "A", b"S;1;B;" + b"x" * 9_000_000 + b"\nS;1;A;y\nOK;1\n", 0, b"S;1;A;y\nOK;1\n"),
    ("a name behind the first 4,096 bytes", "A", b"S;" + b"1" * 4100 + b";A;y\nS;1;A;y\nOK;1\n", 0, b"S;1;A;y\nOK;1\n"),
    ("the longest name", "Z" * 34, b"S;1;" + b"Z" * 34 + b";x\nS;1;" + b"Z" * 33 + b";x\nOK;1\n", 0, b"S;1;" + b"Z" * 34 + b";x\nOK;1\n"),
]


def rows():
    for name, party, given, status, wanted in ROWS:
        if filtered(party.encode(), given) != (status, wanted):
            tell(f"row, {name}", f"the second filter says {filtered(party.encode(), given)!r}"[:300])
        else:
            check(f"row, {name}", ["out", party], given, status, wanted)
    for words in ([], ["out"], ["out", ""], ["out", "banka"], ["out", "BANK A"], ["out", "BANK-A"], ["out", "A", "B"], ["OUT", "A"], ["A", "out"], ["out", "Z" * 35], ["out", "\u00c4"], ["--help"], ["in"]):
        check(f"words {words!r}", words, DAY, 2, USAGE)
    check("words that are no text", ["out", os.fsdecode(b"A\xff")], DAY, 2, USAGE)


# ---- at random, held against the second filter

def made_at_random(chance):
    names = [b"A", b"AB", b"B", b"S", b"OK", b""]
    kinds = [b"S", b"S", b"S", b"J", b"OK", b"E", b"", b"SS"]
    lines = []
    for _ in range(chance.randrange(1, 30)):
        fields = [chance.choice(kinds if chance.random() < 0.9 else names)]
        fields += [chance.choice(names + [b"1", b"22"]) for _ in range(chance.randrange(0, 5))]
        if fields[0] in (b"OK", b"E") and chance.random() < 0.8:
            fields[0] = b"S"
        if chance.random() < 0.05:
            fields.append(b"x" * chance.choice([LONGEST - 20, LONGEST - 8, LONGEST - 7, LONGEST - 6, LONGEST, 3 * LONGEST]))
        lines.append(b";".join(fields))
    return b"\n".join(lines) + (b"\n" if chance.random() < 0.8 else b"")


def at_random(count):
    chance = random.Random(20250602)
    for number in range(count):
        given = made_at_random(chance)
        party = chance.choice(["A", "AB", "B", "S", "OK"])
        ended, told, _ = run(["out", party], given)
        if (ended, told) != filtered(party.encode(), given):
            tell("at random", f"number {number}, party {party}, {given[:400]!r}: {ended}, {told[:200]!r}")
            return
    tell(f"{count} at random")


# ---- while it comes

def follow(words):
    return subprocess.Popen([PROGRAM, *words], stdin=subprocess.PIPE, stdout=subprocess.PIPE, bufsize=0)


def is_told(pipe, wanted, seconds=10):
    """Whether exactly these bytes come, and for a moment no others."""
    got = b""
    while len(got) < len(wanted):
        if not select.select([pipe], [], [], seconds)[0]:
            return False
        piece = os.read(pipe.fileno(), 65536)
        if not piece:
            return False
        got += piece
    # (at its end a pipe can be read, and gives nothing)
    return got == wanted and not (select.select([pipe], [], [], 0.01)[0] and os.read(pipe.fileno(), 1))


def promptly():
    program = follow(["out", "BANKA"])
    why = ""
    for line in DAY.splitlines(True):
        program.stdin.write(line)
        wanted = line if line in A.splitlines(True) else b""
        if not is_told(program.stdout, wanted):
            why = f"{line!r} isn't told before more comes"
            break
    if not why:
        # the last line has come: it ends while what it reads is open
        try:
            if program.wait(10) != 0:
                why = f"status {program.returncode}"
        except subprocess.TimeoutExpired:
            why = "it waits for more behind the last line"
    program.kill()
    program.wait()
    tell("each line before more is asked for", why)


def in_pieces():
    for size in (1, 2, 7, 4095, 4096, 4097, 16384):
        program = follow(["out", "BANKA"])
        given = DAY[:-5] * 40 + DAY
        for at in range(0, min(len(given), 20000 if size > 7 else 2 * len(DAY)), size):
            program.stdin.write(given[at:at + size])
        program.stdin.close()
        told = program.stdout.read()
        fed = given[:((min(len(given), 20000 if size > 7 else 2 * len(DAY)) + size - 1) // size) * size]
        tell(f"in pieces of {size}", "" if (program.wait(), told) == filtered(b"BANKA", fed) else "other bytes")


def in_whole_lines():
    """What is written at once: a pipe that keeps writes apart tells them one by one."""
    ours, its = os.pipe2(os.O_DIRECT)
    given = b"".join(b"S;%d;A;%s\n" % (i, b"x" * (i % 200)) for i in range(3000)) + OWN + b"y" * (LONGEST - 7) + b"\nOK;1\n"
    program = subprocess.Popen([PROGRAM, "out", "A"], stdin=subprocess.PIPE, stdout=its)
    os.close(its)
    feeder = os.fork()
    if not feeder:
        program.stdin.write(given)
        program.stdin.close()
        os._exit(0)
    program.stdin.close()
    writes = []
    while True:
        piece = os.read(ours, 65536)
        if not piece:
            break
        writes.append(piece)
    os.waitpid(feeder, 0)
    why = "" if program.wait() == 0 and b"".join(writes) == given else "other bytes"
    for piece in writes:
        if len(piece) > LONGEST or not piece.endswith(b"\n"):
            why = why or f"a write of {len(piece)} bytes ends in {piece[-20:]!r}"
    tell(f"{len(writes)} writes of whole lines", why)


# ---- what fails

def failures():
    with open("/dev/full", "wb") as full:
        done = subprocess.run([PROGRAM, "out", "BANKA"], input=DAY, stdout=full, timeout=60)
        tell("an output that is full", "" if done.returncode == 5 else f"status {done.returncode}")
        done = subprocess.run([PROGRAM, "out", "CH1"], input=DAY[:-5], stdout=full, timeout=60)
        tell("an output that is full and isn't needed", "" if done.returncode == 0 else f"status {done.returncode}")
        done = subprocess.run([PROGRAM], input=b"", stdout=full, timeout=60)
        tell("an output that is full, other words", "" if done.returncode == 5 else f"status {done.returncode}")
    folder = os.open("/", os.O_RDONLY)
    done = subprocess.run([PROGRAM, "out", "BANKA"], stdin=folder, stdout=subprocess.PIPE, timeout=60)
    tell("an input that can't be read", "" if (done.returncode, done.stdout) == (4, b"") else f"status {done.returncode}")
    done = subprocess.run([PROGRAM, "out", "banka"], stdin=folder, stdout=subprocess.PIPE, timeout=60)
    tell("an input that can't be read, other words", "" if (done.returncode, done.stdout) == (2, USAGE) else f"status {done.returncode}")
    os.close(folder)
    with tempfile.TemporaryFile() as told:
        def small():
            resource.setrlimit(resource.RLIMIT_FSIZE, (40, 40))
        import signal
        done = subprocess.run([PROGRAM, "out", "BANKA"], input=DAY, stdout=told, timeout=60, preexec_fn=lambda: (signal.signal(signal.SIGXFSZ, signal.SIG_IGN), small()))
        told.seek(0)
        wrote = told.read()
        tell("an output that fills up", "" if done.returncode == 5 and A.startswith(wrote) and len(wrote) == 40 else f"status {done.returncode}, {wrote!r}")


rows()
at_random(400)
promptly()
in_pieces()
in_whole_lines()
failures()
sys.exit(1 if failed else 0)
