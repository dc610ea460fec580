#!/usr/bin/env python3
"""A live day that is kept on a file, judged by a reader of such files and by the second machine (live_machine.py).

    tests/kept/kept.py [ends=N] LIVE_DAY

- Worked files, whose digests another program computed, as they stand in docs/live.md.
- One of them with each of its bytes changed, and cut at each place: what 'show', 'count' and 'keep' say of it.
- Files that are a folder, a FIFO, absent, locked by another program; a full disk; words that are none.
- Behind a library in front of the C library (lossy.c): ended at each call on the file, with what a crash may leave of what wasn't synced;
  and each of these calls fails. It goes on from what is left.
- Days that are ended hard at so many random moments (200 where none is said) and go on: what was told is at each end a front of what the
  kept text calls for, and what is told in all is what 'run' tells.

The last line is 'N runs over days that are kept, K failed'.
"""
import fcntl
import hashlib
import os
import random
import signal
import subprocess
import sys
import tempfile
import time

sys.dont_write_bytecode = True
HERE = os.path.dirname(os.path.abspath(__file__))
sys.path.insert(0, os.path.join(HERE, "..", "machines"))
sys.path.insert(0, os.path.join(HERE, "..", "..", ".ci"))
import live_machine as live

HEADER = b"GAURVISK KEPT 1\n"
USAGE = b"usage: live_day run | resume | keep FILE [BYTES] | count FILE | show FILE\n"
SETUP = b"DAY;2025-06-02\nACC;X1;DCA;BANKA;;100.00\nACC;Y1;DCA;BANKB;;0.00\n"
PAYMENT = b"PAY;BANKA;P1;N;X1;Y1;60.00\n"
PAID = (b"J;1;IN;1;0;OK;0\nS;1;BANKA;ACPT;1;BANKA;P1;0;OK\nJ;2;BOOK;1;0;OK;1\nM;1;2;60.00\nS;2;BANKA;DBIT;X1;60.00\n"
        b"S;2;BANKB;CRDT;Y1;60.00\nS;2;BANKA;SETL;1;BANKA;P1;0;OK\n")
DIGESTS = ("0b66e6102820781a6c8552580626ff6e3e244d23fe9d77fddc8ec12fb421372f",
           "9edc8530aaff60445f1a06754a89b773188a41c8d3cfe43b95d1adf45a222c6d",
           "7c0d8ebae4b991d1d100fec61404e2f14f26968d561ec3de6cbc22979c63290b")

runs = failed = 0


def judge(name, is_right, why=""):
    global runs, failed
    runs += 1
    if not is_right:
        failed += 1
        print(f"{name}: {why}")


def file_of(pieces, gate=b"\0"):
    """A file of these pieces, behind open gates, and the gate after them."""
    before, made = hashlib.sha256(HEADER).digest(), HEADER
    for piece in pieces:
        before = hashlib.sha256(before + piece).digest()
        made += b"\1" + len(piece).to_bytes(4, "big") + before + piece
    return made + gate


def found(data):
    """The text of a file, its digest, and how many frames it has; or the frame that makes it foreign."""
    if data[:16] != HEADER or len(data) < 17:
        return None, 0
    at, before, text, frames = 16, hashlib.sha256(HEADER).digest(), b"", 0
    while data[at] == 1:
        frames += 1
        count = int.from_bytes(data[at + 1:at + 5], "big")
        piece = data[at + 37:at + 37 + count]
        if not 1 <= count <= 16384 or len(data) < at + 38 + count or hashlib.sha256(before + piece).digest() != data[at + 5:at + 37]:
            return None, frames
        before, text, at = data[at + 5:at + 37], text + piece, at + 37 + count
    return text, before.hex()


def called_for(text):
    """What a day that is kept tells of its whole input, and the status: of one that ends without END nothing more is told."""
    heard = live.Heard(text, False)
    return live.live_text(text) if heard.is_broken or heard.is_cut else (3, live.told(text))


class Files:
    def __init__(self, program, room):
        self.program, self.room = program, room
        self.path = os.path.join(room, "day.kept")

    def put(self, data):
        with open(self.path, "wb") as file:
            file.write(data)

    def data(self):
        with open(self.path, "rb") as file:
            return file.read()

    def run(self, *words, given=b""):
        ended = subprocess.run([self.program, *words], input=given, capture_output=True, timeout=120)
        return ended.returncode, ended.stdout, ended.stderr

    def check(self, name, wanted, *words, given=b""):
        had = self.run(*words, given=given)
        judge(name, had == wanted, f"{words}: {had}, and not {wanted}")


def worked(files):
    path = files.path
    rows = ((file_of([]), b"", DIGESTS[0], b""), (file_of([SETUP, PAYMENT]), SETUP + PAYMENT, DIGESTS[2], PAID))
    for data, text, digest, told in rows:
        files.put(data)
        files.check("worked file", (3, told, b""), "keep", path)
        files.check("its text", (0, text, b""), "show", path)
        files.check("its digest", (0, f"KEPT;{len(text)};{digest}\n".encode(), b""), "count", path)
        files.check("told again but for its front", (3, told[20:], b""), "keep", path, "20" if told else "0")
        judge("it stays", files.data() == data)
    whole = file_of([SETUP, PAYMENT])
    judge("its size", len(whole) == 181)
    torn = whole[:116] + b"\0" + whole[117:]
    files.put(torn)
    files.check("a crash before the second gate", (3, b"", b""), "keep", path)
    files.put(torn)
    files.check("its digest", (0, f"KEPT;63;{DIGESTS[1]}\n".encode(), b""), "count", path)
    files.check("the payment once more", (3, PAID, b""), "keep", path, given=PAYMENT)
    judge("the same file again", files.data() == whole)
    files.put(whole[:58] + b"x" + whole[59:])
    files.check("another byte in the first frame", (9, b"", b"FOREIGN;1\n"), "keep", path)
    files.put(whole)
    for bytes_told in (len(PAID) + 1, 2**63 - 1):
        files.check("more was told than it calls for", (6, b"", f"SHORT;{len(PAID)}\n".encode()), "keep", path, str(bytes_told))
    files.check("what was told whole", (3, b"", b""), "keep", path, str(len(PAID)))
    files.check("its end", (0, live.live_text(SETUP + PAYMENT + b"END\n")[1][len(PAID):], b""), "keep", path, str(len(PAID)), given=b"END\nX")
    ended = files.data()
    files.check("a day that is complete is told again", (0, live.live_text(SETUP + PAYMENT + b"END\n")[1], b""), "keep", path, given=b"PAY")
    judge("and it is never written again", files.data() == ended)


def spoilt(files):
    """Each byte another one, and each front: by a second reader."""
    whole = file_of([SETUP, PAYMENT], gate=b"\0" + b"what stands behind")
    changed = [whole[:i] + bytes([whole[i] ^ bit]) + whole[i + 1:] for i in range(len(whole)) for bit in (1, 0x80)]
    for data in changed + [whole[:n] for n in range(1, len(whole))]:
        text, said = found(data)
        files.put(data)
        if text is None:
            wanted = 9, b"", f"FOREIGN;{said}\n".encode()
            files.check("a foreign file", wanted, "show", files.path)
            files.check("a foreign file", wanted, "keep", files.path)
            judge("it stays", files.data() == data)
        else:
            files.check("a file with a text", (0, text, b""), "show", files.path)
            files.check("its digest", (0, f"KEPT;{len(text)};{said}\n".encode(), b""), "count", files.path)


def others(files):
    path = files.path
    for words in (("keep",), ("keep", path, "01"), ("keep", path, "-1"), ("keep", path, ""), ("keep", path, str(2**63)), ("keep", path, "1", "2"),
                  ("count",), ("count", path, "1"), ("show",)):
        files.check("wrong words", (2, b"", USAGE), *words)
    for words in ((), ("other", path), ("run", path), ("keeps", path)):
        files.check("other words", (2, USAGE, b""), *words)
    absent = os.path.join(files.room, "absent")
    for word in ("count", "show"):
        files.check("an absent file", (8, b"", b""), word, absent)
    judge("looking makes none", not os.path.exists(absent))
    for word in ("keep", "count", "show"):
        files.check("a folder", (8, b"", b""), word, files.room)
        files.check("a file in no folder", (8, b"", b""), word, os.path.join(absent, "day"))
    fifo = os.path.join(files.room, "fifo")
    os.mkfifo(fifo)
    for word in ("keep", "count", "show"):
        files.check("a FIFO", (8, b"", b""), word, fifo)
    files.put(b"")
    files.check("no bytes", (0, b"", b""), "show", path)
    files.check("no bytes", (0, f"KEPT;0;{DIGESTS[0]}\n".encode(), b""), "count", path)
    judge("they stay none", files.data() == b"")
    files.check("a new day", (3, b"", b""), "keep", path)
    judge("its header", files.data() == HEADER + b"\0")
    with open(path, "r+b") as file:
        fcntl.flock(file, fcntl.LOCK_EX)
        for word in ("keep", "count"):
            files.check("a file that another program has", (10, b"", b"BUSY\n"), word, path)
        files.check("looked at meanwhile", (0, b"", b""), "show", path)
    long = SETUP + b"".join(b"PAY;BANKA;P%d;N;X1;Y1;0.01\n" % n for n in range(3000))
    os.remove(path)
    files.check("a long day", (3, live.told(long), b""), "keep", path, given=long)
    judge("its text", found(files.data())[0] == long)
    judge("a bad record before the day began", files.run("keep", os.path.join(files.room, "bad"), given=SETUP + b"FOO\n") == (3, b"E;4;KIND\n", b""))


def full(files):
    """A disk of 64 KiB, where one can be made."""
    room = os.path.join(files.room, "full")
    os.mkdir(room)
    if subprocess.run(["mount", "-t", "tmpfs", "-o", "size=64k", "tmpfs", room], capture_output=True).returncode:
        print("no small disk can be made here")
        return
    try:
        path = os.path.join(room, "day")
        text = SETUP + b"".join(b"PAY;BANKA;P%d;N;X1;Y1;0.01\n" % n for n in range(5000))
        status, told, said = files.run("keep", path, given=text)
        kept = files.run("show", path)[1]
        judge("a full disk", status == 8 and said == b"" and told == live.told(kept) and text.startswith(kept) and kept != text, f"{status} {said}")
    finally:
        subprocess.run(["umount", room], check=True)


def lossy(files):
    """A disk that loses what wasn't synced, at each call; and calls that fail, one by one."""
    library = os.path.join(files.room, "lossy.so")
    made = subprocess.run(["gcc", "-O1", "-shared", "-fPIC", "-o", library, os.path.join(HERE, "lossy.c"), "-ldl"], capture_output=True)
    if made.returncode:
        print("no library can be made here")
        return
    text = SETUP + PAYMENT + b"FOO\n" + b"PAY;BANKA;P2;N;X1;Y1;30.00\nEND\n"
    cuts = (40, len(SETUP), len(SETUP) + 10, len(SETUP + PAYMENT) + 4)
    pieces = [text[a:b] for a, b in zip((0, *cuts), (*cuts, len(text)))]
    for seed in range(8):
        for word in ("LOSSY_KILL", "LOSSY_FAIL"):
            missed = 0
            for call in range(1, 40):
                reached = False
                for is_after in ((0, 1) if word == "LOSSY_KILL" else (0,)):
                    path = os.path.join(files.room, "lossy.kept")
                    if os.path.exists(path):
                        os.remove(path)
                    world = dict(os.environ, LD_PRELOAD=library, LOSSY_FILE=path, LOSSY_SEED=str(seed), LOSSY_AFTER=str(is_after or ""))
                    world[word] = str(call)
                    run = subprocess.Popen([files.program, "keep", path], stdin=subprocess.PIPE, stdout=subprocess.PIPE, stderr=subprocess.PIPE, env=world)
                    try:
                        for piece in pieces:
                            run.stdin.write(piece)
                            run.stdin.flush()
                            time.sleep(0.001)
                        run.stdin.close()
                    except BrokenPipeError:
                        pass
                    told, said = run.stdout.read(), run.stderr.read()
                    status = run.wait(timeout=60)
                    name = f"{word}={call} LOSSY_AFTER={is_after} LOSSY_SEED={seed}"
                    wanted = (-signal.SIGKILL, 0) if word == "LOSSY_KILL" else (8, 0)
                    judge(name, status in wanted and said == b"", f"status {status} {said}")
                    reached = reached or status != 0
                    data = open(path, "rb").read() if os.path.exists(path) else b""
                    kept = found(data)[0]
                    if kept is None:
                        # It was being made: shorter than any file with a frame.
                        judge(name, told == b"" and len(data) < 55, f"a foreign file of {len(data)} bytes, where {told} was told")
                        continue
                    judge(name, text.startswith(kept) and called_for(kept)[1].startswith(told), f"{told} was told, and {kept} is kept")
                    files.check(name, (0, called_for(text)[1][len(told):], b""), "keep", path, str(len(told)), given=text[len(kept):])
                # How many calls there are hangs on how the pieces come together.
                missed = 0 if reached else missed + 1
                if missed == 3:
                    break
            judge(f"{word} LOSSY_SEED={seed}", call > 6, "the library isn't in front of the calls on the file")


def sent_with_breaks(files, text, chance):
    """Sends a day in pieces to runs that are ended hard; gives how often, and what was told in all."""
    path, told, ends = os.path.join(files.room, f"broken{chance.random()}"), b"", 0
    for _ in range(1000):
        count = 0
        if os.path.exists(path):
            status, said, _ = files.run("count", path)
            if status == 0:
                count = int(said.split(b";")[1])
            elif os.path.getsize(path) < 17:
                os.remove(path)
            else:
                judge("a file after a crash", False, f"count: {status}")
        with tempfile.TemporaryFile() as out:
            run = subprocess.Popen([files.program, "keep", path, str(len(told))], stdin=subprocess.PIPE, stdout=out)
            try:
                at, wait = count, chance.random() * 0.02
                stop = time.monotonic() + chance.random() * 0.15
                while at < len(text) and time.monotonic() < stop:
                    size = chance.choice((1, 7, 40, 500, 5000))
                    run.stdin.write(text[at:at + size])
                    run.stdin.flush()
                    at += size
                    time.sleep(wait * chance.random())
                if at < len(text):
                    run.send_signal(signal.SIGKILL)
                else:
                    run.stdin.close()
            except BrokenPipeError:
                pass
            status = run.wait(timeout=60)
            out.seek(0)
            told += out.read()
        if status != -signal.SIGKILL:
            judge("a day that goes on", (status, told) == called_for(text), f"status {status}, {len(told)} bytes")
            return ends
        ends += 1
        if os.path.exists(path) and os.path.getsize(path) >= 17:
            kept = found(open(path, "rb").read())[0]
            judge("what was told is kept", kept is not None and text.startswith(kept) and live.told(kept).startswith(told), "a crash left another file")
    judge("a day that goes on", False, "it never ends")
    return ends


def broken(files, wanted):
    chance, ends, number = random.Random(1), 0, 0
    example = open(os.path.join(HERE, "..", "..", "examples", "arriving.live"), "rb").read()
    long = SETUP + b"".join(b"PAY;BANKA;P%d;N;X1;Y1;0.01\nFOO\n" % n for n in range(300)) + b"END\n"
    while ends < wanted:
        number += 1
        ends += sent_with_breaks(files, (example, long, live.made(number))[number % 3], chance)


def main():
    words = sys.argv[1:]
    wanted = 200
    if words and words[0].startswith("ends="):
        wanted = int(words.pop(0)[5:])
    program = os.path.abspath(words[0])
    with tempfile.TemporaryDirectory() as room:
        files = Files(program, room)
        worked(files)
        spoilt(files)
        others(files)
        full(files)
        lossy(files)
        broken(files, wanted)
    print(f"{runs} runs over days that are kept, {failed} failed")
    sys.exit(1 if failed else 0)


main()
