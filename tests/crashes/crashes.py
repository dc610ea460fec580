#!/usr/bin/env python3
"""What a crash may leave of a store, tried on the program of a day on a disk.

    tests/crashes/crashes.py PATH

Of two days, one of ten lines and one of 105, the run is cut at every call of the disk. Behind each cut stands each of these images
of what was being written: of one byte all 256; of a longer range the old bytes, the new ones, zeros, ones, and the new ones cut
at each byte; and, since a text is written past the old end, more bytes behind it than were written. Each image is opened and run to
the end of the day, whose store has to be that of a run that was not cut, and behind it what stood there in the image; so no line is
lost, skipped or there in part, and nothing is booked twice. Of most images the journal is shown too.
Besides, stores that are cut behind each byte or changed at each byte are shown: the lines before are found, and no others.
One line for each thing that went wrong, then 'N images', and the status 0 where nothing did.
"""

import subprocess
import sys
from concurrent.futures import ThreadPoolExecutor

COVERED = """DAY;2025-06-02
AS;CH1;ABCDE
ACC;X1;DCA;BANKA;;40.00
ACC;Y1;DCA;BANKB;;59.99
ACC;Z1;DCA;BANKC;;0.00
ACC;TA;TEC;CH1;A;0.00
ACC;TB;TEC;CH1;B;0.00
ACC;TC;TEC;CH1;C;0.00
ACC;TD;TEC;CH1;D;0.00
ACC;SX;SUB;BANKA;CH1;0.00
ACC;GF;FND;CH1;;80.00
BAT;CH1;B1;A;;11:00:00;3;200.00
ENT;X1;TA;40.00
ENT;Y1;TA;60.00
ENT;TA;Z1;100.00
TIM;12:00:00
CNF;CH1;C1;B1;Y
END
"""

BANKS = "ABCDE"

MORNING = (
    "DAY;2025-06-02\nAS;CH1;ACE\nAS;CH2;B\n"
    + "".join(f"ACC;{bank}1;DCA;BANK{bank};;1000000.00\n" for bank in BANKS)
    + "ACC;F1;DCA;BANKF;;100.00\nACC;SA;SUB;BANKA;CH1;0.00\nACC;CA;TEC;CH1;A;0.00\nACC;CC;TEC;CH1;C;0.00\n"
    + "ACC;CF;FND;CH1;;500000.00\nACC;CB;TEC;CH2;B;0.00\n"
    + "".join(
        f"PAY;BANK{BANKS[i % 5]};P{i};{'NH'[i % 2]};{BANKS[i % 5]}1;{BANKS[(i + 1) % 5]}1;{i * 10}.00\n" for i in range(1, 41)
    )
    + """TIM;07:00:00
BAT;CH1;S1;A;07:30:00;08:00:00;3;500000.00
ENT;A1;CA;200000.00
ENT;F1;CA;50000.00
ENT;CA;B1;250000.00
BAT;CH2;S1;B;;09:00:00;4;8000.00
ENT;A1;CB;1000.00
ENT;C1;CB;3000.00
ENT;CB;D1;2500.00
ENT;CB;E1;1500.00
CYC;CH1;K1;START
LIQ;BANKA;L1;A1;SA;5000.00
BAT;CH1;S2;E;;;1;700.00
ENT;B1;A1;700.00
TIM;08:30:00
CNF;CH1;Q1;S1;Y
BAT;CH1;S3;C;;;2;3500.00
ENT;SA;CC;2500.00
ENT;CC;SA;1000.00
TIM;16:00:00
CYC;CH1;K2;END
END
"""
)

ENOUGH = "9999999"
pool = ThreadPoolExecutor(4)
tried = 0
wrong = []


def asked(day, store, *words):
    ran = subprocess.run([sys.argv[1], *words], input=day.encode() + store, capture_output=True, check=False)
    return ran.returncode, ran.stdout


def entries(store):
    """The texts of a store of whole lines."""
    texts, at = [], 0
    while store[at] == 1:
        count = int.from_bytes(store[at + 1 : at + 5], "big")
        texts.append(store[at + 5 : at + 5 + count])
        at += 5 + count
    return texts


def found(store, texts):
    """What is to be found in a store of these lines that was cut: how many lines, and whether it stands for a journal."""
    at, lines = 0, 0
    while at < len(store):
        if store[at] != 1:
            return lines, True
        text = store[at + 5 : at + 5 + int.from_bytes(store[at + 1 : at + 5], "big")]
        if len(store) < at + 5 or lines == len(texts) or text != texts[lines]:
            break
        at += 5 + len(text)
        lines += 1
    return lines, False


def over(old, at, piece):
    return old[:at] + piece + old[at + len(piece) :]


def images(left, line):
    """What a crash may leave while the line behind so many is written, with how many lines each has."""
    old, new, opened = left[4 + 4 * line], left[5 + 4 * line], left[7 + 4 * line]
    at = next(i for i in range(len(opened)) if opened[i] != new[i])
    size = len(new) - at - 1
    piece = new[at + 1 :]
    for j in range(size + 1):
        yield over(old, at + 1, piece[:j]), line
    for byte in (0, 1, 255):
        yield over(old, at + 1, bytes([byte]) * size), line
        yield over(old, at + 1, bytes([byte]) * (size + 300)), line
        yield over(old, at + 1, piece + bytes([byte]) * 7), line
    yield over(old, at + 1, piece * 3), line
    for byte in range(256):
        yield over(new, at, bytes([byte])), line + (byte == 1)


def crashes(name, day):
    global tried
    status, whole = asked(day, b"", "run", ENOUGH)
    if status != 0:
        wrong.append(f"{name}: status {status}")
        return
    texts = entries(whole)
    calls = 4 + 4 * len(texts)
    cuts = list(pool.map(lambda calls: asked(day, b"", "run", str(calls)), range(calls + 1)))
    for at, (status, _) in enumerate(cuts):
        if status != (0 if at == calls else 8):
            wrong.append(f"{name}: K {at}: status {status}")
    if cuts[calls][1] != whole:
        wrong.append(f"{name}: K {calls}: another store")
    left = [store for _, store in cuts]
    here = [(0, left[k], 0) for k in range(5)]
    for line in range(len(texts)):
        here += [(line, image, lines) for image, lines in images(left, line)]

    def goes_on(it):
        at, (_, image, lines) = it
        ended, store = asked(day, image, "run", ENOUGH)
        if ended != 0 or store != whole + image[len(whole) :]:
            return False
        # Showing costs as much again, so of the closed gates only one in eight is shown.
        if at % 8 and lines < len(texts) and image[place_of[lines] : place_of[lines] + 1] not in (b"", b"\x00", b"\x01"):
            return True
        said = b"".join(texts[:lines]) + b"OK;%d\n" % lines
        return asked(day, image, "show") == (0, said)

    place_of = [sum(5 + len(text) for text in texts[:n]) for n in range(len(texts) + 1)]
    for (line, image, _), well in zip(here, pool.map(goes_on, enumerate(here))):
        if not well:
            wrong.append(f"{name}: line {line + 1}: {image[-60:]!r}")
    tried += len(here)

    spoilt = [whole[:at] for at in range(1, len(whole))]
    for (at, store), (status, text) in zip(enumerate(spoilt, 1), pool.map(lambda store: asked(day, store, "show"), spoilt)):
        lines, stands = found(store, texts)
        said = b"".join(texts[:lines]) + b"OK;%d\n" % lines if stands else b"FOREIGN;%d\n" % (lines + 1)
        if (status, text) != (0 if stands else 9, said):
            wrong.append(f"{name}: cut behind {at} bytes: {status} {text[-30:]!r}")
    tried += len(spoilt)

    # A line that another one has taken the place of may be legal too, so of the lines behind it nothing is said.
    changed = [over(whole, at, bytes([(whole[at] + 1) % 256])) for at in range(len(whole))]
    for (at, store), (status, text) in zip(enumerate(changed), pool.map(lambda store: asked(day, store, "show"), changed)):
        before = found(store, texts)[0]
        place = int(text[8:]) if status == 9 and text.startswith(b"FOREIGN;") else before + 1 if status == 0 else 0
        if place <= before:
            wrong.append(f"{name}: byte {at} changed: {status} {text[-30:]!r}")
    tried += len(changed)


if len(sys.argv) != 2:
    print(__doc__)
    sys.exit(2)
crashes("a batch that its fund covers", COVERED)
crashes("a morning", MORNING)
for line in wrong[:20]:
    print(line)
print(f"{tried} images")
sys.exit(1 if wrong else 0)
