"""A live day by the second machine: which records of an input count, and what is told of it, worked out from docs/live.md alone, over
the days and texts of second_machine.py. No program is asked.

    live_text(bytes)    the status and the text of a whole input
    told(bytes)         what the whole records of an input call for while more may come
    answers(bytes)      what each whole record calls for by itself, over the whole day at once
    resumed(bytes)      the status and the text of a run that goes on after a break
    told_again(bytes)   what such a run tells while more may come

As a command it tries the worked rows, and then inputs that are made of a number each.
"""
import random
import re
import sys

import second_machine as second
from second_machine import MIDNIGHT

LONGEST, LONGEST_OUTPUT = 128 << 20, 512 << 20
END_LINE = re.compile(rb"(?:\A|[\r\n])END[\r\n]")
END_AT_LAST = re.compile(rb"(?:\A|[\r\n])END\Z")
NUMBER = rb";(0|[1-9][0-9]{0,8})\n"


# ---- which records count

def records(text, is_all):
    """The whole records of an input, and whether it has ended with a line END: all of it has come, or more may come."""
    line = END_LINE.search(text)
    if line:
        return second.records_of(text[:line.end()]), True
    if is_all and END_AT_LAST.search(text):
        return second.records_of(text), True
    # A byte behind the text belongs to the record that isn't whole.
    return second.records_of(text + b"x")[:-1], False


class Listener(second.Reader):
    """Judges record after record, and says what each calls for: ("IN", message), ("STOP", time), ("R", record, code), ("E", record, code)."""

    def __init__(self):
        super().__init__()
        self.open = self.passes = self.broken = False

    def taken(self):
        """The open batch is one message."""
        calls = [("IN", len(self.day.messages))] if self.open else []
        self.open, self.before = False, None if self.open else self.before
        return calls

    def refused(self):
        """The open batch is none, and counts for no limit."""
        self.day.entries -= len(self.day.messages.pop().entries)
        self.open, self.before = False, None

    def hear(self, row):
        self.number += 1
        is_entry = row[0] == b"ENT"
        if is_entry and self.passes:
            return []
        calls, self.passes = ([], False) if is_entry else (self.taken(), False)
        code = self.fault(row)
        if code:
            if not self.late:
                self.broken = True
                return [("E", self.number, code)]
            self.passes = row[0] == b"BAT" or self.open
            if self.open:
                self.refused()
            return calls + [("R", self.number, code)]
        self.take(row)
        if row[0] == b"TIM":
            return calls + [("STOP", self.day.stops[-1])]
        if row[0] == b"BAT":
            self.open = True
        if row[0] in (b"BAT", b"ENT"):
            batch = self.day.messages[-1]
            return calls + (self.taken() if len(batch.entries) == batch.count else [])
        return calls + ([("IN", len(self.day.messages))] if row[0] in second.MESSAGES else [])


class Heard:
    """What the whole records of an input call for, and the accepted day."""

    def __init__(self, text, is_all):
        listener, self.calls = Listener(), []
        rows, self.is_cut = records(text, is_all)
        for row in rows:
            self.calls.append(listener.hear(row))
            if listener.broken:
                break
        self.count, self.is_broken, self.has_end = len(self.calls), listener.broken, listener.ended
        # The day is over where END was accepted, once the input has ended.
        self.is_over = self.has_end and not self.is_broken and (is_all or self.is_cut)
        if listener.open:
            listener.refused()
        self.day = listener.day
        for m in self.day.messages:
            if m.kind == b"BAT":
                m.stated = m.entries
                m.entries = [(self.day.account_of.get(debit, 0), self.day.account_of.get(credit, 0), cents) for debit, credit, cents in m.entries]


# ---- the order of a live day

def settle(machine):
    """What is ready, scan after scan."""
    made = True
    while made:
        made = False
        for n, k in machine.all_items():
            line = machine.item_line(n, k)
            if line:
                machine.push(line)
                made = True


def event(machine, call):
    if call[0] == "IN":
        machine.push(machine.line("IN", call[1], 0))
        settle(machine)
    elif call[0] == "STOP":
        while machine.clock < call[1]:
            machine.push(machine.line("TIME", 0, 0))
            settle(machine)


def finish(machine):
    """The rest of the day, in the written order."""
    while not machine.over:
        settle(machine)
        if machine.clock == MIDNIGHT:
            for a in range(1, len(machine.day.accounts) + 1):
                line = machine.line("SWEEP", 0, a)
                if line:
                    machine.push(line)
        machine.push(machine.line("END" if machine.clock == MIDNIGHT else "TIME", 0, 0))


# ---- what is told

def pieces(heard):
    """What is told of each record, and behind the last one."""
    machine, spans = second.Machine(heard.day), []
    for calls in heard.calls:
        parts = []
        for call in calls:
            if call[0] in "RE":
                parts.append("%s;%d;%s\n" % call)
            else:
                begun = len(machine.lines)
                event(machine, call)
                parts.append((begun, len(machine.lines)))
        spans.append(parts)
    last = len(machine.lines)
    if heard.is_over:
        finish(machine)
    spans.append([(last, len(machine.lines))])
    said = {}
    for text in second.told(heard.day, machine.lines)[0]:
        said.setdefault(int(text.split(";")[1]), []).append(text)

    def lines(begun, ended):
        return "".join(text + "\n" for place in range(begun + 1, ended + 1) for text in second.line_text(place, machine.lines[place - 1]) + said.get(place, []))

    told = ["".join(part if isinstance(part, str) else lines(*part) for part in parts) for parts in spans]
    if heard.is_over:
        closing = ["B;%s;%s" % (account[0].decode(), second.euros(machine.held[a])) for a, account in enumerate(heard.day.accounts, 1)]
        told[-1] += "".join(text + "\n" for text in closing + ["OK;%d" % len(machine.lines)])
    return told


def answers(text):
    return pieces(Heard(text, False))


def told(text):
    return "".join(answers(text)).encode()


def live_text(text, longest=LONGEST):
    """The status and the text."""
    heard = Heard(text[:longest], len(text) <= longest)
    whole = "".join(pieces(heard)).encode()
    if heard.is_broken:
        return 3, whole
    if heard.is_cut or len(text) <= longest:
        return (0, whole) if heard.has_end else (3, whole + b"E;%d;CUT\n" % (heard.count + 1))
    return 7, whole + b"E;0;SIZE\n"


def portion(word, text, longest):
    """The bytes behind a header that counts them, and what follows these; or None."""
    header = re.match(word + NUMBER, text)
    if not header or int(header[1]) > longest or len(text) < header.end() + int(header[1]):
        return None
    end = header.end() + int(header[1])
    return text[header.end():end], text[end:]


def before_of(text, longest=LONGEST):
    """What the run before had read, what it had written, and what comes from then on; or None."""
    read = portion(b"RECORDS", text, longest)
    written = portion(b"OUTPUT", read[1], LONGEST_OUTPUT) if read else None
    return (read[0], *written) if written else None


def resumed(text, longest=LONGEST):
    """The status and the text of a run that is told what the one before it read and wrote."""
    before = before_of(text, longest)
    if before is None:
        return 3, b"E;0;CUT\n"
    read, old, rest = before
    should = told(read)
    if not should.startswith(old):
        same = next((i for i in range(min(len(should), len(old))) if should[i] != old[i]), len(should))
        return 6, b"ILLEGAL;%d\n" % (old[:same].count(b"\n") + 1)
    status, whole = live_text(read + rest, longest)
    return status, whole[len(old):]


def told_again(text):
    """What such a run tells while more may come: nothing until all that was written is there, and where that is no front of what is told."""
    before = before_of(text)
    if before is None or not told(before[0]).startswith(before[1]):
        return b""
    return told(before[0] + before[2])[len(before[1]):]


# ---- worked rows: the records behind the setup, or the whole input of another version, and what is told; all between bars

SETUP = b"DAY;2025-06-02|AS;CH1;ABCDE|ACC;X1;DCA;BANKA;;100.00|ACC;Y1;DCA;BANKB;;0.00|ACC;TA;TEC;CH1;A;0.00|"
PAYMENT = b"PAY;BANKA;P1;N;X1;Y1;60.00|"
PAID = b"J;1;IN;1;0;OK;0|S;1;BANKA;ACPT;1;BANKA;P1;0;OK|J;2;BOOK;1;0;OK;1|M;1;2;60.00|S;2;BANKA;DBIT;X1;60.00|S;2;BANKB;CRDT;Y1;60.00|S;2;BANKA;SETL;1;BANKA;P1;0;OK|"
MIDNIGHT_AT_3 = b"J;3;TIME;0;86400;OK;0|J;4;END;0;0;OK;0|"
HELD = b"B;X1;40.00|B;Y1;60.00|B;TA;0.00|OK;4|"
SMALL = b"PAY;BANKA;P1;N;X1;Y1;1.00|"
SMALL_PAID = PAID.replace(b"60.00", b"1.00")
SMALL_HELD = b"B;X1;99.00|B;Y1;1.00|B;TA;0.00|OK;4|"
ENTRIES = b"ENT;X1;TA;10.00|ENT;TA;Y1;10.00|"
BATCH_PAID = (b"J;1;IN;1;0;OK;0|S;1;CH1;ACPT;1;CH1;B1;0;OK|J;2;BOOK;1;1;OK;1|M;1;3;10.00|S;2;BANKA;DBIT;X1;10.00|S;2;CH1;CRDT;TA;10.00|"
              b"J;3;BOOK;1;2;OK;1|M;3;2;10.00|S;3;CH1;DBIT;TA;10.00|S;3;BANKB;CRDT;Y1;10.00|S;3;CH1;SETL;1;CH1;B1;0;OK|")
AFTER_BATCH = b"J;4;TIME;0;86400;OK;0|J;5;END;0;0;OK;0|B;X1;90.00|B;Y1;10.00|B;TA;0.00|OK;5|"
CUT_SHORT = b"J;1;IN;1;0;CT;0|S;1;CH1;RJCT;1;CH1;B1;0;CT|"
SECOND_PAID = (b"J;2;IN;2;0;OK;0|S;2;BANKA;ACPT;2;BANKA;P1;0;OK|J;3;BOOK;2;0;OK;1|M;1;2;1.00|S;3;BANKA;DBIT;X1;1.00|S;3;BANKB;CRDT;Y1;1.00|"
               b"S;3;BANKA;SETL;2;BANKA;P1;0;OK|")
REJECTED_ALONE = CUT_SHORT + b"J;2;TIME;0;86400;OK;0|J;3;END;0;0;OK;0|B;X1;100.00|B;Y1;0.00|B;TA;0.00|OK;3|"
NOTHING_PAID = b"J;1;TIME;0;86400;OK;0|J;2;END;0;0;OK;0|B;X1;100.00|B;Y1;0.00|B;TA;0.00|OK;2|"

ROWS = [
    ("a record is refused, and the day goes on", 0, PAYMENT + b"PAY;BANKA;P_2;N;X1;Y1;1.00|END|", PAID + b"R;7;ID|" + MIDNIGHT_AT_3 + HELD),
    ("a message brings another one's money", 0, b"PAY;BANKB;P1;H;Y1;X1;30.00|PAY;BANKA;P2;N;X1;Y1;50.00|END|",
     b"J;1;IN;1;0;OK;0|S;1;BANKB;ACPT;1;BANKB;P1;0;OK|J;2;IN;2;0;OK;0|S;2;BANKA;ACPT;2;BANKA;P2;0;OK|J;3;BOOK;2;0;OK;1|M;1;2;50.00|"
     b"S;3;BANKA;DBIT;X1;50.00|S;3;BANKB;CRDT;Y1;50.00|S;3;BANKA;SETL;2;BANKA;P2;0;OK|J;4;BOOK;1;0;OK;1|M;2;1;30.00|S;4;BANKB;DBIT;Y1;30.00|"
     b"S;4;BANKA;CRDT;X1;30.00|S;4;BANKB;SETL;1;BANKB;P1;0;OK|J;5;TIME;0;86400;OK;0|J;6;END;0;0;OK;0|B;X1;80.00|B;Y1;20.00|B;TA;0.00|OK;6|"),
    ("a batch is taken with its last entry", 0, b"BAT;CH1;B1;A;;;2;20.00|" + ENTRIES + b"ENT;X1;TA;1.00|END|", BATCH_PAID + b"R;9;PLACE|" + AFTER_BATCH),
    ("another record cuts a batch short", 0, b"BAT;CH1;B1;A;;;3;20.00|" + ENTRIES + SMALL + b"END|",
     CUT_SHORT + SECOND_PAID + b"J;4;TIME;0;86400;OK;0|J;5;END;0;0;OK;0|B;X1;99.00|B;Y1;1.00|B;TA;0.00|OK;5|"),
    ("a bad entry refuses its batch", 0, b"BAT;CH1;B1;A;;;2;20.00|ENT;X1;TA;10.0|ENT;TA;Y1;10.00|" + SMALL + b"END|",
     b"R;7;AMOUNT|" + SMALL_PAID + MIDNIGHT_AT_3 + SMALL_HELD),
    ("a stop passes ends, and is refused once more", 0, b"BAT;CH1;B1;E;10:00:00;11:00:00;1;10.00|ENT;X1;Y1;10.00|TIM;10:30:00|TIM;10:30:00|END|",
     b"J;1;IN;1;0;OK;0|S;1;CH1;ACPT;1;CH1;B1;0;OK|S;1;BANKA;INFO;1;CH1;B1;0;OK|S;1;BANKB;INFO;1;CH1;B1;0;OK|J;2;TIME;0;36000;OK;0|"
     b"J;3;BOOK;1;1;OK;1|M;1;2;10.00|S;3;BANKA;DBIT;X1;10.00|S;3;BANKB;CRDT;Y1;10.00|S;3;CH1;SETL;1;CH1;B1;0;OK|J;4;TIME;0;37800;OK;0|R;9;TIME|"
     b"J;5;TIME;0;39600;OK;0|J;6;TIME;0;86400;OK;0|J;7;END;0;0;OK;0|B;X1;90.00|B;Y1;10.00|B;TA;0.00|OK;7|"),
    ("no END, and a record that isn't whole", 3, PAYMENT + b"TIM;09:00:00|PAY;BANKA;P2;N;X1", PAID + b"J;3;TIME;0;32400;OK;0|E;8;CUT|"),
    ("a bad record of the setup", 3, b"ACC;X1;DCA;BANKC;;1.00|FOO|END|", b"E;6;TWICE|"),
    ("a bad record before the day began", 3, b"PAY;BANKA;P_1;N;X1;Y1;60.00|END|", b"E;6;ID|"),
    ("records in wrong places, and nothing behind END", 0, PAYMENT + b"ACC;Z1;DCA;BANKC;;1.00|ENT;X1;Y1;1.00|FOO|END|X",
     PAID + b"R;7;PLACE|R;8;PLACE|R;9;KIND|" + MIDNIGHT_AT_3 + HELD),
    ("a day as docs/live.md shows it", 0, PAYMENT + b"PAY;BANKA;P_2;N;X1;Y1;1.00|BAT;CH1;B1;E;;;2;2.00|ENT;X1;Y1;1.00|ENT;X1;Y1;1.00|ENT;X1;Y1;1.00|TIM;09:00:00|END|",
     PAID + b"R;7;ID|J;3;IN;2;0;OK;0|S;3;CH1;ACPT;2;CH1;B1;0;OK|J;4;BOOK;2;1;OK;1|M;1;2;1.00|S;4;BANKA;DBIT;X1;1.00|S;4;BANKB;CRDT;Y1;1.00|"
     b"J;5;BOOK;2;2;OK;1|M;1;2;1.00|S;5;BANKA;DBIT;X1;1.00|S;5;BANKB;CRDT;Y1;1.00|S;5;CH1;SETL;2;CH1;B1;0;OK|R;11;PLACE|J;6;TIME;0;32400;OK;0|"
     b"J;7;TIME;0;86400;OK;0|J;8;END;0;0;OK;0|B;X1;38.00|B;Y1;62.00|B;TA;0.00|OK;8|"),
    # The edges of batches.
    ("a refused BAT, and its entries", 0, PAYMENT + b"BAT;CH1;B_1;A;;;2;20.00|" + ENTRIES + b"ENT|FOO|ENT;X1;Y1;1.00|END|",
     PAID + b"R;7;ID|R;11;KIND|R;12;PLACE|" + MIDNIGHT_AT_3 + HELD),
    ("entries behind a bad one, more than were said", 0, b"BAT;CH1;B1;A;;;1;20.00|ENT;X1;TA;0.00|" + ENTRIES + b"END|", b"R;7;AMOUNT|" + NOTHING_PAID),
    ("entries behind one that no batch has", 0, PAYMENT + ENTRIES + b"END|", PAID + b"R;7;PLACE|R;8;PLACE|" + MIDNIGHT_AT_3 + HELD),
    ("a batch of no entries is taken at once", 0, b"BAT;CH1;B1;A;;;0;0.00|ENT;X1;TA;1.00|END|",
     CUT_SHORT + b"R;7;PLACE|" + REJECTED_ALONE[len(CUT_SHORT):]),
    ("a bad record cuts a batch short too", 0, b"BAT;CH1;B1;A;;;2;20.00|ENT;X1;TA;10.00|FOO|ENT;TA;Y1;10.00|END|",
     CUT_SHORT + b"R;8;KIND|R;9;PLACE|" + REJECTED_ALONE[len(CUT_SHORT):]),
    ("END cuts a batch short", 0, b"BAT;CH1;B1;A;;;2;20.00|ENT;X1;TA;10.00|END|", REJECTED_ALONE),
    ("a batch that is open at the end isn't taken", 3, PAYMENT + b"BAT;CH1;B1;A;;;2;20.00|ENT;X1;TA;10.00|", PAID + b"E;9;CUT|"),
    ("the day has begun with a batch that is refused", 0, b"BAT;CH1;B1;A;;;1;1.00|ENT;X1;TA|ACC;Z1;DCA;BANKC;;1.00|END|",
     b"R;7;FIELDS|R;8;PLACE|" + NOTHING_PAID),
    ("a refused batch has no name", 0, b"BAT;CH1;B1;A;;;1;1.00|ENT;X1;TA|BAT;CH1;B1;A;;;2;20.00|" + ENTRIES + b"END|", b"R;7;FIELDS|" + BATCH_PAID + AFTER_BATCH),
    ("a batch of version 2, whose count stands elsewhere", 0, b"VER;2|" + SETUP + b"BAT;CH1;B1;A;2;20.00|" + ENTRIES + b"ENT;X1;TA;1.00|END|",
     BATCH_PAID + b"R;10;PLACE|" + AFTER_BATCH),
    # The edges of the end.
    ("END at the end", 0, b"END", NOTHING_PAID),
    ("END with a carriage return", 0, b"END\rX", NOTHING_PAID),
    ("an END that is more", 0, PAYMENT + b"END;1|ENDE|END|", PAID + b"R;7;FIELDS|R;8;KIND|" + MIDNIGHT_AT_3 + HELD),
    ("END in quotes is no END line", 0, PAYMENT + b'"END"|TIM;09:00:00|END|', PAID + b"R;8;PLACE|R;9;PLACE|" + MIDNIGHT_AT_3 + HELD),
    ("END in quotes begins no day", 3, b'"END"|TIM;09:00:00|END|', b"E;7;PLACE|"),
    ("END in quotes is enough", 0, b'"END"|TIM;09', NOTHING_PAID),
    ("an END line in a quoted field", 3, PAYMENT + b'PAY;BANKA;"P2|END|X', PAID + b"R;7;FIELDS|E;8;CUT|"),
    ("an END line in a quoted field, before the day began", 3, b'AS;"CH2|END|', b"E;6;FIELDS|"),
    ("a quoted line end makes no record whole", 3, PAYMENT + b'FOO|PAY;BANKA;"P2||', PAID + b"R;7;KIND|E;8;CUT|"),
    ("empty lines are no records", 0, b"||" + PAYMENT + b"||FOO|\r\n|END|", PAID + b"R;7;KIND|" + MIDNIGHT_AT_3 + HELD),
]

# What a run before a break had read and written, what comes behind that, and what is told then.
BREAKS = [
    ("nothing was read", 0, b"", b"", SETUP + PAYMENT + b"END|", PAID + MIDNIGHT_AT_3 + HELD),
    ("all of the last write is missing", 0, SETUP + PAYMENT, b"", b"END|", PAID + MIDNIGHT_AT_3 + HELD),
    ("a line was cut", 0, SETUP + PAYMENT, PAID[:22], b"END|", PAID[22:] + MIDNIGHT_AT_3 + HELD),
    ("a record was cut", 0, SETUP + PAYMENT[:9], b"", PAYMENT[9:] + b"END|", PAID + MIDNIGHT_AT_3 + HELD),
    ("the day was over", 0, SETUP + PAYMENT + b"END|", PAID + MIDNIGHT_AT_3 + HELD, b"X|", b""),
    ("the run was over", 3, SETUP + b"FOO|", b"E;6;", PAYMENT, b"KIND|"),
    ("another line", 6, SETUP + PAYMENT, PAID[:16] + b"S;1;BANKB;ACPT;1;BANKA;P1;0;OK|", b"END|", b"ILLEGAL;2|"),
    ("a line ends too early", 6, SETUP + PAYMENT, PAID[:22] + b"|", b"END|", b"ILLEGAL;2|"),
    ("a line too many", 6, SETUP + PAYMENT, PAID + b"J", b"END|", b"ILLEGAL;8|"),
    ("no END is told of what may go on", 6, SETUP + PAYMENT, PAID + b"E;7;CUT|", b"END|", b"ILLEGAL;8|"),
]
NO_HEADERS = [b"", b"RECORDS;0|", b"RECORDS;00|OUTPUT;0|", b"RECORDS;1|OUTPUT;0|", b"RECORDS;0|OUTPUT;1|", b"RECORDS;0|OUTPUT;-1|", b"RECORDS;134217729|OUTPUT;0|",
              b"RECORDS;0|OUTPUT;536870913|", b"RECORDS;0\r|OUTPUT;0|", b" RECORDS;0|OUTPUT;0|", b"OUTPUT;0|RECORDS;0|"]


def lines_of(text):
    return text.replace(b"|", b"\n")


def input_of(given):
    """The input of a row: where it begins with a version, the setup stands in it."""
    return lines_of(given if given.startswith(b"VER;") else SETUP + given)


def broken_run(read, written, rest):
    return b"RECORDS;%d\n%bOUTPUT;%d\n%b%b" % (len(read), read, len(written), written, rest)


def try_rows():
    """The rows that aren't told so."""
    wrong = []
    for name, status, given, wanted in ROWS:
        wrong += faults_of(name, input_of(given), (status, lines_of(wanted)))
    for name, status, read, written, rest, wanted in BREAKS:
        if resumed(broken_run(*map(lines_of, (read, written, rest)))) != (status, lines_of(wanted)):
            wrong.append(name)
    wrong += ["header " + repr(given) for given in NO_HEADERS if resumed(lines_of(given)) != (3, b"E;0;CUT\n")]
    day = lines_of(SETUP + PAYMENT + b"END|")
    sizes = [(day, len(day), 0), (day[:-1], len(day) - 1, 0), (day, len(day) - 1, 7), (day + b"X", len(day), 0), (day[:-4] + b"\n\n", len(day) - 3, 7)]
    for given, longest, status in sizes:
        wanted = lines_of(PAID + (MIDNIGHT_AT_3 + HELD if status == 0 else b"E;0;SIZE|"))
        if live_text(given, longest) != (status, wanted):
            wrong.append("%d bytes of at most %d" % (len(given), longest))
    return wrong


def faults_of(name, given, wanted=None):
    """What is wrong with what is said of an input: by itself, of each front of it, and of a run that is broken there."""
    wrong = []
    status, text = live_text(given)
    if wanted and (status, text) != wanted:
        wrong.append("%s: status %d and\n%s" % (name, status, text.decode()))
    heard, parts = Heard(given, True), [part.encode() for part in pieces(Heard(given, True))]
    # The first and the last front with so many whole records: what is told of each record is what the whole day says of it.
    fronts = {}
    for end in range(len(given) + 1):
        fronts.setdefault(len(records(given[:end], False)[0]), []).append(end)
    for count, ends in fronts.items():
        for end in (ends[0], ends[-1]):
            front = told(given[:end])
            if not text.startswith(front) or count < heard.count and front != b"".join(parts[:count]):
                wrong.append("%s: what is told of the first %d bytes" % (name, end))
    for at, out in ((len(given) // 2, 0), (len(given) // 2, 1), (len(given), 1)):
        written = told(given[:at])
        written = written[:len(written) * out]
        if resumed(broken_run(given[:at], written, given[at:])) != (status, text[len(written):]):
            wrong.append("%s: after a break at byte %d" % (name, at))
    journal = "".join(line + "\n" for line in text.decode().split("\n") if line[:2] in ("J;", "M;"))
    machine, place = second.judged(heard.day, journal)
    if place is not None or machine.over != (status == 0):
        wrong.append("%s: line %s of the journal" % (name, place))
    told_of = [int(line.split(";")[1]) for line in text.decode().split("\n") if line[:2] == "R;"]
    if told_of != sorted(set(told_of)):
        wrong.append("%s: records refused twice or out of order" % name)
    return wrong


# ---- inputs that are made of a number each

POOL = [b"PAY;BANKA;P%d;N;X1;Y1;%d.00", b"PAY;BANKB;Q%d;H;Y1;X1;%d.00", b"PAY;BANKA;P%d;H;X1;Y1;%d.0", b"LIQ;BANKA;L%d;X1;Y1;%d.00", b"BAT;CH1;B%d;A;;;2;%d.00",
        b"ENT;X1;TA;%d.00", b"ENT;TA;Y1;%d.00", b"ENT;X1;Y1;%d.00", b"ENT;X1;Y1;%d.0", b"BAT;CH1;B%d;E;0%d:30:00;;1;5.00", b"BAT;CH1;B%d;E;;;%d;5.00", b"OBJ;BANKB;O%d;CH1;B%d",
        b"CNF;CH1;C%d;B%d;Y", b"TIM;0%d:00:00", b"TIM;%d0:00:00", b"END;%d", b"FOO;%d", b'"END"', b'"a|END|', b"BAT;CH1;B_;A;;;%d;1.00", b"ACC;Z%d;DCA;BANKC;;1.00", b""]


def made(number):
    draw = random.Random(number)
    text = SETUP if draw.randrange(20) else SETUP[draw.randrange(40):]
    for _ in range(draw.randrange(1, 14)):
        form = POOL[draw.randrange(len(POOL))]
        if form in POOL[-5:] + POOL[15:18] and draw.randrange(3):
            continue
        text += form % tuple(draw.randrange(1, 5) for _ in range(form.count(b"%d"))) + b"|"
    return lines_of(text + (b"END|" if draw.randrange(4) else b""))


def main():
    wrong = try_rows()
    count = int(sys.argv[1]) if len(sys.argv) > 1 else 200
    for number in range(count):
        wrong += faults_of("input %d" % number, made(number))
    for what in wrong:
        print(what)
    print("%d rows and %d inputs of a live day, %d failed" % (len(ROWS) + len(BREAKS), count, len(wrong)))
    sys.exit(1 if wrong else 0)


if __name__ == "__main__":
    main()
