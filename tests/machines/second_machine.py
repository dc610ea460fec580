"""A second machine: days, their journals and all texts over them, worked out from docs/machine.md, docs/day-file.md, docs/texts.md,
docs/chain.md, docs/liquidity.md and docs/durable.md alone. It shares nothing with the programs, and is slow and short.

    read_day(bytes)          the day and where its rest begins, or the refusal
    plain(day), stored(day)  a machine at the end of the day, in the written order, or in that of a store
    judged(day, text)        of a journal that somebody else wrote: the place of the first line that is wrong
    told(day, lines)         its status messages; output, view, Figures: the texts over it
    disk_run, chain_of       what a run leaves on a disk that is cut; what a chain of days answers
"""
import bisect
import datetime
import re

MIDNIGHT = 86400
MOST = 10**18
MOST_OF_ENTRY = 9_999_999_999_999
NAME = re.compile(rb"[A-Z0-9]{1,34}")
IDENTIFICATION = re.compile(rb"[A-Za-z0-9-]{1,35}")
AMOUNT = re.compile(rb"(0|[1-9][0-9]*)\.([0-9][0-9])")
COUNT = re.compile(rb"0|[1-9][0-9]{0,6}")
TIME = re.compile(rb"([0-9][0-9]):([0-5][0-9]):([0-5][0-9])")
DATE = re.compile(rb"([0-9]{4})-([0-9]{2})-([0-9]{2})")
FIELDS = {b"VER": 2, b"DAY": 2, b"AS": 3, b"ACC": 6, b"RES": 4, b"BAT": 8, b"ENT": 4, b"PAY": 7, b"LIQ": 6, b"OBJ": 5, b"CNF": 5, b"CYC": 4,
          b"TIM": 2, b"END": 1}
MESSAGES = (b"BAT", b"PAY", b"LIQ", b"OBJ", b"CNF", b"CYC")
LIMITS = {1: (100_000, 1_000_000, 10_000), 2: (100_000, 1_000_000, 50_000), 3: (1_000_000, 2_000_000, 50_000)}


def euros(cents):
    return "%d.%02d" % (cents // 100, cents % 100)


def amount(text):
    """The cents of an amount, or None."""
    form = AMOUNT.fullmatch(text)
    cents = int(form[1]) * 100 + int(form[2]) if form and len(text) < 30 else MOST + 1
    return cents if cents <= MOST else None


def seconds(text):
    """The time in seconds, or None."""
    form = TIME.fullmatch(text)
    at = int(form[1]) * 3600 + int(form[2]) * 60 + int(form[3]) if form else MIDNIGHT + 1
    return at if at <= MIDNIGHT else None


def clock(at):
    return "%02d:%02d:%02d" % (at // 3600, at // 60 % 60, at % 60)


def easter(year):
    """Easter Sunday, by the tables of the Gregorian calendar."""
    golden = year % 19 + 1
    century = year // 100 + 1
    dropped, moon = 3 * century // 4 - 12, (8 * century + 5) // 25 - 5
    sunday, epact = 5 * year // 4 - dropped - 10, (11 * golden + 20 + moon - dropped) % 30
    if epact == 24 or epact == 25 and golden > 11:
        epact += 1
    full = 44 - epact
    if full < 21:
        full += 30
    full += 7 - (sunday + full) % 7
    return datetime.date(year, 3, 1) + datetime.timedelta(full - 1)


def is_open(date):
    """Whether TARGET is."""
    near = (date - easter(date.year)).days
    return date.weekday() < 5 and (date.month, date.day) not in ((1, 1), (5, 1), (12, 25), (12, 26)) and near not in (-2, 1)


def date_of(text):
    """The date, or the code that refuses it."""
    form = DATE.fullmatch(text)
    try:
        date = datetime.date(int(form[1]), int(form[2]), int(form[3])) if form else None
    except ValueError:
        date = None
    if date is None or not 2023 <= date.year <= 2099:
        return "DATE"
    return date if is_open(date) else "CLOSED"


def next_open(date):
    while True:
        date += datetime.timedelta(1)
        if is_open(date):
            return date


# ---- reading

def day_part(text):
    """Where the day part ends."""
    for line in re.finditer(rb"([^\r\n]*)(\r\n|\r|\n|$)", text):
        if line[1] == b"END":
            return line.end()
    return len(text)


def records_of(text):
    if text.startswith(b"\xef\xbb\xbf"):
        text = text[3:]
    if b'"' not in text:
        return [line.split(b";") for line in re.split(rb"[\r\n]+", text) if line]
    records, at, end = [], 0, len(text)
    while at < end:
        if text[at] in b"\r\n":
            at += 1
            continue
        fields = []
        while True:
            field = bytearray()
            if at < end and text[at] == 34:
                at += 1
                while at < end:
                    if text[at] == 34:
                        if text[at + 1:at + 2] != b'"':
                            break
                        at += 1
                    field.append(text[at])
                    at += 1
                at += 1
            while at < end and text[at] not in b";\r\n":
                field.append(text[at])
                at += 1
            fields.append(bytes(field))
            if at >= end or text[at] != 59:
                break
            at += 1
        records.append(fields)
    return records


class Message:
    __slots__ = ("number", "kind", "round", "sender", "name", "procedure", "info", "start", "till", "count", "sum", "entries", "high", "debit",
                 "credit", "amount", "system", "batch", "yes", "begins", "stated")


class Day:
    """A day as its records state it. Accounts, systems, messages and entries have numbers from 1."""

    def __init__(self):
        self.version, self.date, self.records = 1, None, 0
        self.systems, self.accounts, self.kept, self.stops, self.messages = [], [], {}, [], []
        self.system_of, self.account_of, self.first_cash, self.technical, self.fund = {}, {}, {}, {}, {}
        self.entries, self.openings = 0, 0

    def kind(self, a):
        return self.accounts[a - 1][1] if a else None

    def owner(self, a):
        return self.accounts[a - 1][2] if a else None

    def link(self, a):
        return self.accounts[a - 1][3] if a else None

    def lists(self, system, procedure):
        return system in self.system_of and procedure in self.systems[self.system_of[system] - 1][1]


def times_of(fields):
    """The times that a batch of version 2 states, or None where its labels are wrong."""
    found, order = {}, [b"info=", b"from=", b"till="]
    for field in fields:
        if field[:5] not in order:
            return None
        order = order[order.index(field[:5]) + 1:]
        found[field[:5]] = field[5:]
    return found


class Reader:
    def __init__(self):
        self.day, self.before, self.late, self.ended, self.number = Day(), None, False, False, 0

    def fault(self, row):
        """The code that refuses a record, or None."""
        day, kind = self.day, row[0]
        known = kind in FIELDS and (kind != b"RES" or day.version > 1)
        newer = kind == b"BAT" and day.version > 1
        times = times_of(row[6:]) if newer else {}
        if newer and (len(row) < 6 or times is None or b"from=" in times and row[3] in (b"C", b"D", b"E")):
            return "FIELDS"
        if known and not newer and len(row) != FIELDS[kind]:
            return "FIELDS"
        if not known or not self.words_are_right(kind, row):
            return "KIND"
        if self.is_misplaced(kind):
            return "PLACE"
        if kind == b"DAY" and isinstance(date_of(row[1]), str):
            return date_of(row[1])
        names, ids = self.names(kind, row)
        if not all(map(NAME.fullmatch, names)):
            return "NAME"
        if not all(map(IDENTIFICATION.fullmatch, ids)):
            return "ID"
        if kind == b"BAT":
            count, total = row[4:6] if newer else row[6:8]
            if not COUNT.fullmatch(count):
                return "NUMBER"
            if amount(total) is None:
                return "AMOUNT"
            stated = list(times.values()) if newer else [end for end in row[4:6] if end]
            if any(seconds(end) is None for end in stated):
                return "TIME"
        if kind == b"ACC" and amount(row[5]) is None or kind == b"RES" and None in (amount(row[2]), amount(row[3])):
            return "AMOUNT"
        if kind in (b"ENT", b"PAY", b"LIQ") and not 1 <= (amount(row[-1]) or 0) <= MOST_OF_ENTRY:
            return "AMOUNT"
        if kind == b"TIM":
            at = seconds(row[1])
            if at is None or not (day.stops or [0])[-1] < at < MIDNIGHT:
                return "TIME"
        return self.setup_fault(kind, row)

    @staticmethod
    def words_are_right(kind, row):
        if kind == b"AS":
            return row[2] != b"" and all(letter in b"ABCDE" for letter in row[2]) and all(a < b for a, b in zip(row[2], row[2][1:]))
        words = {b"VER": (1, b"2 3"), b"BAT": (3, b"A B C D E"), b"PAY": (3, b"H N"), b"CNF": (4, b"Y N"), b"CYC": (3, b"START END"),
                 b"ACC": (2, b"DCA SUB TEC FND")}
        if kind in words and row[words[kind][0]] not in words[kind][1].split():
            return False
        return kind != b"ACC" or row[2] != b"TEC" or row[4] in (b"A", b"B", b"C", b"D")

    def is_misplaced(self, kind):
        day_is_due = self.number == 1 or self.number == 2 and self.before == b"VER"
        if self.number == 1:
            return kind not in (b"VER", b"DAY")
        if self.ended or kind == b"VER" or (kind == b"DAY") != day_is_due:
            return True
        if kind in (b"AS", b"ACC", b"RES"):
            return self.late
        return kind == b"ENT" and self.before not in (b"BAT", b"ENT")

    @staticmethod
    def names(kind, row):
        if kind == b"ACC":
            return ([row[1], row[3], row[4]] if row[2] == b"SUB" else [row[1], row[3]]), []
        names = {b"AS": (1,), b"RES": (1,), b"ENT": (1, 2), b"BAT": (1,), b"PAY": (1, 4, 5), b"LIQ": (1, 3, 4), b"OBJ": (1, 3), b"CNF": (1,), b"CYC": (1,)}
        ids = {b"BAT": (2,), b"PAY": (2,), b"LIQ": (2,), b"OBJ": (2, 4), b"CNF": (2, 3), b"CYC": (2,)}
        return [row[i] for i in names.get(kind, ())], [row[i] for i in ids.get(kind, ())]

    def setup_fault(self, kind, row):
        day = self.day
        messages, entries, of_batch = LIMITS[day.version]
        if kind == b"AS":
            if row[1] in day.system_of:
                return "TWICE"
            if row[1] in day.first_cash:
                return "SETUP"
            return "LIMIT" if len(day.systems) == 256 else None
        if kind == b"ACC":
            _, name, what, owner, link, opening = row
            if name in day.account_of or what == b"TEC" and (owner, link) in day.technical or what == b"FND" and owner in day.fund:
                return "TWICE"
            empty = amount(opening) == 0
            fits = {b"DCA": link == b"" and owner not in day.system_of, b"SUB": owner in day.first_cash and day.lists(link, b"C") and empty,
                    b"TEC": day.lists(owner, link) and empty, b"FND": owner in day.system_of and link == b""}
            if not fits[what]:
                return "SETUP"
            return "LIMIT" if len(day.accounts) == 4096 or day.openings + amount(opening) > MOST else None
        if kind == b"RES":
            account = day.account_of.get(row[1], 0)
            if account in day.kept:
                return "TWICE"
            if day.kind(account) != b"DCA":
                return "SETUP"
            return "LIMIT" if amount(row[2]) + amount(row[3]) > MOST else None
        if kind in MESSAGES:
            return "LIMIT" if len(day.messages) == messages else None
        if kind == b"ENT":
            return "LIMIT" if day.entries == entries or len(day.messages[-1].entries) == of_batch else None
        return None

    def take(self, row):
        day, kind = self.day, row[0]
        if kind == b"VER":
            day.version = int(row[1])
        elif kind == b"DAY":
            day.date = date_of(row[1])
        elif kind == b"AS":
            day.systems.append((row[1], row[2]))
            day.system_of[row[1]] = len(day.systems)
        elif kind == b"ACC":
            day.accounts.append((row[1], row[2], row[3], row[4], amount(row[5])))
            number = day.account_of[row[1]] = len(day.accounts)
            day.openings += amount(row[5])
            if row[2] == b"DCA":
                day.first_cash.setdefault(row[3], number)
            elif row[2] == b"TEC":
                day.technical[row[3], row[4]] = number
            elif row[2] == b"FND":
                day.fund[row[3]] = number
        elif kind == b"RES":
            day.kept[day.account_of[row[1]]] = (amount(row[2]), amount(row[3]))
        elif kind == b"ENT":
            day.messages[-1].entries.append((row[1], row[2], amount(row[3])))
            day.entries += 1
        elif kind == b"TIM":
            day.stops.append(seconds(row[1]))
            self.late = True
        elif kind == b"END":
            self.ended = True
        else:
            self.late = True
            day.messages.append(self.message(kind, row))
        self.before = kind

    def message(self, kind, row):
        m = Message()
        m.number, m.kind, m.round, m.sender, m.name = len(self.day.messages) + 1, kind, len(self.day.stops), row[1], row[2]
        m.info = m.start = m.till = None
        if kind == b"BAT":
            m.procedure, m.entries = row[3], []
            if self.day.version == 1:
                m.info, m.till = (seconds(end) if end else None for end in row[4:6])
                m.count, m.sum = int(row[6]), amount(row[7])
            else:
                m.count, m.sum = int(row[4]), amount(row[5])
                m.info, m.start, m.till = (seconds(times_of(row[6:])[label]) if label in times_of(row[6:]) else None for label in (b"info=", b"from=", b"till="))
        elif kind == b"PAY":
            m.high, m.debit, m.credit, m.amount = row[3] == b"H", row[4], row[5], amount(row[6])
        elif kind == b"LIQ":
            m.debit, m.credit, m.amount = row[3], row[4], amount(row[5])
        elif kind == b"OBJ":
            m.system, m.batch = row[3], row[4]
        elif kind == b"CNF":
            m.system, m.batch, m.yes = row[1], row[3], row[4] == b"Y"
        elif kind == b"CYC":
            m.begins = row[3] == b"START"
        return m


def read_day(text):
    """(day, where its rest begins), or (None, (record, code))."""
    end, reader = day_part(text), Reader()
    for row in records_of(text[:end]):
        reader.number += 1
        code = reader.fault(row)
        if code:
            return None, (reader.number, code)
        reader.take(row)
    if not reader.ended:
        return None, (reader.number + 1, "CUT")
    day = reader.day
    day.records = reader.number
    for m in day.messages:
        if m.kind == b"BAT":
            m.stated = m.entries
            m.entries = [(day.account_of.get(debit, 0), day.account_of.get(credit, 0), cents) for debit, credit, cents in m.entries]
    return day, end


def read_alone(text):
    """The same, where only line ends may follow the day."""
    day, end = read_day(text)
    if day and text[end:].strip(b"\r\n"):
        return None, (day.records + 1, "PLACE")
    return day, end


def written(day):
    """The file of a day, of version 2, or of 3 where it is one."""
    lines, stops = ["VER;%d" % max(day.version, 2), "DAY;" + day.date.isoformat()], 0
    lines += ["AS;%s;%s" % (name.decode(), listed.decode()) for name, listed in day.systems]
    lines += ["ACC;%s;%s;%s;%s;%s" % (*(field.decode() for field in account[:4]), euros(account[4])) for account in day.accounts]
    lines += ["RES;%s;%s;%s" % (day.accounts[a - 1][0].decode(), euros(urgent), euros(high)) for a, (urgent, high) in day.kept.items()]
    for m in day.messages:
        lines += ["TIM;" + clock(stop) for stop in day.stops[stops:m.round]]
        stops = max(stops, m.round)
        head = "%s;%s;%s" % (m.kind.decode(), m.sender.decode(), m.name.decode())
        if m.kind == b"BAT":
            times = [label + clock(at) for label, at in (("info=", m.info), ("from=", m.start), ("till=", m.till)) if at is not None]
            lines.append(";".join([head, m.procedure.decode(), str(m.count), euros(m.sum), *times]))
            lines += ["ENT;%s;%s;%s" % (debit.decode(), credit.decode(), euros(cents)) for debit, credit, cents in m.stated]
        elif m.kind == b"PAY":
            lines.append("%s;%s;%s;%s;%s" % (head, "H" if m.high else "N", m.debit.decode(), m.credit.decode(), euros(m.amount)))
        elif m.kind == b"LIQ":
            lines.append("%s;%s;%s;%s" % (head, m.debit.decode(), m.credit.decode(), euros(m.amount)))
        elif m.kind == b"OBJ":
            lines.append("%s;%s;%s" % (head, m.system.decode(), m.batch.decode()))
        elif m.kind == b"CNF":
            lines.append("%s;%s;%s" % (head, m.batch.decode(), "Y" if m.yes else "N"))
        else:
            lines.append("%s;%s" % (head, "START" if m.begins else "END"))
    lines += ["TIM;" + clock(stop) for stop in day.stops[stops:]]
    return lines + ["END"]


# ---- the machine

URGENT, HIGH, NORMAL = range(3)


class Order:
    """What becomes of a message that is a payment or a batch."""
    __slots__ = ("taken", "code", "booked", "revoked", "all_revoked", "whole", "covered", "asked", "answer", "closed", "began", "last_debit", "cycle",
                 "debits", "credits", "debtors", "technical", "items", "phase")

    def __init__(self):
        self.taken, self.code, self.booked, self.revoked = 0, None, set(), set()
        self.all_revoked = self.whole = self.covered = self.closed = False
        self.asked, self.answer, self.began, self.last_debit, self.cycle = False, None, 0, 0, 0
        self.items, self.phase = (), None


class Machine:
    """A journal, and what it tells. A line is (kind, message, entry, code, moves)."""

    def __init__(self, day):
        self.day, self.lines, self.clock, self.round, self.over = day, [], 0, 0, False
        self.held = [0] + [account[4] for account in day.accounts]
        self.of = [None] + [Order() for _ in day.messages]
        self.open_cycle, self.first_untaken, self.live = {}, 1, []
        self.before_of_sender, self.repeats, seen, last = {}, set(), set(), {}
        for m in day.messages:
            if (m.sender, m.name) in seen:
                self.repeats.add(m.number)
            seen.add((m.sender, m.name))
            self.before_of_sender[m.number] = last.get(m.sender, 0)
            last[m.sender] = m.number
            if m.kind == b"BAT":
                order = self.of[m.number]
                order.technical = day.technical.get((m.sender, m.procedure), 0)
                order.debits = [k for k, entry in enumerate(m.entries, 1) if m.procedure not in (b"A", b"B") or entry[0] != order.technical]
                order.credits = [k for k in range(1, len(m.entries) + 1) if k not in set(order.debits)]
                order.debtors = {}
                for k in order.debits:
                    order.debtors[m.entries[k - 1][0]] = order.debtors.get(m.entries[k - 1][0], 0) + m.entries[k - 1][2]
        self.stops, self.named = sorted({*day.stops, MIDNIGHT}), {}
        self.waiting, self.queued_out, self.queued_in = {}, {}, {}

    # -- what a message is

    def message(self, n):
        return self.day.messages[n - 1]

    def phase(self, n):
        m, order = self.message(n), self.of[n]
        if not order.taken:
            return "untaken"
        if order.code != "OK":
            return "rejected"
        if m.kind not in (b"PAY", b"BAT"):
            return "settled"
        if order.closed:
            return "closed"
        if m.kind == b"PAY":
            return "settled" if order.booked else "open" if self.clock < MIDNIGHT else "overdue"
        count, procedure = len(m.entries), m.procedure
        if order.all_revoked or procedure == b"E" and len(order.revoked) == count:
            return "revoked"
        if procedure == b"A" and order.booked.issuperset(order.credits) or order.whole or procedure == b"D":
            return "settled"
        if procedure in (b"C", b"E") and len(order.booked | order.revoked) == count:
            return "settled"
        if order.covered:
            return "covered"
        if order.asked:
            return "asking" if order.answer is None else "answered"
        if m.info is not None and self.clock < m.info:
            return "information"
        if m.start is not None and self.clock < m.start:
            return "waiting"
        if procedure == b"C":
            return "open" if self.clock < MIDNIGHT and self.open_cycle.get(m.sender) == order.cycle else "overdue"
        return "open" if self.clock < (MIDNIGHT if m.till is None else m.till) else "overdue"

    # -- what is pending: of each account the items that stand on it, with their keys

    def refresh(self, n):
        order = self.of[n]
        for key, account in order.items:
            here = self.waiting[account]
            del here[bisect.bisect_left(here, key)]
        self.queue(n, -1)
        order.phase, order.items = self.phase(n), self.items(n)
        self.queue(n, 1)
        for key, account in order.items:
            bisect.insort(self.waiting.setdefault(account, []), key)

    def queue(self, n, sign):
        """Adds what the pending items of a message would take from accounts and bring to them, or takes it away."""
        m = self.message(n)
        for k in {key[3] for key, _ in self.of[n].items}:
            if m.kind == b"PAY":
                moves = [(self.day.account_of[m.debit], self.day.account_of[m.credit], m.amount)]
            else:
                moves = [m.entries[k - 1]] if k else m.entries
            for debit, credit, cents in moves:
                self.queued_out[debit] = self.queued_out.get(debit, 0) + sign * cents
                self.queued_in[credit] = self.queued_in.get(credit, 0) + sign * cents

    def items(self, n):
        m, order, phase = self.message(n), self.of[n], self.phase(n)
        if phase not in ("open", "covered") or m.kind not in (b"PAY", b"BAT"):
            return []
        if m.kind == b"PAY":
            return [((HIGH if m.high else NORMAL, order.taken, order.taken, 0, n), self.day.account_of[m.debit])]
        active = order.taken if m.info is None and m.start is None else order.began
        if m.procedure == b"B":
            return [((URGENT, active, order.taken, 0, n), account) for account in order.debtors]
        if m.procedure == b"A":
            left = [k for k in order.debits if k not in order.booked] if phase == "open" else []
            if not left:
                left, active = [k for k in order.credits if k not in order.booked], order.last_debit
        else:
            left = [k for k in range(1, len(m.entries) + 1) if k not in order.booked and k not in order.revoked]
        return [((URGENT, active, order.taken, k, n), m.entries[k - 1][0]) for k in left]

    def may_pay(self, n, k, account, least):
        """Whether the item is pending there, nothing blocks it, and the account holds so much."""
        for key, where in self.of[n].items:
            if key[3] == k and where == account:
                first = self.waiting[account][0]
                return (first == key or first[0] == NORMAL) and self.held[account] >= least
        return False

    # -- intake

    def code(self, n):
        day, m = self.day, self.message(n)
        if n in self.repeats:
            return "DU"
        if m.sender not in (day.first_cash if m.kind in (b"PAY", b"LIQ", b"OBJ") else day.system_of):
            return "US"
        if m.kind in (b"BAT", b"CYC"):
            procedure = m.procedure if m.kind == b"BAT" else b"C"
            if not day.lists(m.sender, procedure) or procedure != b"E" and (m.sender, procedure) not in day.technical:
                return "PR"
        return {b"BAT": self.code_of_batch, b"CYC": self.code_of_cycle, b"PAY": self.code_of_payment, b"LIQ": self.code_of_transfer}.get(m.kind, self.code_of_naming)(n, m)

    def code_of_batch(self, n, m):
        procedure, technical = m.procedure, self.of[n].technical
        if not m.entries or m.count != len(m.entries):
            return "CT"
        if m.sum != sum(entry[2] for entry in m.entries):
            return "SM"
        if procedure in (b"A", b"B") and sum(e[2] for e in m.entries if e[1] == technical) != sum(e[2] for e in m.entries if e[0] == technical):
            return "NZ"
        if not all(self.entry_fits(m, technical, debit, credit) for debit, credit, _ in m.entries):
            return "EN"
        if procedure in (b"C", b"D"):
            if m.info is not None or m.till is not None:
                return "TI"
        else:
            till = MIDNIGHT if m.till is None else m.till
            if not self.clock < till or any(at is not None and not self.clock < at < till for at in (m.info, m.start)):
                return "TI"
            if m.info is not None and m.start is not None and m.info > m.start:
                return "TI"
        return "CY" if procedure == b"C" and m.sender not in self.open_cycle else "OK"

    def entry_fits(self, m, technical, debit, credit):
        day = self.day
        kinds = (day.kind(debit), day.kind(credit))
        if m.procedure == b"E":
            return kinds == (b"DCA", b"DCA") and debit != credit
        if m.procedure == b"D":
            return debit == technical and kinds[1] == b"DCA"
        other = credit if debit == technical else debit if credit == technical else 0
        if m.procedure == b"C":
            return day.kind(other) == b"SUB" and day.link(other) == m.sender
        return day.kind(other) == b"DCA"

    def code_of_cycle(self, n, m):
        return "CY" if m.begins == (m.sender in self.open_cycle) else "OK"

    def code_of_payment(self, n, m):
        day, debit, credit = self.day, self.day.account_of.get(m.debit, 0), self.day.account_of.get(m.credit, 0)
        fits = day.kind(debit) == b"DCA" and day.owner(debit) == m.sender and day.kind(credit) == b"DCA" and debit != credit
        return "OK" if fits else "AC"

    def code_of_transfer(self, n, m):
        day, debit, credit = self.day, self.day.account_of.get(m.debit, 0), self.day.account_of.get(m.credit, 0)
        kinds, own = (day.kind(debit), day.kind(credit)), (day.owner(debit) == m.sender, day.owner(credit) == m.sender)
        if not (kinds in ((b"DCA", b"SUB"), (b"SUB", b"DCA")) and all(own) or kinds == (b"DCA", b"TEC") and own[0] and day.link(credit) == b"D"):
            return "AC"
        if kinds[0] == b"SUB" and day.link(debit) in self.open_cycle:
            return "LK"
        return "NC" if self.held[debit] < m.amount + sum(day.kept.get(debit, (0, 0))) else "OK"

    def code_of_naming(self, n, m):
        aim = self.named.get((m.system, m.batch))
        if aim is None:
            return "BT"
        if self.phase(aim) != ("information" if m.kind == b"OBJ" else "asking"):
            return "PH"
        if m.kind == b"OBJ" and not self.entries_of(aim, m.sender):
            return "NP"
        return "OK"

    def entries_of(self, n, bank):
        return [k for k, (debit, credit, _) in enumerate(self.message(n).entries, 1) if bank in (self.day.owner(debit), self.day.owner(credit))]

    # -- the line of a want, or None

    def line(self, kind, n, k):
        count = len(self.day.messages)
        if self.over:
            return None
        if kind == "IN":
            if not 1 <= n <= count or self.of[n].taken or self.message(n).round > self.round:
                return None
            before = self.before_of_sender[n]
            return None if before and not self.of[before].taken else self.intake(n)
        if kind == "TIME":
            return self.time()
        if kind == "END":
            return self.end() if self.clock == MIDNIGHT and not self.is_ready() else None
        if kind == "SWEEP":
            if self.day.kind(k if 1 <= k <= len(self.day.accounts) else 0) != b"SUB" or self.clock != MIDNIGHT or not self.held[k]:
                return None
            return ("SWEEP", 0, k, "OK", ((k, self.day.first_cash[self.day.owner(k)], self.held[k]),))
        if not 1 <= n <= count or not self.of[n].taken or self.of[n].code != "OK" or self.message(n).kind not in (b"PAY", b"BAT"):
            return None
        return {"BOOK": self.book, "ALL": self.all, "EXPIRE": self.expire, "ASK": self.ask, "COVER": self.cover, "REFUSE": self.refuse}[kind](n, k)

    def intake(self, n):
        m, code, moves = self.message(n), self.code(n), []
        if code == "OK" and m.kind == b"LIQ":
            moves = [(self.day.account_of[m.debit], self.day.account_of[m.credit], m.amount)]
        if code == "OK" and m.kind == b"BAT" and m.procedure == b"D":
            left = self.held[self.of[n].technical]
            for entry in m.entries:
                if entry[2] <= left:
                    left -= entry[2]
                    moves.append(entry)
        return ("IN", n, 0, code, tuple(moves))

    def book(self, n, k):
        m = self.message(n)
        if m.kind == b"PAY":
            debit, keeps = self.day.account_of[m.debit], self.day.kept.get(self.day.account_of[m.debit], (0, 0))
            if k or not self.may_pay(n, 0, debit, m.amount + (keeps[0] if m.high else sum(keeps))):
                return None
            return ("BOOK", n, 0, "OK", ((debit, self.day.account_of[m.credit], m.amount),))
        if m.procedure == b"B" or not 1 <= k <= len(m.entries):
            return None
        entry = m.entries[k - 1]
        return ("BOOK", n, k, "OK", (entry,)) if self.may_pay(n, k, entry[0], entry[2]) else None

    def all(self, n, k):
        m, order = self.message(n), self.of[n]
        if k or m.kind != b"BAT" or m.procedure != b"B" or not all(self.may_pay(n, 0, account, least) for account, least in order.debtors.items()):
            return None
        return ("ALL", n, 0, "OK", tuple(m.entries[i - 1] for i in order.debits + order.credits))

    def reversal(self, n):
        m, order = self.message(n), self.of[n]
        if m.kind != b"BAT" or m.procedure != b"A":
            return ()
        return tuple((order.technical, m.entries[k - 1][0], m.entries[k - 1][2]) for k in order.debits if k in order.booked)

    def may_ask(self, n):
        m = self.message(n)
        return m.kind == b"BAT" and m.procedure in (b"A", b"B") and self.phase(n) == "overdue" and m.sender in self.day.fund and self.clock < MIDNIGHT

    def ask(self, n, k):
        return ("ASK", n, 0, "OK", ()) if not k and self.may_ask(n) else None

    def expire(self, n, k):
        if k or self.phase(n) != "overdue" or self.may_ask(n):
            return None
        m = self.message(n)
        if m.kind == b"PAY":
            code = "ED"
        elif m.procedure == b"C":
            code = "ED" if self.open_cycle.get(m.sender) == self.of[n].cycle else "CE"
        else:
            code = "PE"
        return ("EXPIRE", n, 0, code, self.reversal(n))

    def need(self, n):
        m, order = self.message(n), self.of[n]
        if m.procedure == b"A":
            return sum(m.entries[k - 1][2] for k in order.debits if k not in order.booked)
        return sum(least for account, least in order.debtors.items() if self.held[account] < least)

    def cover(self, n, k):
        m, order = self.message(n), self.of[n]
        if k or self.phase(n) != "answered" or not order.answer or self.held[self.day.fund[m.sender]] < self.need(n):
            return None
        fund = self.day.fund[m.sender]
        if m.procedure == b"A":
            return ("COVER", n, 0, "OK", tuple((fund, order.technical, m.entries[i - 1][2]) for i in order.debits if i not in order.booked))
        short = {account for account, least in order.debtors.items() if self.held[account] < least}
        debits = [m.entries[i - 1] for i in order.debits]
        paid = [(fund if debit in short else debit, credit, cents) for debit, credit, cents in debits]
        return ("COVER", n, 0, "OK", tuple(paid + [m.entries[i - 1] for i in order.credits]))

    def refuse(self, n, k):
        m, order, phase = self.message(n), self.of[n], self.phase(n)
        if k:
            return None
        if phase == "answered" and not order.answer:
            code = "GN"
        elif phase == "answered" and self.held[self.day.fund[m.sender]] < self.need(n):
            code = "GS"
        elif phase == "asking" and self.clock == MIDNIGHT:
            code = "GE"
        else:
            return None
        return ("REFUSE", n, 0, code, self.reversal(n))

    def item_line(self, n, k):
        """The line of an item at its visit."""
        if k:
            return self.line("BOOK", n, k)
        phase = self.phase(n)
        kinds = {"open": ("BOOK", "ALL"), "overdue": ("EXPIRE", "ASK"), "asking": ("REFUSE",), "answered": ("COVER", "REFUSE")}.get(phase, ())
        return next(filter(None, (self.line(kind, n, 0) for kind in kinds)), None)

    def all_items(self):
        """The items of the messages that aren't at their end, by message and entry; of entries those that are pending when their turn comes."""
        for n in list(self.live):
            yield n, 0
            k = 0
            while k is not None:
                k = min((key[3] for key, _ in self.of[n].items if key[3] > k), default=None)
                if k is not None:
                    yield n, k

    def first_ready(self):
        for n, k in self.all_items():
            line = self.item_line(n, k)
            if line:
                return line
        if self.clock == MIDNIGHT:
            for a in range(1, len(self.day.accounts) + 1):
                line = self.line("SWEEP", 0, a)
                if line:
                    return line
        return None

    def is_ready(self):
        return self.first_ready() is not None

    def time(self):
        return None if self.clock == MIDNIGHT or self.is_due() or self.is_ready() else self.next_time()

    def is_due(self):
        """Whether a message whose turn has come isn't taken. The least that isn't taken may be taken then: no earlier one of its sender is left."""
        return self.first_untaken <= len(self.day.messages) and self.message(self.first_untaken).round <= self.round

    def next_time(self):
        return ("TIME", 0, self.stops[bisect.bisect_right(self.stops, self.clock)], "OK", ())

    @staticmethod
    def end():
        return ("END", 0, 0, "OK", ())

    # -- a line is made

    def push(self, line):
        kind, n, k, code, moves = line
        self.lines.append(line)
        place = len(self.lines)
        for debit, credit, cents in moves:
            self.held[debit] -= cents
            self.held[credit] += cents
            assert self.held[debit] >= 0
        if kind == "IN":
            self.took(n, code, place)
        elif kind == "TIME":
            self.clock = k
            self.round = bisect.bisect_right(self.day.stops, k)
            for i in self.live:
                m, order = self.message(i), self.of[i]
                begins = m.start if m.start is not None else m.info
                if begins is not None and not order.began and begins <= k:
                    order.began = place
                if self.phase(i) != order.phase:
                    self.refresh(i)
        elif kind == "END":
            self.over = True
        elif kind != "SWEEP":
            m, order = self.message(n), self.of[n]
            if kind == "BOOK":
                order.booked.add(k)
                if m.kind == b"BAT" and m.procedure == b"A" and k in order.debits:
                    order.last_debit = place
            elif kind == "ALL":
                order.whole = True
            elif kind == "ASK":
                order.asked = True
            elif kind == "COVER":
                order.covered, order.last_debit, order.whole = True, place, m.procedure == b"B"
            else:
                order.closed = True
            self.done_with(n)

    def done_with(self, n):
        self.refresh(n)
        if self.phase(n) in ("settled", "closed", "revoked"):
            self.live.remove(n)

    def took(self, n, code, place):
        m, order = self.message(n), self.of[n]
        order.taken, order.code = place, code
        while self.first_untaken <= len(self.day.messages) and self.of[self.first_untaken].taken:
            self.first_untaken += 1
        if code != "OK":
            return
        if m.kind == b"CYC":
            if m.begins:
                self.open_cycle[m.sender] = place
            else:
                del self.open_cycle[m.sender]
            for i in self.live:
                if self.message(i).kind == b"BAT" and self.message(i).procedure == b"C" and self.message(i).sender == m.sender:
                    self.refresh(i)
        elif m.kind == b"OBJ":
            aim = self.named[m.system, m.batch]
            if self.message(aim).procedure == b"E":
                self.of[aim].revoked.update(self.entries_of(aim, m.sender))
            else:
                self.of[aim].all_revoked = True
            self.done_with(aim)
        elif m.kind == b"CNF":
            aim = self.of[self.named[m.sender, m.batch]]
            aim.answer = m.yes if aim.answer is None else aim.answer
        elif m.kind in (b"PAY", b"BAT"):
            if m.kind == b"BAT":
                self.named.setdefault((m.sender, m.name), n)
                order.cycle = self.open_cycle.get(m.sender) if m.procedure == b"C" else 0
                self.stops = sorted({*self.stops, *(at for at in (m.info, m.start, m.till) if at is not None)})
            if self.phase(n) != "settled":
                bisect.insort(self.live, n)
                self.refresh(n)


def plain(day, hook=None):
    """The machine at the end of the day in the written order."""
    machine = Machine(day)

    def make(line):
        machine.push(line)
        if hook:
            hook(machine)

    while not machine.over:
        while machine.is_due():
            make(machine.line("IN", machine.first_untaken, 0))
        made = True
        while made:
            made = False
            for n, k in machine.all_items():
                line = machine.item_line(n, k)
                if line:
                    make(line)
                    made = True
        if machine.clock == MIDNIGHT:
            for a in range(1, len(day.accounts) + 1):
                line = machine.line("SWEEP", 0, a)
                if line:
                    make(line)
        make(machine.end() if machine.clock == MIDNIGHT else machine.next_time())
    return machine


def stored(day):
    """The machine at the end of the day in the order of a store."""
    machine = Machine(day)
    while not machine.over:
        line = machine.line("IN", machine.first_untaken, 0) if machine.is_due() else None
        machine.push(line or machine.first_ready() or (machine.end() if machine.clock == MIDNIGHT else machine.next_time()))
    return machine


# ---- texts

def line_text(place, line):
    kind, n, k, code, moves = line
    return ["J;%d;%s;%d;%d;%s;%d" % (place, kind, n, k, code, len(moves))] + ["M;%d;%d;%s" % (debit, credit, euros(cents)) for debit, credit, cents in moves]


def journal_text(lines):
    return [text for place, line in enumerate(lines, 1) for text in line_text(place, line)]


def told(day, lines, hook=None):
    """The status messages of the lines of a journal, which are pushed one by one, and the machine behind them."""
    machine, said = Machine(day), []
    names = [account[0].decode() for account in day.accounts]
    owners = [account[2].decode() for account in day.accounts]
    for place, line in enumerate(lines, 1):
        kind, n, k, code, moves = line
        revoked = None
        if kind == "IN" and code == "OK" and machine.message(n).kind == b"OBJ":
            aim = machine.named[machine.message(n).system, machine.message(n).batch]
            revoked = set(machine.of[aim].revoked)
        for debit, credit, cents in moves:
            said.append("S;%d;%s;DBIT;%s;%s" % (place, owners[debit - 1], names[debit - 1], euros(cents)))
            said.append("S;%d;%s;CRDT;%s;%s" % (place, owners[credit - 1], names[credit - 1], euros(cents)))
        machine.push(line)

        def turn(to, what, about, entry, reason):
            m = machine.message(about)
            said.append("S;%d;%s;%s;%d;%s;%s;%d;%s" % (place, to.decode(), what, about, m.sender.decode(), m.name.decode(), entry, reason))

        if kind == "IN":
            m = machine.message(n)
            turn(m.sender, "ACPT" if code == "OK" else "DUPL" if code == "DU" else "RJCT", n, 0, code)
            if code == "OK" and m.kind == b"BAT" and m.info is not None:
                here = {day.owner(account) for entry in m.entries for account in entry[:2]}
                for bank in sorted(here & set(day.first_cash), key=day.first_cash.get):
                    turn(bank, "INFO", n, 0, "OK")
            if revoked is not None:
                batch = machine.message(aim)
                if batch.procedure == b"E":
                    for entry in sorted(machine.of[aim].revoked - revoked):
                        turn(batch.sender, "RVKD", aim, entry, "OK")
                if machine.phase(aim) == "revoked":
                    turn(batch.sender, "RVKD", aim, 0, "OK")
            if code == "OK" and m.kind == b"BAT" and m.procedure == b"D":
                left = machine.held[machine.of[n].technical] + sum(move[2] for move in moves)
                for entry, (_, _, cents) in enumerate(m.entries, 1):
                    if cents <= left:
                        left -= cents
                    else:
                        turn(m.sender, "RJCT", n, entry, "NC")
                turn(m.sender, "SETL", n, 0, "OK")
        elif kind == "ASK":
            turn(machine.message(n).sender, "ASKG", n, 0, "OK")
        elif kind in ("EXPIRE", "REFUSE"):
            turn(machine.message(n).sender, "FAIL", n, 0, code)
        elif kind in ("BOOK", "ALL", "COVER") and machine.phase(n) == "settled":
            turn(machine.message(n).sender, "SETL", n, 0, "OK")
        if hook:
            hook(machine)
    return said, machine


def output(day, lines, said, machine):
    closing = ["B;%s;%s" % (account[0].decode(), euros(machine.held[a])) for a, account in enumerate(day.accounts, 1)]
    return journal_text(lines) + said + closing + ["OK;%d" % len(lines)]


WORDS = {"ACPT": "ACCEPTED", "DUPL": "REPEATED", "RJCT": "REJECTED", "ASKG": "ASKED", "FAIL": "FAILED", "RVKD": "REVOKED", "SETL": "SETTLED"}


def view(day, said, party):
    """What a party knows by the status messages to it."""
    held = {account[0].decode(): account[4] for account in day.accounts if account[2].decode() == party}
    words, count = {}, 0
    for text in said:
        fields = text.split(";")
        if fields[2] != party:
            continue
        count += 1
        if fields[3] in ("DBIT", "CRDT"):
            held[fields[4]] += int(fields[5].replace(".", "")) * (1 if fields[3] == "CRDT" else -1)
        elif fields[3] != "INFO" and fields[7] == "0":
            words[int(fields[4])] = WORDS[fields[3]]
    lines = ["B;%s;%s" % (name, euros(cents)) for name, cents in held.items()]
    lines += ["P;%d;%s;%s" % (m.number, m.name.decode(), words.get(m.number, "NONE")) for m in day.messages if m.sender.decode() == party]
    return lines + ["OK;%d" % count]


class Figures:
    """A bank's figures after each line of a journal: a hook of `told`."""

    def __init__(self, day, bank):
        self.own = {a for a, account in enumerate(day.accounts, 1) if account[1] == b"DCA" and account[2].decode() == bank}
        self.out = self.into = 0
        self.lines = []

    def __call__(self, machine):
        own = self.own
        for debit, credit, cents in machine.lines[-1][4]:
            self.out += cents if debit in own else 0
            self.into += cents if credit in own else 0
        queued_out, queued_in = (sum(queue.get(a, 0) for a in own) for queue in (machine.queued_out, machine.queued_in))
        position = sum(machine.held[a] for a in own)
        projected = position - queued_out + queued_in
        sign = "-" if projected < 0 else ""
        self.lines.append("V;%d;%s;%s;%s;%s;%s;%s" % (len(machine.lines), euros(self.out), euros(self.into), euros(queued_out), euros(queued_in),
                                                    euros(position), sign + euros(abs(projected))))


# ---- a journal that somebody else wrote

HEAD = re.compile(r"J;([1-9][0-9]{0,9});([A-Z]+);(0|[1-9][0-9]{0,9});(0|[1-9][0-9]{0,9});([A-Z]{2});(0|[1-9][0-9]{0,9})")
MOVE = re.compile(r"M;([1-9][0-9]{0,3});([1-9][0-9]{0,3});((?:0|[1-9][0-9]{0,16})\.[0-9]{2})")
KINDS = ("IN", "BOOK", "ALL", "TIME", "EXPIRE", "ASK", "COVER", "REFUSE", "SWEEP", "END")


def judged(day, text):
    """(the lines of a journal, None), or (those before the first that is wrong, its place). Whether it is complete isn't asked."""
    machine, rows, at = Machine(day), text.split("\n"), 0
    if rows[-1] != "":
        rows.append(None)
    rows.pop()
    while at < len(rows):
        place = len(machine.lines) + 1
        head = HEAD.fullmatch(rows[at] or "")
        if not head or int(head[1]) != place or head[2] not in KINDS:
            return machine, place
        moves = [MOVE.fullmatch(row or "") for row in rows[at + 1:at + 1 + int(head[6])]]
        if len(moves) != int(head[6]) or not all(moves):
            return machine, place
        moves = tuple((int(move[1]), int(move[2]), int(move[3].replace(".", ""))) for move in moves)
        line = (head[2], int(head[3]), int(head[4]), head[5], moves)
        if machine.line(head[2], line[1], line[2]) != line:
            return machine, place
        machine.push(line)
        at += 1 + len(moves)
    return machine, None


# ---- stores and chains

def entry_of(place, line):
    text = "".join(row + "\n" for row in line_text(place, line)).encode()
    return len(text).to_bytes(4, "big") + text


def store_of(lines):
    return b"".join(b"\1" + entry_of(place, line) for place, line in enumerate(lines, 1)) + b"\0"


def lines_of(lines, disk):
    """How many of these lines stand at the front of a store."""
    at = count = 0
    while count < len(lines) and disk[at:at + 1] == b"\1":
        entry = entry_of(count + 1, lines[count])
        if disk[at + 1:at + 1 + len(entry)] != entry:
            break
        at += 1 + len(entry)
        count += 1
    return count


def gate_of(lines, disk):
    """Where the closed gate stands behind them."""
    return len(store_of(lines[:lines_of(lines, disk)])) - 1


def put_over(disk, at, piece):
    return disk[:at] + piece + disk[at + len(piece):]


def disk_run(lines, disk, calls):
    """What a disk shows on which a run goes on to the end with these lines while so many calls pass, and the status."""
    opening = 2 + 3 * lines_of(lines, disk) if disk else 4
    if not disk and calls:
        disk = b"\0"
    if calls < opening:
        return disk, 8
    at, calls = gate_of(lines, disk), calls - opening
    for place in range(lines_of(lines, disk) + 1, len(lines) + 1):
        entry = entry_of(place, lines[place - 1])
        if calls > 0:
            disk = put_over(disk, at + 1, entry + b"\0")
        if calls > 2:
            disk = put_over(disk, at, b"\1")
        if calls < 4:
            return disk, 8
        at, calls = at + 1 + len(entry), calls - 4
    return disk, 0


def join_fault(last, held, day):
    """What keeps a day from joining the one before it, and the account."""
    if day.date != next_open(last.date):
        return "GAP", 0
    if day.systems != last.systems:
        return "SETUP", 0
    for a in range(1, max(len(day.accounts), len(last.accounts)) + 1):
        if a > min(len(day.accounts), len(last.accounts)) or day.accounts[a - 1][:4] != last.accounts[a - 1][:4]:
            return "SETUP", a
    for a, account in enumerate(day.accounts, 1):
        if account[4] != (0 if account[1] == b"TEC" else held[a]):
            return "OPEN", a
    return None


class Chain:
    """Days one after the other: their journals, and the sums of each account by years."""

    def __init__(self):
        self.lines, self.years, self.count, self.last, self.held = [], {}, 0, None, None

    def take(self, day):
        """Settles a day, or says what keeps it from joining."""
        self.count += 1
        fault = join_fault(self.last, self.held, day) if self.last else None
        if fault:
            self.lines.append("CHAIN;%d;%s;%d" % (self.count, *fault))
            return fault
        machine = plain(day)
        self.last, self.held = day, machine.held
        self.lines.append("D;" + day.date.isoformat())
        self.lines += journal_text(machine.lines)
        rows = self.years.setdefault(day.date.year, [[account[0].decode(), account[4], 0, 0, 0] for account in day.accounts])
        for line in machine.lines:
            for debit, credit, cents in line[4]:
                rows[debit - 1][2] += cents
                rows[credit - 1][3] += cents
        for a, account in enumerate(day.accounts):
            if account[1] == b"TEC":
                rows[a][4] += machine.held[a + 1]
        return None

    def whole(self):
        lines = list(self.lines)
        for year, rows in self.years.items():
            for name, opening, out, into, aside in rows:
                lines.append("Y;%d;%s;%s;%s;%s;%s;%s" % (year, name, euros(opening), euros(out), euros(into), euros(aside), euros(opening + into - out - aside)))
        return lines + ["OK;%d" % self.count]


def chain_of(text):
    """The status and the lines of a chain of days."""
    chain = Chain()
    while not chain.count or text.strip(b"\r\n"):
        day, end = read_day(text)
        if day is None:
            return 3, chain.lines + ["E;%d;%d;%s" % (chain.count + 1, *end)]
        if chain.take(day):
            return 8, chain.lines
        text = text[end:]
    return 0, chain.whole()
