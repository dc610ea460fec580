#!/usr/bin/env python3
"""Days that are made to go wrong, tried on all programs, and judged by a second machine.

    tests/hostile/hostile.py [KIND] [jobs=N] [seconds=N] FIRST COUNT rtgs=PATH [NAME=PATH..]    tries these programs
    tests/hostile/hostile.py [KIND] FIRST                 prints the day of this number, before reservations

A number makes the same day on every machine. KIND is `small` (what is taken where none is said), `large`, `aimed`, `edges` or
`chains`. The days aim at edges: all procedures on one account, amounts that are a cent more or less than what an account or a fund
holds, equal times, senders that are nobody, repeats across kinds of messages, batches with one thing wrong, names of full length or
spelt like words of the format; large ones have all systems, accounts and stops that there may be, or long batches. Aimed ones are
made of a few stories, each about one edge: a fund that is a cent short or shared by two batches, answers and objections a second
early or late, cycles and transfers that meet midnight, queues whose heads are covered one by one but not together. Those of `edges`
have besides cycles that end as they start, the greatest amounts, openings and counts, information ends and earliest times that meet
each other, a stop or the settlement end, names that differ in their last letter alone, items that become active in another order than
they were taken.

One day in three is of version 1; the others are of version 2 or 3 and have reservations and earliest times at the edges of their
balances, amounts and times. second_machine.py, which shares nothing with the programs, says what each program has to write, byte for
byte: `check`, `migrate`, `settle` without workers, also of the day with quotes, other line ends and a byte order mark; by workers
it judges the journal line by line, and works out the rest of the output from it. `replay` of the journal, and of one with a change;
`follow` for each party (six of a large day); views of two parties, at all places or some, and the figures of a page, of the journal
or a front of it; a run on a disk (of days of at most 500 messages) that is cut at some call, other bytes behind the closed gate, a
second run over it, cut or not, and what it shows; the day in a chain with the next open ones, the last of which may not join; the day
as it comes in (of at most 500 messages), and after a break. Last the day is changed in one place, twice: it is settled, or refused by
all programs alike with the record and code of the second machine, and as a live day it goes on; so it does with up to five changes
behind its first message.
The kind `chains` is another one: each number is a chain of twelve days over one setup, with the stories of `aimed` or `edges`, which
day_chain alone settles at one go; so days are many and cheap.
The last line is 'N days, M failed', or, of chains, how many of these.
"""
import collections
import concurrent.futures
import os
import sys
import time

sys.dont_write_bytecode = True
sys.path.insert(0, os.path.dirname(os.path.dirname(os.path.abspath(__file__))) + "/machines")
import live_machine as live
import second_machine as second
from running import CHAIN, LIVE, PAGE, RTGS, STORE, VIEW, Runs, builds_of

LETTERS = "ABCDE"
WORDS = "END DAY OK J S M B ACC DCA TEC FND SUB N H Y START PAY A 0 1".split()
EDGES = [1, 3600, 32400, 32401, 36000, 39600, 43200, 61200, 86398, 86399]
MIDNIGHT = 86400
STORY_TIMES = [1, 36000, 36000, 36001, 43200, 61200, 86398, 86399]
MOST_AMOUNT = 9_999_999_999_999


def euros(cents):
    return f"{cents // 100}.{cents % 100:02}"


def cents(text):
    return int(text.replace(".", ""))


def clock(seconds):
    return f"{seconds // 3600:02}:{seconds // 60 % 60:02}:{seconds % 60:02}"


def seconds(text):
    hours, minutes, rest = map(int, text.split(":"))
    return 3600 * hours + 60 * minutes + rest


class Chance:
    """Numbers that are the same by every version of Python."""

    def __init__(self, number):
        self.state = number

    def below(self, n):
        self.state = (self.state + 0x9E3779B97F4A7C15) % 2**64
        z = self.state
        z = (z ^ z >> 30) * 0xBF58476D1CE4E5B9 % 2**64
        z = (z ^ z >> 27) * 0x94D049BB133111EB % 2**64
        return (z ^ z >> 31) % n

    def of(self, things):
        return things[self.below(len(things))]

    def hits(self, percent):
        return self.below(100) < percent

    def mix(self, things):
        for i in range(len(things) - 1, 0, -1):
            j = self.below(i + 1)
            things[i], things[j] = things[j], things[i]


class Sizes:
    """How much of each a day has."""

    def __init__(self, chance, kind, number):
        self.systems, self.banks, self.messages = chance.of([0, 1, 1, 2, 2, 3]), chance.of([1, 2, 2, 3, 3, 4]), chance.below(32)
        self.entries, self.stops, self.accounts, self.spread = 1 + chance.below(6), len(EDGES), 4096, 1
        if kind == "large":
            self.systems, self.banks, self.messages, self.entries = 8, 200, 2000, 8
            if number % 4 == 0:
                self.systems, self.banks = 256, 2000
            elif number % 4 == 1:
                self.systems, self.banks, self.messages = 3, 3, 4000
            elif number % 4 == 2:
                self.stops = 1500
            else:
                self.messages, self.entries = 150, 1000


class Making:
    """A day in the making."""

    def __init__(self, number, kind):
        self.chance = Chance(number * 2 + (kind == "large"))
        self.sizes = Sizes(self.chance, kind, number)
        self.style, self.poor = self.chance.below(3), self.chance.hits(35)
        self.flaws, self.flawed = self.chance.of([0, 0, 3, 8, 25]), 0
        self.rows, self.held, self.kinds = [], {}, {}
        self.batches, self.ids, self.cycles, self.answered, self.now = [], [], {}, set(), 0

    def name(self, letter, i):
        if self.style == 1:
            return (letter + "ANAMETHATISASLONGASITMAYBEANDSHARED")[:34 - 6] + f"{i:06}"
        if self.style == 2 and i < 3:
            return WORDS[(7 * i + ord(letter)) % len(WORDS)]
        return letter + str(i)

    # -- the setup

    def opening(self, kind="DCA"):
        if self.poor and kind == "DCA":
            return self.chance.of([0, 0, 1, self.chance.below(200)])
        return self.chance.of([0, 0, 1, 100, 9999, 10000, 10000, 10001, self.chance.below(20000), self.chance.below(20000), 12345678900])

    def account(self, letter, kind, owner, link, opening):
        name = self.name(letter, len(self.held))
        if name in self.held or len(self.held) >= self.sizes.accounts:
            return
        self.held[name] = opening
        self.kinds.setdefault((kind, owner, link), []).append(name)
        self.kinds.setdefault(kind, []).append(name)
        self.rows.append(f"ACC;{name};{kind};{owner};{link};{euros(opening)}")

    def procedures(self):
        if self.chance.hits(70):
            return LETTERS
        return "".join(letter for letter in LETTERS if self.chance.hits(50)) or "B"

    def setup(self):
        chance = self.chance
        self.banks = [self.name("B", i) for i in range(self.sizes.banks)]
        self.systems = [name for name in dict.fromkeys(self.name("S", i) for i in range(self.sizes.systems)) if name not in self.banks]
        self.lists = {system: self.procedures() for system in self.systems}
        systems = [f"AS;{system};{self.lists[system]}" for system in self.systems]
        for bank in dict.fromkeys(self.banks):
            for _ in range(1 + chance.hits(30)):
                self.account("X", "DCA", bank, "", self.opening())
        self.rows = self.rows + systems if chance.hits(50) else systems + self.rows
        jobs = []
        for system in self.systems:
            jobs += [("T", "TEC", system, letter) for letter in self.lists[system] if letter != "E" and chance.hits(92)]
            jobs += [("G", "FND", system, "")] * chance.hits(75)
            jobs += [("U", "SUB", bank, system) for bank in self.banks[:20] if "C" in self.lists[system] and chance.hits(60)]
        chance.mix(jobs)
        for letter, kind, owner, link in jobs:
            self.account(letter, kind, owner, link, self.opening(kind) if kind == "FND" else 0)
        self.focus = chance.of(self.kinds["DCA"]) if chance.hits(40) else None

    # -- fields

    def flaw(self):
        """Whether something is to be wrong here."""
        hits = self.chance.hits(self.flaws)
        self.flawed += hits
        return hits

    def dca(self):
        return self.focus if self.focus and self.chance.hits(70) else self.chance.of(self.kinds["DCA"])

    def any_account(self):
        return self.chance.of(list(self.held)[:50] + ["NOBODY", "X"])

    def owned(self, kind, owner, link):
        return self.chance.of(self.kinds.get((kind, owner, link), ["NONE"]))

    def bank_of(self, account):
        for (kind, owner, _), names in ((key, value) for key, value in self.kinds.items() if isinstance(key, tuple)):
            if kind == "DCA" and account in names:
                return owner
        return "NOBODY"

    def sender(self, right):
        return self.chance.of(self.banks[:9] + self.systems[:9] + ["NOBODY", self.any_account()]) if self.flaw() else right

    def identification(self):
        if self.ids and self.chance.hits(8):
            return self.chance.of(self.ids)
        i = len(self.ids)
        self.ids.append(self.chance.of([f"P{i}", f"p{i}", f"-{i}", f"{i}", f"{i:035}"]))
        return self.ids[-1]

    def amount(self, account):
        funds = self.kinds.get("FND", [])
        base = [self.held.get(account, 0), self.held.get(account, 0) // 2, self.chance.below(10000), 100, 1]
        if funds:
            fund = self.held[self.chance.of(funds)]
            base += [fund, self.held.get(account, 0) + fund]
        return min(max(self.chance.of(base) + self.chance.of([0, 0, 0, 1, -1]), 1), MOST_AMOUNT)

    def time(self):
        later = [edge for edge in EDGES + [86400] if edge > self.now]
        return self.chance.of(later) if not self.flaw() else self.chance.of([0, self.now, 86400])

    def receiver(self, debit):
        """A cash account, mostly another than that which pays."""
        others = [name for name in self.kinds["DCA"][:200] if name != debit]
        return self.chance.of(others) if others and not self.flaw() else self.chance.of(self.kinds["DCA"])

    # -- messages

    def lacking(self, account, system):
        """What the system's fund holds, a cent more or less, or that above what the account holds."""
        fund = self.held.get(self.owned("FND", system, ""), 0)
        return min(max(fund + self.chance.of([0, 0, self.held[account], 1, -1]), 1), MOST_AMOUNT)

    def parts(self, total, count):
        """The total in as many parts of at least a cent, or fewer."""
        cuts = sorted({0, total} | {self.chance.below(total) for _ in range(count - 1)})
        return [high - low for low, high in zip(cuts, cuts[1:])]

    def entries_of(self, procedure, system, count):
        chance, technical = self.chance, self.owned("TEC", system, procedure)
        if procedure in "AB":
            debits = [(self.dca(), technical) for _ in range(count)]
            debits = [(*pair, self.lacking(pair[0], system) if chance.hits(40) else self.amount(pair[0])) for pair in debits]
            total = sum(entry[2] for entry in debits) + (chance.of([1, -1]) if self.flaw() else 0)
            credits = [(technical, self.dca(), part) for part in self.parts(max(total, 1), 1 + chance.below(count + 1))]
            entries = debits + [(*entry[:2], min(entry[2], MOST_AMOUNT)) for entry in credits]
            if chance.hits(30):
                chance.mix(entries)
            return entries
        if procedure == "C":
            subs = [name for bank in self.banks[:20] for name in self.kinds.get(("SUB", bank, system), [])] or ["NONE"]
            pairs = [(chance.of(subs), technical) if chance.hits(70) else (technical, chance.of(subs)) for _ in range(count)]
        elif procedure == "D":
            pairs = [(technical, self.dca()) for _ in range(count)]
        else:
            payers = [self.dca() for _ in range(count)]
            pairs = [(payer, self.receiver(payer)) for payer in payers]
        return [(*pair, self.amount(pair[0] if pair[0] != technical else self.dca())) for pair in pairs]

    def batch(self):
        chance, system, flawed = self.chance, self.chance.of(self.systems), self.flawed
        procedure = chance.of(LETTERS if self.flaw() else self.lists[system])
        entries = self.entries_of(procedure, system, 1 + chance.below(self.sizes.entries))
        if entries and self.flaw():
            entries[chance.below(len(entries))] = (self.any_account(), self.any_account(), self.amount("NONE"))
        info = till = None
        if procedure in "ABE" or self.flaw():
            till = self.time() if chance.hits(65) else None
            info = self.time() if chance.hits(25) else None
            if info and till and info > till and chance.hits(80):
                info, till = till, info
        count = len(entries) + (chance.of([1, -1, 7]) if self.flaw() else 0)
        total = sum(entry[2] for entry in entries) + (chance.of([1, -1]) if self.flaw() else 0)
        sender, name = self.sender(system), self.identification()
        ends = [clock(end) if end is not None else "" for end in (info, till)]
        self.rows.append(f"BAT;{sender};{name};{procedure};{ends[0]};{ends[1]};{max(count, 0)};{euros(max(total, 0))}")
        self.rows += [f"ENT;{debit};{credit};{euros(amount)}" for debit, credit, amount in entries]
        self.batches.append((system, name, procedure, info or 0, till or 86400, [entry[0] for entry in entries], self.flawed == flawed))

    def payment(self):
        debit = self.any_account() if self.flaw() else self.dca()
        credit = self.any_account() if self.flaw() else self.receiver(debit)
        sender, name = self.sender(self.bank_of(debit)), self.identification()
        self.rows.append(f"PAY;{sender};{name};{self.chance.of('HN')};{debit};{credit};{euros(self.amount(debit))}")

    def transfer(self):
        chance, debit = self.chance, self.dca()
        bank = self.bank_of(debit)
        subs = [name for key, names in self.kinds.items() if isinstance(key, tuple) and key[:2] == ("SUB", bank) for name in names]
        pools = [name for system in self.systems[:9] for name in self.kinds.get(("TEC", system, "D"), [])]
        credit = chance.of(subs * 2 + pools or ["NONE"])
        amount = self.amount(debit)
        if credit in subs and chance.hits(25):
            debit, credit = credit, debit
        if self.flaw():
            debit, credit = self.any_account(), self.any_account()
        self.rows.append(f"LIQ;{self.sender(bank)};{self.identification()};{debit};{credit};{euros(amount)}")

    def named(self, wanted):
        """A batch to be named: mostly one of those that are wanted."""
        right = [batch for batch in self.batches[-200:] if batch[6] and wanted(batch)]
        return self.chance.of(right if right and self.chance.hits(90) else self.batches[-200:] or [("NONE", "NONE", "A", 0, 0, [], True)])

    def is_due(self, batch):
        return (batch[2] in "AB" and batch[6] and batch[4] + self.chance.hits(95) <= self.now and ("FND", batch[0], "") in self.kinds
                and batch[1] not in self.answered)

    def objection(self):
        batch = self.named(lambda batch: batch[3] > self.now)
        bank = self.bank_of(self.chance.of(batch[5] or ["NONE"])) if self.chance.hits(70) else self.chance.of(self.banks)
        self.rows.append(f"OBJ;{self.sender(bank)};{self.identification()};{batch[0]};{batch[1]}")

    def answer(self):
        batch = self.named(self.is_due)
        if self.chance.hits(85):
            self.answered.add(batch[1])
        self.rows.append(f"CNF;{self.sender(batch[0])};{self.identification()};{batch[1]};{'Y' if self.chance.hits(70) else 'N'}")

    def cycle(self):
        system = self.chance.of(self.systems)
        opens = not self.cycles.get(system, False) if self.chance.hits(85) else self.chance.hits(50)
        self.cycles[system] = opens
        self.rows.append(f"CYC;{self.sender(system)};{self.identification()};{'START' if opens else 'END'}")

    def message(self):
        kinds = [self.payment] * 5 + [self.transfer] * (3 if self.systems else 1)
        if self.systems:
            kinds += [self.batch] * 9 + [self.cycle] * 2
        if self.batches or self.flaw():
            kinds += [self.objection, self.answer]
        if any(self.is_due(batch) for batch in self.batches[-200:]):
            kinds += [self.answer] * 24
        if any(batch[3] > self.now for batch in self.batches[-20:]):
            kinds += [self.objection] * 4
        self.chance.of(kinds)()

    def day(self):
        chance = self.chance
        self.setup()
        self.rows.insert(0, "DAY;2025-06-02")
        if self.sizes.stops > len(EDGES):
            stops = sorted({1 + chance.below(86399) for _ in range(self.sizes.stops)})
        else:
            stops = [edge for edge in EDGES if chance.hits(50)]
        for i in range(self.sizes.messages):
            while stops and chance.below(self.sizes.messages - i + 1) < len(stops):
                self.now = stops.pop(0)
                self.rows.append(f"TIM;{clock(self.now)}")
                if chance.hits(70):
                    break
            self.message()
        if chance.hits(50):
            self.rows += [f"TIM;{clock(stop)}" for stop in stops]
        return self.rows + ["END"]


# ---- days of a few stories

class Aimed(Making):
    """A day of a few stories. What each tells comes at its times, and where two tell of one time in any order."""

    def __init__(self, number):
        super().__init__(number, "small")
        self.chance = Chance(number + 2**50)
        self.style, self.told = self.chance.of([0, 0, 1]), []
        self.wide = number % 1000 == 999

    def setup(self):
        chance = self.chance
        self.sizes.banks = chance.of([1, 2, 2, 3, 4])
        self.sizes.systems = 256 if self.wide else chance.of([1, 1, 2, 3])
        self.banks = [self.name("B", i) for i in range(self.sizes.banks)]
        self.systems = [self.name("S", i) for i in range(self.sizes.systems)]
        systems = [f"AS;{system};ABCDE" for system in self.systems]
        for bank in self.banks:
            for _ in range(1 + chance.hits(40)):
                self.account("X", "DCA", bank, "", chance.of([0, 1, 100, 5000, 10000]))
        self.rows = self.rows + systems if chance.hits(50) else systems + self.rows
        for system in self.systems:
            for letter in "ABCD":
                self.account("T", "TEC", system, letter, 0)
            if chance.hits(90):
                self.account("G", "FND", system, "", chance.of([0, 1, 2, 99, 5000, 5001]))
            for bank in self.banks:
                self.account("U", "SUB", bank, system, 0)
        while self.wide and len(self.held) < self.sizes.accounts:
            self.account("X", "DCA", chance.of(self.banks), "", chance.below(3))
        self.dcas = self.kinds["DCA"]

    # -- the small words of a story

    def tell(self, time, *rows):
        self.told.append((min(max(time, 0), MIDNIGHT - 1), self.chance.below(1000), rows))

    def edge(self):
        return self.chance.of(STORY_TIMES)

    def near(self, time):
        """A second early, in time, or a second late."""
        return time + self.chance.of([-1, 0, 0, 1])

    def about(self, amount):
        """The amount, or a cent more or less."""
        return min(max(amount + self.chance.of([0, 0, 1, -1]), 1), MOST_AMOUNT)

    def end(self, time):
        return clock(time) if time < MIDNIGHT else self.chance.of(["", "24:00:00"])

    def tell_batch(self, time, system, procedure, info, till, entries):
        name, total, end = self.identification(), sum(entry[2] for entry in entries), till
        info, till = "" if info is None else clock(info), "" if till is None else self.end(till)
        rows = [f"ENT;{debit};{credit};{euros(amount)}" for debit, credit, amount in entries]
        self.tell(time, f"BAT;{system};{name};{procedure};{info};{till};{len(entries)};{euros(total)}", *rows)
        if procedure in "AB" and end is not None and self.chance.hits(60):
            self.tell(end + self.chance.of([0, 1, 1, 1, 2]), f"CNF;{system};{self.identification()};{name};{'Y' if self.chance.hits(80) else 'N'}")
        return name

    def tell_payment(self, time, debit, credit, amount):
        self.tell(time, f"PAY;{self.bank_of(debit)};{self.identification()};{self.chance.of('HN')};{debit};{credit};{euros(amount)}")

    def tell_transfer(self, time, bank, debit, credit, amount):
        self.tell(time, f"LIQ;{bank};{self.identification()};{debit};{credit};{euros(amount)}")

    def other(self, account):
        return self.chance.of([name for name in self.dcas[:9] if name != account] or [account])

    def by_technical(self, system, procedure, debits):
        """Entries of A or B that take in these amounts and pay out their sum."""
        technical, total = self.owned("TEC", system, procedure), sum(amount for _, amount in debits)
        entries = [(account, technical, amount) for account, amount in debits]
        entries += [(technical, self.chance.of(self.dcas[:9]), part) for part in self.parts(total, 1 + self.chance.below(3))]
        if self.chance.hits(30):
            self.chance.mix(entries)
        return entries

    # -- the stories

    def fund(self):
        """Batches that lack what a fund holds, a cent more or less, answered in time or not; mostly one, or two at once."""
        chance, system, till = self.chance, self.chance.of(self.systems[:4]), self.chance.of(STORY_TIMES + [MIDNIGHT])
        held = self.held.get(self.owned("FND", system, ""), 0)
        for _ in range(chance.of([1, 1, 2, 3])):
            procedure, payer = chance.of("AB"), chance.of(self.dcas[:9])
            debits = [(payer, self.about(held)), (self.other(payer), self.about(self.held[payer]))]
            if chance.hits(40):
                debits.append((payer, self.about(self.held[payer])))
            if chance.hits(30):
                debits[0] = (payer, max(self.held[payer] // 2, 1))
            info = chance.of([None, None, till - 1, till])
            name = self.tell_batch(chance.of([0, 0, till - 1]), system, procedure, info, till, self.by_technical(system, procedure, debits))
            for _ in range(chance.of([0, 1, 1, 1, 2])):
                time = self.near(till + 1) if chance.hits(80) else chance.of([till + 1, MIDNIGHT - 1])
                self.tell(time, f"CNF;{self.any_sender(system)};{self.identification()};{name};{'Y' if chance.hits(80) else 'N'}")

    def any_sender(self, right):
        return right if self.chance.hits(94) else self.chance.of(self.banks + self.systems[:4] + ["NOBODY", self.dcas[0]])

    def objected(self):
        """A batch in its information period, and banks that object a second early or late, or again."""
        chance, system, info = self.chance, self.chance.of(self.systems[:4]), self.edge()
        procedure, till = chance.of("ABEE"), chance.of([None, MIDNIGHT, info + 1, info + 1, info, 86399])
        if procedure == "E":
            pairs = [(payer, self.other(payer)) for payer in (chance.of(self.dcas[:9]) for _ in range(1 + chance.below(4)))]
            entries = [(*pair, self.about(self.held[pair[0]])) for pair in pairs]
        else:
            entries = self.by_technical(system, procedure, [(chance.of(self.dcas[:9]), self.about(100)) for _ in range(1 + chance.below(3))])
        name = self.tell_batch(chance.of([0, 0, info - 1]), system, procedure, info, till, entries)
        for _ in range(chance.of([0, 1, 1, 2, 3])):
            row = f"OBJ;{self.any_sender(chance.of(self.banks))};{self.identification()};{system};{name}"
            for _ in range(chance.of([1, 1, 1, 2])):
                self.tell(self.near(info) if chance.hits(70) else chance.of([0, info - 1]), row)

    def around_cycle(self):
        """A cycle and its batches, transfers into sub-accounts and back, around its start, its end and midnight."""
        chance, system = self.chance, self.chance.of(self.systems[:4])
        start, end = sorted([self.edge(), self.edge()])
        self.tell(start, f"CYC;{self.any_sender(system)};{self.identification()};START")
        if chance.hits(60):
            self.tell(self.near(end), f"CYC;{system};{self.identification()};END")
        if chance.hits(30):
            self.tell(self.near(end), f"CYC;{system};{self.identification()};START")
        technical = self.owned("TEC", system, "C")
        for bank in self.banks:
            own, sub = self.owned("DCA", bank, ""), self.owned("SUB", bank, system)
            amount = self.about(self.held[own])
            self.tell_transfer(self.near(start), bank, own, sub, amount)
            entries = [(sub, technical, self.about(amount))]
            if chance.hits(50):
                entries.append((technical, sub, self.about(amount)))
            for _ in range(chance.of([1, 1, 2])):
                self.tell_batch(self.near(chance.of([start, start, end])), system, "C", None, None, entries)
            if chance.hits(60):
                self.tell_transfer(chance.of([end, self.near(end), MIDNIGHT - 1, MIDNIGHT - 1]), bank, sub, own, self.about(amount))

    def prefunded(self):
        """Money paid in for D and batches over it; entries that fit one by one and not together."""
        chance, system, time = self.chance, self.chance.of(self.systems[:4]), self.edge()
        own, pool = chance.of(self.dcas[:9]), self.owned("TEC", system, "D")
        held = max(self.held[own], 1)
        self.tell_transfer(self.near(time), self.bank_of(own), own, pool, self.about(held))
        amounts = [self.about(held), self.about(held // 2), self.about(held // 2), 1]
        chance.mix(amounts)
        for _ in range(chance.of([1, 2])):
            self.tell_batch(time, system, "D", None, None, [(pool, chance.of(self.dcas[:9]), amount) for amount in amounts])

    def heads(self):
        """Urgent, high and normal items on one account, of which it covers each and not all; then money comes, a cent at a time."""
        chance, account, time = self.chance, self.chance.of(self.dcas[:9]), self.edge()
        held, system = self.held[account], self.chance.of(self.systems[:4])
        for _ in range(2 + chance.below(3)):
            self.tell_payment(chance.of([0, time]), account, self.other(account), self.about(held))
        for _ in range(chance.of([0, 1, 1, 2])):
            procedure, till = chance.of("AABE"), chance.of([time + 1, MIDNIGHT, None])
            if procedure == "E":
                entries = [(account, self.other(account), self.about(held)) for _ in range(1 + chance.below(2))]
            else:
                other = self.other(account)
                entries = self.by_technical(system, procedure, [(account, self.about(held)), (other, self.about(self.held[other]))])
            self.tell_batch(chance.of([0, time]), system, procedure, None, till, entries)
        for _ in range(chance.below(3)):
            giver = self.other(account)
            self.tell_payment(self.near(time), giver, account, self.about(self.held[giver]))

    def ring(self):
        """Accounts that pay one another round, each a cent more than it holds, or not; and batches that need them all."""
        chance, time = self.chance, self.edge()
        ring = list(self.dcas[:9])
        chance.mix(ring)
        for payer, receiver in zip(ring, ring[1:] + ring[:1]):
            self.tell_payment(self.near(time), payer, receiver, min(self.held[payer] + chance.of([1, 1, 0, 100]), MOST_AMOUNT) or 1)
        if chance.hits(50):
            system = chance.of(self.systems[:4])
            self.tell_batch(time, system, "B", None, chance.of([None, time + 1]), self.by_technical(system, "B", [(name, self.about(self.held[name])) for name in ring]))

    def again(self):
        """One identification for messages of all kinds, of one sender or of several."""
        chance, system, bank = self.chance, self.chance.of(self.systems[:4]), self.chance.of(self.banks)
        own, name = self.owned("DCA", bank, ""), self.identification()
        for _ in range(2 + chance.below(5)):
            of_bank, of_system = self.any_sender(bank), self.any_sender(system)
            technical = self.owned("TEC", system, "A")
            self.tell(self.near(self.edge()), *chance.of([
                [f"PAY;{of_bank};{name};H;{own};{self.other(own)};{euros(self.about(self.held[own]))}"],
                [f"LIQ;{of_bank};{name};{own};{self.owned('SUB', bank, system)};{euros(self.about(self.held[own]))}"],
                [f"OBJ;{of_bank};{name};{system};{name}"],
                [f"CNF;{of_system};{name};{name};Y"],
                [f"CYC;{of_system};{name};START"],
                [f"BAT;{of_system};{name};E;;;1;0.01", f"ENT;{own};{self.other(own)};0.01"],
                [f"BAT;{of_system};{name};A;{clock(61200)};;2;1.00", f"ENT;{own};{technical};1.00", f"ENT;{technical};{own};1.00"],
            ]))

    def nobody(self):
        """Messages of senders that are neither bank nor system, or the one where the other should be."""
        chance, system = self.chance, self.chance.of(self.systems[:4])
        sender = chance.of(["NOBODY", self.dcas[0], self.owned("TEC", system, "A"), *self.systems[:2], *self.banks[:2]])
        own, name = chance.of(self.dcas[:9]), self.identification()
        self.tell(self.edge(), *chance.of([
            [f"PAY;{sender};{name};N;{own};{self.other(own)};0.01"],
            [f"LIQ;{sender};{name};{own};{self.owned('TEC', system, 'D')};0.01"],
            [f"BAT;{sender};{name};E;{clock(self.edge())};;1;0.01", f"ENT;{own};{self.other(own)};0.01"],
            [f"BAT;{sender};{name};A;;;0;0.00"],
            [f"CYC;{sender};{name};{chance.of(['START', 'END'])}"],
            [f"CNF;{sender};{name};{chance.of(self.ids)};Y"],
            [f"OBJ;{sender};{name};{system};{chance.of(self.ids)}"],
        ]))

    def stories(self):
        return [self.fund, self.fund, self.objected, self.objected, self.around_cycle, self.prefunded, self.heads, self.heads, self.ring, self.again, self.nobody]

    def day(self):
        self.setup()
        self.rows.insert(0, "DAY;2025-06-02")
        return self.orders()

    def another(self, number, rows):
        """The orders of another day over the same setup, which is given with the openings of that day."""
        self.chance, self.rows, self.told, self.now, self.ids = Chance(number + 2**51), list(rows), [], 0, self.ids[-40:]
        for row in rows:
            if row.startswith("ACC;"):
                name, opening = row.split(";")[1], cents(row.split(";")[5])
                self.held[name] = min(opening, MOST_AMOUNT)
        return self.orders()

    def orders(self):
        chance = self.chance
        for _ in range(1 + chance.below(5)):
            chance.of(self.stories())()
        for time, _, rows in sorted(self.told):
            if time > self.now and chance.hits(90):
                self.now = time
                self.rows.append(f"TIM;{clock(time)}")
            self.rows += rows
        return self.rows + ["END"]


class Edges(Aimed):
    """Stories at the edges that the other days seldom meet."""

    def name(self, letter, i):
        if self.style == 1:
            return "ANAMETHATISASLONGASITMAYBE" + f"{i:07}" + letter
        return super().name(letter, i)

    def setup(self):
        super().setup()
        if self.chance.hits(30):
            # One cash account opens with all that a day may have besides.
            left = 10**18 - sum(self.held.values())
            name = self.chance.of(self.dcas)
            row = next(i for i, row in enumerate(self.rows) if row.startswith(f"ACC;{name};"))
            opening = self.held[name] + left - self.chance.of([0, 0, 1])
            self.rows[row] = ";".join(self.rows[row].split(";")[:5] + [euros(opening)])
            self.held[name] = MOST_AMOUNT

    def by_technical(self, system, procedure, debits):
        return [(debit, credit, min(amount, MOST_AMOUNT)) for debit, credit, amount in super().by_technical(system, procedure, debits)]

    def about(self, amount):
        return self.chance.of([MOST_AMOUNT, MOST_AMOUNT - 1]) if self.chance.hits(8) else super().about(amount)

    def quick_cycles(self):
        """Cycles that start and end at one time, with batches and transfers between."""
        chance, system, time = self.chance, self.chance.of(self.systems[:4]), self.edge()
        bank, technical = chance.of(self.banks), self.owned("TEC", system, "C")
        own, sub = self.owned("DCA", bank, ""), self.owned("SUB", bank, system)
        rows = []
        for i in range(1 + chance.below(5)):
            rows.append(f"CYC;{system};{self.identification()};{('START', 'END')[i % 2] if chance.hits(90) else 'START'}")
            rows.append(f"LIQ;{bank};{self.identification()};{own};{sub};{euros(self.about(self.held[own] // 2 or 1))}")
            amount = euros(self.about(self.held[own] // 2 or 1))
            entry = chance.of([f"ENT;{sub};{technical};{amount}", f"ENT;{technical};{sub};{amount}"])
            rows += [f"BAT;{system};{self.identification()};C;;;1;{amount}", entry]
            if chance.hits(40):
                rows.append(f"LIQ;{bank};{self.identification()};{sub};{own};{amount}")
        self.tell(time, *rows)

    def meeting_ends(self):
        """Batches whose information end, settlement end and a stop fall on one second, or on two that follow; objected to and answered there."""
        chance, system, time = self.chance, self.chance.of(self.systems[:4]), self.edge()
        for _ in range(1 + chance.below(3)):
            procedure, payer = chance.of("AABBE"), chance.of(self.dcas[:9])
            info, till = chance.of([(time, time + 1), (time - 1, time), (None, time), (time, None), (time, time), (1, 2), (86398, 86399), (86399, MIDNIGHT)])
            if procedure == "E":
                entries = [(payer, self.other(payer), self.about(self.held[payer]))]
            else:
                entries = self.by_technical(system, procedure, [(payer, self.about(self.held[payer])), (self.other(payer), self.about(1))])
            name = self.tell_batch(chance.of([0, 0, time - 1, time]), system, procedure, info, till, entries)
            for _ in range(chance.below(3)):
                bank = self.bank_of(payer)
                self.tell(self.near(info or time), chance.of([f"OBJ;{bank};{self.identification()};{system};{name}", f"CNF;{system};{self.identification()};{name};Y"]))

    def wrong_counts(self):
        """Batches that state the greatest count or sum, or none."""
        chance, system, payer = self.chance, self.chance.of(self.systems[:4]), self.chance.of(self.dcas[:9])
        amount = self.about(self.held[payer])
        count, total = chance.of(["9999999", "0", "1", "2", "1"]), chance.of(["10000000000000000.00", "0.00", euros(amount), euros(amount), euros(amount + 1)])
        rows = [f"ENT;{payer};{self.other(payer)};{euros(amount)}"] * chance.of([1, 1, 1, 0, 2])
        self.tell(self.edge(), f"BAT;{system};{self.identification()};E;;;{count};{total}", *rows)

    def whole_side(self):
        """A batch of B or A with many entries on one account, which it covers to the cent, or not, and its fund to the cent, or not."""
        chance, system, payer = self.chance, self.chance.of(self.systems[:4]), self.chance.of(self.dcas[:9])
        parts = self.parts(max(self.about(self.held[payer]), 1), 1 + chance.below(5))
        fund = self.held.get(self.owned("FND", system, ""), 0)
        debits = [(payer, part) for part in parts if part <= MOST_AMOUNT] or [(payer, 1)]
        if chance.hits(50):
            debits.append((self.other(payer), self.about(fund)))
        chance.mix(debits)
        till = chance.of([None, 61200, MIDNIGHT])
        procedure = chance.of("AB")
        name = self.tell_batch(0, system, procedure, None, till, self.by_technical(system, procedure, debits))
        self.tell(chance.of([61200, 61201]), f"CNF;{system};{self.identification()};{name};Y")

    def turns(self):
        """Two batches of A of one system, of which the one taken later has its debits booked first, while its credits are to come."""
        chance, system, time = self.chance, self.chance.of(self.systems[:4]), self.edge()
        technical, late, soon = self.owned("TEC", system, "A"), chance.of(self.dcas[:9]), chance.of(self.dcas[:9])
        lacks, has = self.about(self.held[late] + 1), max(min(self.held[soon], MOST_AMOUNT) // 2, 1)
        first, then = [(late, technical, lacks), (technical, self.other(late), lacks)], [(technical, self.other(soon), has), (soon, technical, has)]
        if chance.hits(40):
            first, then = [pair[::-1] if chance.hits(50) else pair for pair in (first, then)]
        for rank, entries in enumerate((first, then), 1):
            name, total = self.identification(), euros(2 * entries[0][2])
            rows = [f"ENT;{debit};{credit};{euros(amount)}" for debit, credit, amount in entries]
            self.told.append((time, rank, (f"BAT;{system};{name};A;;;2;{total}", *rows)))
        giver = self.other(late)
        row = f"PAY;{self.bank_of(giver)};{self.identification()};N;{giver};{late};{euros(chance.of([1, lacks, max(self.held[giver], 1)]))}"
        self.told.append((time, chance.of([3, 3, 0]), (row,)))

    def opened_between(self):
        """Batches on one account that covers one of them, with information ends one after the other; an earliest time may come behind all."""
        chance, system, time = self.chance, self.chance.of(self.systems[:4]), self.chance.of([1000, 36000, 61200])
        payer = chance.of(self.dcas[:9])
        amount = max(min(self.held[payer] + chance.of([0, 0, 1]), MOST_AMOUNT), 1)
        for info in (time, time + 1, time + chance.below(9)):
            procedure = chance.of("AABE")
            entries = [(payer, self.other(payer), amount)] if procedure == "E" else self.by_technical(system, procedure, [(payer, amount)])
            self.tell_batch(time - 20, system, procedure, info, time + chance.of([10, 12, 30]), entries)
        giver = self.other(payer)
        self.tell_payment(time + chance.below(12), giver, payer, self.about(self.held[giver]))

    def strangers(self):
        """A batch between two banks in its information period, and another bank that objects."""
        chance, system, info = self.chance, self.chance.of(self.systems[:4]), self.edge()
        payer = chance.of(self.dcas[:9])
        entries = [(payer, self.other(payer), self.about(1))]
        procedure = chance.of("ABE")
        if procedure != "E":
            entries = self.by_technical(system, procedure, [(payer, self.about(1))])
        name = self.tell_batch(0, system, procedure, info, None, entries)
        for bank in self.banks:
            self.tell(0, f"OBJ;{bank};{self.identification()};{system};{name}")

    def exact_fund(self):
        """A batch of B, before anything else of the day, of which one debtor has just what it owes, or more or less, and the fund what another owes."""
        chance, system = self.chance, self.chance.of(self.systems[:4])
        has, lacks = chance.of(self.dcas[:9]), chance.of(self.dcas[:9])
        fund = self.held.get(self.owned("FND", system, ""), 0)
        debits = [(has, max(min(self.held[has], MOST_AMOUNT), 1)), (lacks, max(min(fund, MOST_AMOUNT), 1))]
        name, rows = self.identification(), [f"ENT;{debit};{credit};{euros(amount)}" for debit, credit, amount in self.by_technical(system, "B", debits)]
        total = sum(cents(row.split(";")[3]) for row in rows)
        self.told.append((0, -1, (f"BAT;{system};{name};B;;00:00:01;{len(rows)};{euros(total)}", *rows)))
        self.told.append((2, -1, (f"CNF;{system};{self.identification()};{name};Y",)))

    def stories(self):
        return [self.turns, self.turns, self.opened_between, self.opened_between, self.strangers, self.exact_fund] + [self.quick_cycles] * 3 + [self.meeting_ends] * 4 + [self.wrong_counts, self.whole_side, self.whole_side, self.fund, self.around_cycle, self.heads]


def day_of(number, kind):
    if kind in ("aimed", "edges"):
        return {"aimed": Aimed, "edges": Edges}[kind](number).day()
    return Making(number, kind).day()


# ---- changes of a day

def changed(rows, number):
    """The rows with one thing changed: a row dropped, doubled, swapped or cut, a field emptied, doubled, or taken from elsewhere."""
    chance, rows = Chance(number * 3 + 1), list(rows)
    at, what = chance.below(len(rows)), chance.below(8)
    fields = rows[at].split(";")
    field = chance.below(len(fields))
    if what == 0:
        del rows[at]
    elif what == 1:
        rows.insert(at, rows[at])
    elif what == 2:
        other = chance.below(len(rows))
        rows[at], rows[other] = rows[other], rows[at]
    elif what == 3:
        rows = rows[:at] + [rows[at][:chance.below(len(rows[at]) + 1)]]
    elif what == 4:
        fields[field] = chance.of(["", "0", "-1", "00.00", "24:00:00", "24:00:01", "x", "A" * 35, '"', "\xff", "1.0", "10000000000000000.01"])
        rows[at] = ";".join(fields)
    elif what == 5:
        fields[field:field] = [fields[field]]
        rows[at] = ";".join(fields)
    elif what == 6:
        fields[field] = chance.of(chance.of(rows).split(";"))
        rows[at] = ";".join(fields)
    else:
        byte = chance.below(max(len(rows[at]), 1))
        rows[at] = rows[at][:byte] + chance.of(list(";\"\r\0 aA0.:-")) + rows[at][byte + 1:]
    return rows


def changed_late(rows, number):
    """The rows with one to five things changed, all behind the first message or stop: as a live day it goes on through them."""
    begun = next((i for i, row in enumerate(rows) if row[:4] in ("BAT;", "PAY;", "LIQ;", "OBJ;", "CNF;", "CYC;", "TIM;")), len(rows)) + 1
    rest = rows[begun:]
    for i in range(1 + Chance(number).below(5)):
        rest = changed(rest, 8 * number + i) if rest else rest
    return rows[:begun] + rest


# ---- the twin of version 2 or 3

def migrated(rows):
    """The records of a day as those of one of version 2, in the order of writing: all systems stand before all accounts."""
    def stated(row):
        if not row.startswith("BAT;"):
            return row
        *head, info, till, count, total = row.split(";")
        ends = [label + end for label, end in (("info=", info), ("till=", till)) if end]
        return ";".join([*head, count, total, *ends])

    setup = [[row for row in rows if row.startswith(kind)] for kind in ("AS;", "ACC;")]
    return ["VER;2", rows[0], *setup[0], *setup[1], *[stated(row) for row in rows[1:] if not row.startswith(("AS;", "ACC;"))]]


def reserved(rows, number):
    """The records of a day as those of one of version 2, with what cash accounts keep, and with earliest times."""
    chance, now, kept, made = Chance(number * 5 + 2), 0, [], []
    amounts = [cents(row.split(";")[-1]) for row in rows if row.startswith(("PAY;", "LIQ;"))] or [1]
    share = chance.of([30, 60, 100])

    def some(opening):
        about = chance.of([opening, opening // 2, opening // 3, opening - chance.of(amounts), chance.of(amounts)])
        return min(max(chance.of([0, 0, 1, about, about, about - 1, about + 1]), 0), 10**17)

    def stated(fields):
        ends = {field[:5]: seconds(field[5:]) for field in fields[6:]}
        till, info = ends.get("till=", MIDNIGHT), ends.get("info=", now)
        start = chance.of([now + 1, info, info, info + 1, (now + till) // 2, till - 1, till - 1] + [now, info - 1, till] * chance.hits(20))
        ends["from="] = min(max(start, 0), MIDNIGHT)
        return fields[:6] + [label + clock(ends[label]) for label in ("info=", "from=", "till=") if label in ends]

    for row in migrated(rows):
        fields = row.split(";")
        if fields[0] == "ACC" and fields[2] == "DCA" and chance.hits(share):
            kept.append(f"RES;{fields[1]};{euros(some(cents(fields[5])))};{euros(some(cents(fields[5])))}")
        if fields[0] == "TIM":
            now = seconds(fields[1])
        if fields[0] == "BAT" and fields[3] in ("A", "B") and chance.hits(60):
            fields = stated(fields)
        if fields[0] not in ("VER", "DAY", "AS", "ACC"):
            made, kept = made + kept, []
        made.append(";".join(fields))
    return made


# ---- other bytes for the same day, and the days that follow it

def plainly(rows):
    return "".join(row + "\n" for row in rows).encode("latin-1")


def dressed(rows, number):
    """The same records with other line ends, with quotes, empty lines and a byte order mark; the last as it is."""
    chance, text = Chance(number * 7 + 3), bytearray(b"\xef\xbb\xbf" if number % 3 == 0 else b"")
    for row in rows[:-1]:
        fields = row.split(";")
        if chance.hits(30):
            at = chance.below(len(fields))
            cut = chance.below(len(fields[at]) + 1)
            fields[at] = '"' + fields[at][:cut] + '"' + fields[at][cut:]
        text += ";".join(fields).encode("latin-1") + chance.of([b"\n", b"\r", b"\r\n", b"\n", b"\n\r\n", b"\r\r\n"])
    return bytes(text + b"END" + chance.of([b"", b"\n", b"\r", b"\r\n", b"\r\n\n\r"]))


def next_day(rows, day, held):
    """The rows on the next open day, opened with what was held; a technical account with nothing."""
    made, a = [], 0
    for row in rows:
        fields = row.split(";")
        if fields[0] == "DAY":
            fields[1] = second.next_open(day.date).isoformat()
        if fields[0] == "ACC":
            a += 1
            fields[5] = euros(0 if fields[2] == "TEC" else held[a])
        made.append(";".join(fields))
    return made


def unjoined(rows, chance):
    """The rows of a next day with something else in its setup, which may be still a day and may join."""
    rows, what = list(rows), chance.below(7)
    accounts = [i for i, row in enumerate(rows) if row.startswith("ACC;")]
    systems = [i for i, row in enumerate(rows) if row.startswith("AS;")]
    at = chance.of(accounts)
    fields = rows[at].split(";")
    if what == 0:
        rows[at] = ";".join(fields[:5] + [euros(max(cents(fields[5]) + chance.of([1, -1]), 0))])
    elif what == 1:
        rows[at] = ";".join([fields[0], fields[1] + "X", *fields[2:]]) if len(fields[1]) < 34 else rows[at]
    elif what == 2:
        i = next(i for i, row in enumerate(rows) if row.startswith("DAY;"))
        rows[i] = "DAY;" + chance.of(["2025-06-02", "2025-06-04", "2026-06-03", "2025-06-07"])
    elif what == 3:
        rows.insert(accounts[-1] + 1, "ACC;NEWACCOUNT;DCA;NEWBANK;;0.00")
    elif what == 4 and systems:
        del rows[chance.of(systems)]
    elif what == 5 and systems:
        i = chance.of(systems)
        rows[i] = ";".join(rows[i].split(";")[:2]) + ";" + chance.of(["A", "ABCDE", "BE"])
    else:
        del rows[at]
    return rows


# ---- what is tried of a day

class Wrong(Exception):
    pass


class Trying:
    def __init__(self, programs):
        self.runs, self.has = Runs(programs), programs
        self.days, self.lines, self.sorts = 0, 0, collections.Counter()

    def must(self, program, words, given, status, lines):
        """A run that is to end so and to write just these lines, or these bytes. Nothing is run of a program that isn't given."""
        if program not in self.has:
            return
        wanted = lines if isinstance(lines, bytes) else plainly(lines)
        ended = self.runs.run(program, words.split(), given, seconds=300)
        self.sorts[f"{program} {words.split()[0] if words else ''}".strip()] += 1
        if (ended.status, ended.text) != (status, wanted):
            said, meant = ended.text.split(b"\n"), wanted.split(b"\n")
            at = next((i for i, (a, b) in enumerate(zip(said, meant)) if a != b), min(len(said), len(meant)))
            raise Wrong(f"{program} {words}: status {ended.status}, and not {status}; line {at + 1} is {said[at:at + 1]}, and not {meant[at:at + 1]}")

    def settled(self, rows, number, kind):
        """A day: all that the programs say of it."""
        chance, given = Chance(number * 11 + 5), plainly(rows)
        day, fault = second.read_alone(given)
        if day is None:
            raise Wrong(f"the second machine refuses a day that was made to be one: {fault}")
        self.days += 1
        machine = second.plain(day)
        said, _ = second.told(day, machine.lines)
        whole = second.output(day, machine.lines, said, machine)
        self.lines += len(machine.lines)
        self.must(RTGS, "check", given, 0, [f"OK;{len(day.messages)}"])
        self.must(RTGS, "migrate", given, 0, second.written(day))
        self.must(RTGS, "settle --workers 0", given, 0, whole)
        self.must(RTGS, "settle --workers 0", dressed(rows, number), 0, whole)
        journal = self.by_workers(day, given, 1 + number % 8)
        lines, said, end = journal if chance.hits(60) else (machine.lines, said, machine)
        self.replayed(given, day, lines, chance)
        output = plainly(second.output(day, lines, said, end))
        parties = list(dict.fromkeys([account[2].decode() for account in day.accounts] + [m.sender.decode() for m in day.messages]))
        for name in [*(parties if len(parties) <= 12 else [chance.of(parties) for _ in range(6)]), "NOBODYATALL"]:
            self.must(RTGS, f"follow {name}", given + output, 0, second.view(day, said, name))
        self.viewed(given, day, lines, chance, parties)
        self.on_disk(given, day, chance)
        self.in_a_chain(rows, day, machine, chance)
        self.lived(given if chance.hits(50) else dressed(rows, number), day, chance)
        return whole

    def by_workers(self, day, given, workers):
        """Any legal journal, and what follows from it."""
        ended = self.runs.run(RTGS, ["settle", "--workers", str(workers)], given, seconds=300)
        self.sorts["rtgs settle, by workers"] += 1
        text = ended.text.decode("latin-1")
        journal = "".join(line + "\n" for line in text.split("\n") if line[:2] in ("J;", "M;"))
        judged, place = second.judged(day, journal)
        if ended.status != 0 or place is not None or not judged.over:
            raise Wrong(f"settle --workers {workers}: status {ended.status}, wrong at line {place}, {len(judged.lines)} lines before")
        said, end = second.told(day, judged.lines)
        if ended.text != plainly(second.output(day, judged.lines, said, end)):
            raise Wrong(f"settle --workers {workers}: not the output of its journal")
        return judged.lines, said, end

    def replayed(self, given, day, lines, chance):
        text = second.journal_text(lines)
        self.must(RTGS, "replay", given + plainly(text), 0, [f"LEGAL;{len(lines)}"])
        spoilt, at, what = list(text), chance.below(len(text)), chance.below(6)
        fields = spoilt[at].split(";")
        if what == 0:
            del spoilt[at]
        elif what == 1:
            spoilt.insert(at, spoilt[at])
        elif what == 2:
            other = chance.below(len(spoilt))
            spoilt[at], spoilt[other] = spoilt[other], spoilt[at]
        elif what == 3:
            fields[-1] = chance.of(["0", "1", "0.01", "00", "", "100000000000000000000", fields[-1] + "0"])
            spoilt[at] = ";".join(fields)
        elif what == 4:
            i = 1 + chance.below(len(fields) - 1)
            fields[i] = chance.of(chance.of(text).split(";"))
            spoilt[at] = ";".join(fields)
        else:
            spoilt = spoilt[:at]
        machine, place = second.judged(day, "".join(row + "\n" for row in spoilt))
        if place is None and not machine.over:
            place = len(machine.lines) + 1
        if place is None:
            self.must(RTGS, "replay", given + plainly(spoilt), 0, [f"LEGAL;{len(machine.lines)}"])
        else:
            self.must(RTGS, "replay", given + plainly(spoilt), 6, [f"ILLEGAL;{place}"])

    def viewed(self, given, day, lines, chance, parties):
        """The view of a party, and the page of one or of the day, of a front of a journal."""
        count = len(lines) if chance.hits(50) else chance.below(len(lines) + 1)
        given += plainly(second.journal_text(lines[:count]))
        banks = [name.decode() for name in day.first_cash]
        for name in [chance.of(banks + parties[:3]), chance.of(banks or parties)]:
            figures = second.Figures(day, name)
            _, end = second.told(day, lines[:count], figures)
            first, last = chance.of([(1, 9999999), (1, 9999999), (chance.below(count + 2), chance.below(count + 2))])
            shown = [line for line in figures.lines if first <= int(line.split(";")[1]) <= last]
            self.must(VIEW, f"view {name} {first} {last}", given, 0, shown + [f"OK;{count}"])
        if PAGE in self.has:
            party = chance.of([None, name])
            ended = self.runs.run(PAGE, ["page", party] if party else ["page"], given, seconds=300)
            self.sorts["day_page page"] += 1
            why = page_fault(ended.text.decode(), day, lines[:count], end, party) if ended.status == 0 else f"status {ended.status}"
            if why:
                raise Wrong(f"day_page page {party or ''}: {why}")

    def on_disk(self, given, day, chance):
        """A run on a disk that is cut somewhere, with other bytes behind its closed gate, gone on with, cut again, and shown."""
        if STORE not in self.has or len(day.messages) > 500:
            return
        machine = second.stored(day)
        calls = chance.below(4 * len(machine.lines) + 6)
        left, status = second.disk_run(machine.lines, b"", calls)
        self.must(STORE, f"run {calls}", given, status, left)
        gate = second.gate_of(machine.lines, left)
        if left and chance.hits(60):
            junk = bytes(chance.below(256) for _ in range(chance.below(200)))
            left = left[:gate] + bytes([chance.of([0, 2, 255])]) + junk
        more = chance.of([9999999, chance.below(4 * len(machine.lines) + 6)])
        found, status = second.disk_run(machine.lines, left, more)
        self.must(STORE, f"run {more}", given + left, status, found)
        if found:
            count = second.lines_of(machine.lines, found)
            self.must(STORE, "show", given + found, 0, second.journal_text(machine.lines[:count]) + [f"OK;{count}"])

    def in_a_chain(self, rows, day, machine, chance):
        """The day, the same orders on the next open days with what was held, and something that may not join."""
        if CHAIN not in self.has:
            return
        text, last, held = plainly(rows), day, machine.held
        for _ in range(chance.below(3)):
            rows = next_day(rows, last, held)
            last, _ = second.read_day(plainly(rows))
            held = second.plain(last).held
            text += plainly(rows)
        if chance.hits(40):
            text += plainly(unjoined(next_day(rows, last, held), chance))
        status, lines = second.chain_of(text)
        self.must(CHAIN, "", text, status, lines)

    def lived(self, given, day, chance):
        """The day record by record, and after a break somewhere, with what was told cut somewhere, or another text."""
        if LIVE not in self.has or day and len(day.messages) > 500:
            return
        status, text = live.live_text(given)
        self.must(LIVE, "run", given, status, text)
        said = text.decode("latin-1").split("\n")
        # An entry more than its batch says is refused here; in a day file the batch has it. Then the accepted day is another one.
        if day and given.endswith(b"\nEND\n") and not any(line.startswith("R;") for line in said):
            journal = [line for line in said if line[:2] in ("J;", "M;")]
            self.must(RTGS, "replay", given + plainly(journal), 0, [f"LEGAL;{sum(line.startswith('J;') for line in journal)}"])
        at = chance.below(len(given) + 1)
        told = live.told(given[:at])
        told = told[:chance.below(len(told) + 1)] if chance.hits(80) else told + chance.of([b"J", b"\n", b"E;0;SIZE\n"])
        broken = live.broken_run(given[:at], told, given[at:])
        self.must(LIVE, "resume", broken, *live.resumed(broken))

    def refused(self, rows, number):
        """A day that may be none: all programs say so alike."""
        given = plainly(rows)
        day, end = second.read_alone(given)
        if len(rows) <= 800:
            self.lived(given, day, Chance(number))
        if day:
            machine = second.plain(day)
            said, _ = second.told(day, machine.lines)
            self.sorts["a changed day that is one"] += 1
            self.must(RTGS, "settle --workers 0", given, 0, second.output(day, machine.lines, said, machine))
            return
        told = [f"E;{end[0]};{end[1]}"]
        self.sorts[f"refused: {end[1]}"] += 1
        for words in ("check", "settle --workers 0", "settle", "migrate"):
            self.must(RTGS, words, given, 3, told)
        day, end = second.read_day(given)
        if day is None:
            for program, words in ((RTGS, "replay"), (RTGS, "follow A"), (STORE, "run 99"), (STORE, "show"), (VIEW, "view A 1 2"), (PAGE, "page"), (CHAIN, "")):
                self.must(program, words, given, 3, [f"E;1;{end[0]};{end[1]}"] if program == CHAIN else told)

    def chain(self, number):
        """Twelve days in one chain, since funds run dry, each with orders of its own, in all versions."""
        making, chain, text = Edges(number) if number % 2 else Aimed(number), second.Chain(), []
        rows = making.day()
        setup = [row for row in rows if row.startswith(("DAY;", "AS;", "ACC;"))]
        for i in range(12):
            made = rows
            if (number + i) % 3:
                made = reserved(rows, 100 * number + i)
                made[0] = f"VER;{1 + (number + i) % 3}"
            text.append(plainly(made))
            day, fault = second.read_day(text[-1])
            if day is None or chain.take(day):
                raise Wrong(f"day {i + 1} of the chain is none, or doesn't join: {fault}, {chain.lines[-1:]}")
            self.days += 1
            setup = next_day(setup, day, chain.held)
            rows = making.another(100 * number + i, setup)
        self.lines += len(chain.lines)
        self.must(CHAIN, "", b"".join(text), 0, chain.whole())

    def day(self, number, kind):
        if kind == "chains":
            return self.chain(number)
        rows = day_of(number, kind)
        if number % 3 != 0:
            rows = reserved(rows, number)
            rows[0] = f"VER;{1 + number % 3}"
        self.settled(rows, number, kind)
        for i in range(2):
            self.refused(changed(rows, 2 * number + i), 2 * number + i)
            if len(rows) <= 800:
                self.lived(plainly(changed_late(rows, 2 * number + i)), None, Chance(number))


# ---- what a page shows

KINDS = ("payment", "batch of A", "batch of B", "batch of C", "batch of D", "batch of E", "liquidity transfer", "objection", "answer on a fund", "cycle message")


def kind_of(m):
    return {b"PAY": 0, b"LIQ": 6, b"OBJ": 7, b"CNF": 8, b"CYC": 9}.get(m.kind, 0) if m.kind != b"BAT" else 1 + b"ABCDE".index(m.procedure)


def page_fault(page, day, lines, machine, party):
    """What is wrong with a page, or None: its end, its two tables of messages, and the opening, lowest, highest and closing balances."""
    if not page.endswith("</main></body></html>\n") or page.count("<tr>") != page.count("</tr>") or page.count("<section") != page.count("</section>"):
        return "it isn't closed"
    mine = [m for m in day.messages if party is None or m.sender.decode() == party]
    counts, ends = [[0, 0, 0] for _ in KINDS], [[0] * 8 for _ in KINDS[:6]]
    for m in mine:
        order, row = machine.of[m.number], counts[kind_of(m)]
        row[0] += 1
        row[1] += not order.taken
        row[2] += bool(order.taken) and order.code == "OK"
        if order.taken and order.code == "OK" and m.kind in (b"PAY", b"BAT"):
            phase, booked = machine.phase(m.number), m.amount if m.kind == b"PAY" else m.sum
            if phase == "settled" and m.kind == b"BAT" and m.procedure == b"D":
                booked = sum(move[2] for line in lines if line[0] == "IN" and line[1] == m.number for move in line[4])
            if phase == "settled" and m.kind == b"BAT" and m.procedure == b"E":
                booked = sum(m.entries[k - 1][2] for k in order.booked)
            at = {"settled": 0, "revoked": 2, "closed": 4}.get(phase, 6)
            ends[kind_of(m)][at] += 1
            ends[kind_of(m)][at + 1] += booked
    for name, row in zip(KINDS, counts):
        if f"<tr><th scope='row'>{name}</th><td>{row[0]}</td><td>{row[1]}</td><td>{row[2]}</td>" not in page:
            return f"of {name} there are not {row} messages sent, untaken and accepted"
    for name, row in zip(KINDS, ends):
        cells = "".join(f"<td>{n if i % 2 == 0 else euros(n)}</td>" for i, n in enumerate(row))
        if f"<tr><th scope='row'>{name}</th>{cells}</tr>" not in page:
            return f"of {name} there are not {row} settled, revoked, closed and open"
    own = [a for a, account in enumerate(day.accounts, 1) if account[1] == b"DCA" and (party is None or account[2].decode() == party)]
    held, least, most = {a: day.accounts[a - 1][4] for a in own}, {}, {}
    least, most = dict(held), dict(held)
    for line in lines:
        for debit, credit, amount in line[4]:
            for a, change in ((debit, -amount), (credit, amount)):
                if a in held:
                    held[a] += change
        for a in {a for move in line[4] for a in move[:2]} & held.keys():
            least[a], most[a] = min(least[a], held[a]), max(most[a], held[a])
    shown = 0
    for a in own:
        at = page.find(f"<section><h3>{day.accounts[a - 1][0].decode()}</h3>\n")
        told = f"<p>Opening {euros(day.accounts[a - 1][4])}, lowest {euros(least[a])}, highest {euros(most[a])}, closing {euros(held[a])}.</p>"
        shown += at >= 0
        if at >= 0 and not page[page.index("\n", at) + 1:].startswith(told):
            return f"account {a} isn't told as {told}"
    if shown != (min(len(own), 10) if party is None else len(own)):
        return f"{shown} accounts are shown of {len(own)}"
    return None


# ---- the words

def try_days(at):
    programs, numbers, kind, until = at
    trying, failed, count = Trying(programs), [], 0
    for number in numbers:
        if until and time.monotonic() > until:
            break
        count += 1
        try:
            trying.day(number, kind)
        except (Wrong, ValueError, KeyError, IndexError, TypeError, AttributeError, AssertionError) as why:
            failed.append(f"{kind} {number}: {type(why).__name__} {why}")
    return count, trying.days, trying.lines, trying.runs.count, trying.sorts, failed


def main(words):
    kind = words.pop(0) if words and words[0] in ("small", "large", "aimed", "edges", "chains") else "small"
    jobs = int(words.pop(0)[5:]) if words and words[0].startswith("jobs=") else 1
    until = time.monotonic() + int(words.pop(0)[8:]) if words and words[0].startswith("seconds=") else None
    if len(words) == 1 and words[0].isdigit():
        print("\n".join(day_of(int(words[0]), kind)))
        return 0
    builds = builds_of(words[2:], [CHAIN if kind == "chains" else RTGS])
    if not builds or not (words[0].isdigit() and words[1].isdigit()):
        print(__doc__)
        return 2
    first, count = int(words[0]), int(words[1])
    work = [(builds, range(first + job, first + count, jobs), kind, until) for job in range(jobs)]
    with concurrent.futures.ProcessPoolExecutor(jobs) as pool:
        done = list(pool.map(try_days, work))
    sorts = sum((counts for *_, counts, _ in done), collections.Counter())
    failed = [line for *_, lines in done for line in lines]
    print("\n".join(failed[:20] + [f"{sort}: {times}" for sort, times in sorted(sorts.items())]))
    count, days, lines, runs = (sum(part[i] for part in done) for i in range(4))
    print(f"{runs} runs, {days} days, {lines} lines of the written order")
    print(f"{count} {kind}{'' if kind == 'chains' else ' days'}, {len(failed)} failed")
    return 1 if failed else 0


if __name__ == "__main__":
    sys.exit(main(sys.argv[1:]))
