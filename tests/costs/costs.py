#!/usr/bin/env python3
"""Inputs below 1 MiB that take long: a small search over shapes.

    tests/costs/costs.py [SHAPE..] NAME=PATH..        tries all shapes, or some, on the programs, of which each is to be named
    tests/costs/costs.py print SHAPE SHARE            writes the day, or the chain, of a shape

Each shape has two parts that cost together, and is made three times: the first part has a fifth, a half, or four fifths of the bytes.
Of each day the programs settle, replay, view, draw, store, and settle it as it comes in. Other shapes are chains; live days with records
that are refused, gone on with after a break too; journals in another order than the written one; and what stands after a day that is no
journal, output or store of it. A line tells for each shape and share the seconds of processor of each run, and the most memory in MB.
What takes more than two seconds or 200 MB is marked; then the status is 1.
"""
import datetime
import os
import sys
import tempfile

sys.dont_write_bytecode = True
sys.path.insert(0, os.path.dirname(os.path.dirname(os.path.abspath(__file__))) + "/machines")
import second_machine as second
from running import CHAIN, LIVE, PAGE, RTGS, STORE, VIEW, builds_of

SIZE = 2**20 - 4096
MOST_SECONDS, MOST_MEGABYTES = 2, 200


class Making:
    """Rows of a day, as long as there is room: a part gets so many bytes."""

    def __init__(self, version=3):
        self.rows, self.size = ([f"VER;{version}"] if version > 1 else []) + ["DAY;2025-06-02"], 0

    def add(self, *rows):
        self.rows += rows
        self.size += sum(len(row) + 1 for row in rows)

    def fill(self, until, rows_of):
        """Adds the rows of 0, 1 and so on until so many bytes are reached."""
        i = 0
        while self.size < until:
            self.add(*rows_of(i))
            i += 1
        return i

    def done(self):
        return "".join(row + "\n" for row in [*self.rows, "END"]).encode()


def clock(at):
    return second.clock(at)


def long_name(letter, i):
    return letter + "A" * 27 + f"{i:06}"


def debits_one_by_one(share):
    """One batch of A with many debits of accounts that get their money one by one, by payments."""
    day = Making()
    day.add("AS;S;A", "ACC;T;TEC;S;A;0.00", "ACC;R;DCA;R;;9999999.00", *[f"ACC;{i};DCA;B;;0.00" for i in range(4000)])
    room = share * (SIZE - day.size)
    count = min(int(room / 15), 49_999)
    day.add(f"BAT;S;1;A;{count + 1};{second.euros(2 * count)}", *[f"ENT;{i % 4000};T;0.01" for i in range(count)], f"ENT;T;R;{second.euros(count)}")
    day.fill(SIZE, lambda i: [f"PAY;R;{i};N;R;{i % 4000};0.01"])
    return day.done()


def debits_backwards(share):
    """The same, the last debit's account first, over as many stops."""
    day = Making()
    day.add("AS;S;A", "ACC;T;TEC;S;A;0.00", "ACC;R;DCA;R;;9999999.00", *[f"ACC;{i};DCA;B;;0.00" for i in range(4000)])
    room = share * (SIZE - day.size)
    count = min(int(room / 15), 49_999)
    day.add(f"BAT;S;1;A;{count + 1};{second.euros(2 * count)}", *[f"ENT;{i % 4000};T;0.01" for i in range(count)], f"ENT;T;R;{second.euros(count)}")
    day.fill(SIZE, lambda i: [f"PAY;R;{i};N;R;{3999 - i % 4000};0.01", f"TIM;{clock(i + 1)}"])
    return day.done()


def batches_of_a(share):
    """Batches of A of a few debits each, all on one account that gets its money cent by cent."""
    day = Making()
    day.add("AS;S;A", "ACC;T;TEC;S;A;0.00", "ACC;R;DCA;R;;9999999.00", "ACC;X;DCA;B;;0.00")
    day.fill(share * SIZE, lambda i: [f"BAT;S;{i};A;4;0.06", "ENT;X;T;0.01", "ENT;X;T;0.01", "ENT;X;T;0.01", "ENT;T;R;0.03"])
    day.fill(SIZE, lambda i: [f"PAY;R;{i};N;R;X;0.01"])
    return day.done()


def batches_of_b(share):
    """Batches of B of two debtors each, of which the second never has the money; payments touch the first."""
    day = Making()
    day.add("AS;S;B", "ACC;T;TEC;S;B;0.00", "ACC;R;DCA;R;;9999999.00", "ACC;X;DCA;B;;0.00", "ACC;Y;DCA;B;;0.00")
    day.fill(share * SIZE, lambda i: [f"BAT;S;{i};B;3;0.06", "ENT;X;T;0.01", "ENT;Y;T;0.02", "ENT;T;R;0.03"])
    day.fill(SIZE, lambda i: [f"PAY;R;{i};N;R;X;0.01"])
    return day.done()


def one_batch_of_b(share):
    """One batch of B over many debtors, one of which stays short; payments bring the others more, in turn, from behind."""
    day = Making()
    day.add("AS;S;B", "ACC;T;TEC;S;B;0.00", "ACC;R;DCA;R;;9999999.00", *[f"ACC;{i};DCA;B;;0.00" for i in range(4000)])
    room = share * (SIZE - day.size)
    count = min(int(room / 15), 49_999)
    day.add(f"BAT;S;1;B;{count + 1};{second.euros(2 * count)}", *[f"ENT;{i % 4000};T;0.01" for i in range(count)], f"ENT;T;R;{second.euros(count)}")
    day.fill(SIZE, lambda i: [f"PAY;R;{i};N;R;{3999 - i % 3999};0.01"])
    return day.done()


def debtors_in_turn(share, others=0, stops=True):
    """A batch of B over one debtor with money and two others, which in turn get and lose theirs by transfers, each before a stop."""
    day = Making()
    day.add("AS;S;BC", "ACC;T;TEC;S;B;0.00", "ACC;R;DCA;R;;9999999.00", "ACC;X;DCA;X;;9999999.00", *[f"ACC;N{i};DCA;N;;0.00" for i in range(others)])
    day.add("ACC;Y;DCA;B;;0.00", "ACC;Z;DCA;B;;0.05", "ACC;V;SUB;B;S;0.00")
    count = min(int(share * SIZE / 13), 49_997)
    day.add(f"BAT;S;1;B;{count + 3};{second.euros(2 * count + 20)}", *["ENT;X;T;0.01"] * count, "ENT;Y;T;0.05", "ENT;Z;T;0.05", f"ENT;T;R;{second.euros(count + 10)}")
    day.fill(SIZE, lambda i: [f"LIQ;B;{i};{('Z;V', 'V;Y', 'Y;V', 'V;Z')[i % 4]};0.05", *[f"TIM;{clock(i + 1)}"] * stops])
    return day.done()


def debtors_in_turn_live(share):
    """The same without stops: of a day that comes in each transfer is a moment of its own."""
    return debtors_in_turn(share, 0, False)


def debtors_among_many(share):
    """The same with as many accounts as there may be, of which the batch debits three, and some more entries than accounts."""
    return debtors_in_turn(0.05 + share / 10, 4080, False)


def debtors_at_two_ends(share):
    """A batch of B over many debtors, all with money but the first and the last, which in turn get and lose theirs by transfers."""
    day = Making()
    count = int(4090 * share)
    day.add("AS;S;BC", "ACC;T;TEC;S;B;0.00", "ACC;R;DCA;R;;9999999.00", "ACC;Y;DCA;B;;0.00", "ACC;Z;DCA;B;;0.05", "ACC;V;SUB;B;S;0.00")
    day.add(*[f"ACC;{i};DCA;C;;0.01" for i in range(count)], f"BAT;S;1;B;{count + 3};{second.euros(2 * count + 20)}", "ENT;Y;T;0.05")
    day.add(*[f"ENT;{i};T;0.01" for i in range(count)], "ENT;Z;T;0.05", f"ENT;T;R;{second.euros(count + 10)}")
    day.fill(SIZE, lambda i: [f"LIQ;B;{i};{('Z;V', 'V;Y', 'Y;V', 'V;Z')[i % 4]};0.05"])
    return day.done()


def debtors_from_behind(share):
    """Batches of B over the same accounts, which all have the money, each with its debtors in the opposite order of the accounts."""
    day = Making()
    count = int(4093 * share)
    day.add("AS;S;B", "ACC;T;TEC;S;B;0.00", "ACC;R;DCA;R;;0.00", *[f"ACC;{i};DCA;B;;999.00" for i in range(count)])
    day.fill(SIZE - count * 16, lambda i: [f"BAT;S;{i};B;{count + 1};{second.euros(2 * count)}", *[f"ENT;{count - 1 - k};T;0.01" for k in range(count)], f"ENT;T;R;{second.euros(count)}"])
    return day.done()


def entries_of_e(share):
    """Batches of E whose entries wait on one account, freed from behind by payments of high priority that wait before others."""
    day = Making()
    day.add("AS;S;E", "ACC;R;DCA;R;;9999999.00", "ACC;X;DCA;B;;0.00", "ACC;Y;DCA;C;;0.00")
    count = min(int(share * SIZE / 13), 49_000)
    day.add(f"BAT;S;1;E;{count};{second.euros(sum(1 + i % 9 for i in range(count)))}", *[f"ENT;X;Y;0.0{1 + i % 9}" for i in range(count)])
    day.fill(SIZE, lambda i: [f"PAY;R;{i};N;R;X;0.01"])
    return day.done()


def waiting_over_stops(share):
    """Payments that wait on as many accounts as there may be, and stops at which nothing happens."""
    day = Making()
    day.add(*[f"ACC;{i};DCA;B{i};;0.00" for i in range(4096)])
    left = SIZE - day.size
    day.fill(SIZE - (1 - share) * left, lambda i: [f"PAY;B{i % 4096};{i};H;{i % 4096};{(i + 1) % 4096};0.01"])
    day.fill(SIZE, lambda i: [f"TIM;{clock(i + 1)}"])
    return day.done()


def ends_at_once(share):
    """Two batches of E on one account whose information ends at one time, of two systems: with workers the second may be taken first."""
    day = Making()
    day.add("AS;S;E", "AS;U;E", "ACC;X;DCA;B;;0.00", "ACC;Y;DCA;C;;0.00")
    first = int(share * SIZE / 13)
    for system, count in (("S", first), ("U", int(SIZE / 13) - first)):
        count = min(count, 49_999)
        day.add(f"BAT;{system};1;E;{count};{second.euros(count)};info=10:00:00", *["ENT;X;Y;0.01"] * count)
    return day.done()


def ends_of_their_own(share):
    """Batches with three ends each, of A and B in turn, all different; and payments."""
    day = Making()
    day.add("AS;S;AB", "ACC;T;TEC;S;A;0.00", "ACC;U;TEC;S;B;0.00", "ACC;F;FND;S;;0.00", "ACC;R;DCA;R;;9999999.00", "ACC;X;DCA;B;;0.00")
    day.fill(share * SIZE, lambda i: [f"BAT;S;{i};{'AB'[i % 2]};2;0.02;info={clock(3 * i + 1)};from={clock(3 * i + 2)};till={clock(3 * i + 3)}",
                                      f"ENT;X;{'TU'[i % 2]};0.01", f"ENT;{'TU'[i % 2]};R;0.01"])
    day.fill(SIZE, lambda i: [f"PAY;R;{i};N;R;X;0.01"])
    return day.done()


def asked_together(share):
    """Batches whose end comes at one time, all asked for, all answered yes, with a fund that holds nothing; each with many entries."""
    day = Making()
    day.add("AS;S;AB", "ACC;T;TEC;S;A;0.00", "ACC;U;TEC;S;B;0.00", "ACC;F;FND;S;;0.00", "ACC;R;DCA;R;;9999999.00", "ACC;X;DCA;B;;0.00")
    each = max(int(40 * share), 1)
    count = day.fill(SIZE * 4 / 5, lambda i: [f"BAT;S;{i};{'AB'[i % 2]};{each + 1};{second.euros(2 * each)};till=10:00:00", *[f"ENT;X;{'TU'[i % 2]};0.01"] * each,
                                              f"ENT;{'TU'[i % 2]};R;{second.euros(each)}"])
    day.add("TIM;10:00:01")
    day.fill(SIZE, lambda i: [f"CNF;S;C{i};{i % count};Y"])
    return day.done()


def objected_by_all(share):
    """A batch of B in its information period, and objections of banks that have no account in it, or name no batch."""
    day = Making()
    day.add("AS;S;BE", "ACC;U;TEC;S;B;0.00", *[f"ACC;{i};DCA;B{i};;1.00" for i in range(4000)])
    room = share * (SIZE - day.size)
    count = min(int(room / 15), 49_999)
    day.add(f"BAT;S;1;E;{count};{second.euros(count)};info=23:00:00", *[f"ENT;{i % 2000};{i % 2000 + 1};0.01" for i in range(count)])
    day.fill(SIZE, lambda i: [f"OBJ;B{i % 4000};{i};S;1"])
    return day.done()


def objected_by_one(share):
    """A batch of E in its information period of which a bank owns one entry, and objections of that bank, all accepted."""
    day = Making()
    day.add("AS;S;E", "ACC;0;DCA;B;;1.00", "ACC;X;DCA;X;;1.00", "ACC;Y;DCA;X;;1.00")
    count = min(int(share * SIZE / 13), 49_999)
    day.add(f"BAT;S;1;E;{count};{second.euros(count)};info=23:00:00", "ENT;0;X;0.01", *["ENT;X;Y;0.01"] * (count - 1))
    day.fill(SIZE, lambda i: [f"OBJ;B;{i};S;1"])
    return day.done()


def objected_by_half(share):
    """The same of a bank that owns an account of every other entry; each objection but the first repeats it."""
    day = Making()
    day.add("AS;S;E", "ACC;0;DCA;B;;999.00", "ACC;X;DCA;X;;999.00", "ACC;Y;DCA;X;;1.00")
    count = min(int(share * SIZE / 13), 49_999)
    day.add(f"BAT;S;1;E;{count};{second.euros(count)};info=23:00:00", *["ENT;X;Y;0.01" if k % 2 else "ENT;0;X;0.01" for k in range(count)])
    day.fill(SIZE, lambda i: [f"OBJ;B;{i};S;1"])
    return day.done()


def informed(share):
    """Small batches of E with an information end between as many banks as there may be."""
    day = Making()
    count = max(int(4000 * share), 2)
    day.add("AS;S;E", *[f"ACC;{i};DCA;B{i};;1.00" for i in range(count)])
    day.fill(SIZE, lambda i: [f"BAT;S;{i};E;1;0.01;info=23:00:00", f"ENT;{i % count};{(i + 1) % count};0.01"])
    return day.done()


def lanes_at_stops(share):
    """Stops at each of which two to ten senders have a payment, so that the lanes of workers begin anew each time."""
    day = Making()
    each = 2 + int(10 * share)
    day.add(*[f"ACC;{i};DCA;B{i};;1.00" for i in range(16)])
    day.fill(SIZE, lambda i: [f"TIM;{clock(i + 1)}", *[f"PAY;B{(i + j) % 16};{i};N;{(i + j) % 16};{(i + j + 1) % 16};0.01" for j in range(each)]])
    return day.done()


def lanes_of_answers(share):
    """Stops at each of which two to eight senders, which are no systems, send an answer, so that each lane of eight workers has one."""
    day = Making()
    day.add("ACC;X;DCA;B;;0.00")
    each = {0.2: 2, 0.5: 4, 0.8: 8}[share]
    day.fill(SIZE, lambda i: [f"TIM;{clock(i + 1)}", *[f"CNF;{'CDEFGHIJ'[j]};1;1;Y" for j in range(each)]])
    return day.done()


def stops_of_a_bank(share):
    """A bank with very many accounts, and stops at which nothing happens."""
    day = Making()
    day.add(*[f"ACC;{i};DCA;B;;1.00" for i in range(max(int(4096 * share), 2))])
    day.fill(SIZE, lambda i: [f"TIM;{clock(i + 1)}"])
    return day.done()


def held_by_all(share):
    """A bank with as many accounts as there may be, stops in each five minutes, and transfers, each of which moves something of it."""
    day = Making()
    count = int(4094 * share)
    day.add("AS;S;C", "ACC;0;DCA;B;;9999999.00", *[f"ACC;{i};DCA;B;;0.00" for i in range(1, count)], "ACC;V;SUB;B;S;0.00")
    day.add(*[f"TIM;{clock(300 * i)}" for i in range(1, 288)])
    day.fill(SIZE, lambda i: [f"LIQ;B;{i};0;V;0.01"])
    return day.done()


def long_names(share):
    """Names and identifications at their longest that differ at their ends, of accounts, banks and messages."""
    day = Making()
    day.fill(share * SIZE, lambda i: [f"ACC;{long_name('A', i)};DCA;{long_name('B', i)};;1.00"] if i < 4096 else [f"PAY;{long_name('B', i % 4096)};{'x' * 29}{i:06};N;{long_name('A', 0)};{long_name('A', 4095)};0.01"])
    count = max(sum(row.startswith("ACC;") for row in day.rows), 2)
    day.fill(SIZE, lambda i: [f"PAY;{long_name('B', i % count)};{'x' * 29}{i:06};N;{long_name('A', i % count)};{long_name('A', (i + 1) % count)};0.01"])
    return day.done()


def repeats(share):
    """The same identification again and again, of many senders with long names, and of one."""
    day = Making()
    day.add("ACC;X;DCA;B;;1.00", "ACC;Y;DCA;C;;1.00")
    day.fill(share * SIZE, lambda i: [f"PAY;{long_name('N', i % 3)};{'x' * 35};N;X;Y;0.01"])
    day.fill(SIZE, lambda i: ["PAY;B;1;N;X;Y;0.01"])
    return day.done()


def sub_accounts(share):
    """Sub-accounts that are filled and swept, and cycles with batches of both directions between."""
    day = Making()
    count = max(int(3000 * share), 1)
    day.add("AS;S;C", "ACC;T;TEC;S;C;0.00", "ACC;X;DCA;B;;9999999.00", *[f"ACC;S{i};SUB;B;S;0.00" for i in range(count)])
    day.add(*[f"LIQ;B;L{i};X;S{i};1.00" for i in range(count)], "CYC;S;K;START")
    day.fill(SIZE, lambda i: [f"BAT;S;{i};C;2;0.03", f"ENT;S{i % count};T;0.01", f"ENT;T;S{(i + 1) % count};0.02"])
    return day.done()


def cycles(share):
    """Cycles that start and end at once; and batches of C that nothing covers, in one long cycle before."""
    day = Making()
    day.add("AS;S;C", "ACC;T;TEC;S;C;0.00", "ACC;X;DCA;B;;0.00", "ACC;Y;SUB;B;S;0.00", "CYC;S;A;START")
    day.fill(share * SIZE, lambda i: [f"BAT;S;{i};C;1;0.01", "ENT;Y;T;0.01"])
    day.add("CYC;S;B;END")
    day.fill(SIZE, lambda i: [f"CYC;S;C{i};{'START' if i % 2 == 0 else 'END'}"])
    return day.done()


def prefunded(share):
    """Batches of D of many entries of which few fit, and transfers that pay in."""
    day = Making()
    day.add("AS;S;D", "ACC;T;TEC;S;D;0.00", "ACC;X;DCA;B;;9999999.00")
    each = max(int(1000 * share), 1)
    day.fill(SIZE, lambda i: [f"LIQ;B;L{i};X;T;0.01", f"BAT;S;{i};D;{each};{second.euros(each)}", *["ENT;T;X;0.01"] * each])
    return day.done()


def kept_back(share):
    """An account that keeps amounts: high payments wait for the first, normal ones for both, money comes cent by cent over stops."""
    day = Making()
    day.add("ACC;X;DCA;B;;0.00", "RES;X;1.00;1.00", "ACC;R;DCA;R;;9999999.00")
    day.fill(share * SIZE, lambda i: [f"PAY;B;{i};{'HN'[i % 2]};X;R;0.01"])
    day.fill(SIZE, lambda i: [f"PAY;R;{i};N;R;X;0.01", f"TIM;{clock(i + 1)}"])
    return day.done()


def two_rings(share):
    """Payments between accounts in a ring, each of which frees the one before it in the file."""
    day = Making()
    count = max(int(4096 * share), 2)
    day.add(*[f"ACC;{i};DCA;B{i};;{'0.01' if i == 0 else '0.00'}" for i in range(count)])
    day.fill(SIZE, lambda i: [f"PAY;B{(count - i) % count};{i};N;{(count - i) % count};{(count - i + 1) % count};0.01"])
    return day.done()


def many_systems(share):
    """Systems in their greatest number, with all accounts, and a batch of each in turn."""
    day = Making()
    count = max(int(256 * share), 1)
    day.add("ACC;X;DCA;B;;9999.00", "ACC;Y;DCA;C;;9999.00")
    for i in range(count):
        day.add(f"AS;S{i};ABCDE", *[f"ACC;T{i}{letter};TEC;S{i};{letter};0.00" for letter in "ABCD"], f"ACC;F{i};FND;S{i};;1.00", f"ACC;U{i};SUB;B;S{i};0.00")
    day.fill(SIZE, lambda i: [f"BAT;S{i % count};{i};A;2;0.02", f"ENT;X;T{i % count}A;0.01", f"ENT;T{i % count}A;Y;0.01"])
    return day.done()


def one_banks_accounts(share):
    """A bank with as many accounts as there may be, and stops with payments between."""
    day = Making()
    count = max(int(4096 * share), 2)
    day.add(*[f"ACC;{i};DCA;B;;1.00" for i in range(count)])
    day.fill(SIZE, lambda i: [f"PAY;B;{i};N;{i % count};{(i + 1) % count};0.01", f"TIM;{clock(i + 1)}"] if i < 86000 else [f"PAY;B;{i};N;0;1;0.01"])
    return day.done()


def quotes(share):
    """Fields that are all in quotes, with line ends between records that are empty lines."""
    day = Making()
    day.add("ACC;X;DCA;B;;1.00", "ACC;Y;DCA;C;;1.00")
    day.fill(share * SIZE, lambda i: [f'"PAY";"B";"{i}";"N";"X";"Y";"0.01"'])
    day.fill(SIZE, lambda i: [""])
    return day.done()


def tiny_days(share):
    """A chain of days of as many accounts as fit, from 2023 on: all open days there are at the smaller share."""
    count, text, size, date = int(1 + 2 * share), [], 0, datetime.date(2023, 1, 2)
    while size < SIZE and date.year < 2100:
        day = f"DAY;{date}\n" + "".join(f"ACC;X{i};DCA;B;;0.00\n" for i in range(count)) + "END\n"
        text.append(day)
        size += len(day)
        date = second.next_open(date)
    return "".join(text).encode()


def empty_days(share):
    """A chain of days of nothing at all."""
    text, date = [], datetime.date(2023, 1, 2)
    while date.year < 2100:
        text.append(f"DAY;{date}\nEND\n")
        date = second.next_open(date)
    return "".join(text).encode()


def days_with_systems(share):
    """A chain of days of one system with all accounts, and a payment each."""
    text, size, date = [], 0, datetime.date(2023, 1, 2)
    while size < SIZE and date.year < 2100:
        day = f"DAY;{date}\nAS;S;ABCDE\nACC;X;DCA;B;;0.00\nACC;T;TEC;S;A;0.00\nPAY;B;1;N;X;X;0.01\nEND\n"
        text.append(day)
        size += len(day)
        date = second.next_open(date)
    return "".join(text).encode()


def late_ends(share):
    """A chain of days of one batch each, whose information end, settlement end, or both are midnight; none of them is accepted."""
    text, size, date = [], 0, datetime.date(2023, 1, 2)
    ends = {0.2: "24:00:00;", 0.5: ";24:00:00", 0.8: "24:00:00;24:00:00"}[share]
    while size < SIZE and date.year < 2100:
        day = f"DAY;{date}\nBAT;A;1;E;{ends};0;0.00\nEND\n"
        text.append(day)
        size += len(day)
        date = second.next_open(date)
    return "".join(text).encode()


def tiny_days_of_version_3(share):
    """The same of version 3, which has room for the largest days."""
    return tiny_days(share).replace(b"DAY;", b"VER;3\nDAY;")[:SIZE].rsplit(b"VER;", 1)[0]


def days_with_stops(share):
    """A chain of days of one account, with a payment that waits and some stops each."""
    text, size, date = [], 0, datetime.date(2023, 1, 2)
    stops = "".join(f"TIM;{clock(i + 1)}\n" for i in range(int(1 + 100 * share)))
    while size < SIZE and date.year < 2100:
        day = f"DAY;{date}\nACC;X;DCA;B;;0.00\nPAY;B;1;N;X;X;0.01\n{stops}END\n"
        text.append(day)
        size += len(day)
        date = second.next_open(date)
    return "".join(text).encode()


def days_of_many_accounts(share):
    """A chain of days of many accounts, which each day has to join."""
    text, size, date = [], 0, datetime.date(2023, 1, 2)
    accounts = "".join(f"ACC;{i};DCA;B;;1.00\n" for i in range(int(4096 * share)))
    while size < SIZE and date.year < 2100:
        day = f"DAY;{date}\n{accounts}END\n"
        text.append(day)
        size += len(day)
        date = second.next_open(date)
    return "".join(text[:-1]).encode()


def live_making():
    """A day that has begun."""
    day = Making()
    day.add("AS;S;E", "ACC;X;DCA;B;;1.00", "ACC;Y;DCA;C;;1.00", "PAY;B;0;N;X;Y;0.01")
    return day


def refused_alone(share):
    """A live day of one payment and, after it, nothing but short records that are refused."""
    day = live_making()
    day.fill(SIZE, lambda i: [("X", "ENT", "END;")[int(3 * share)]])
    return day.done()


def refused_between(share):
    """Payments, and records that are refused between them: one in five, every second, four in five."""
    day = live_making()
    day.fill(SIZE, lambda i: [f"PAY;B;{i};N;X;Y;0.0{0 if i % 10 < 10 * share else 1}" if share != 0.5 else f"PAY;B;{i};N;X;Y;0.0{i % 2}"])
    return day.done()


def refused_names(share):
    """Records that are refused, each with names that no other has, at their longest; and payments of such senders."""
    day = live_making()
    day.fill(share * SIZE, lambda i: [f"PAY;{long_name('N', i)};{'x' * 29}{i:06};N;{long_name('A', i)};{long_name('B', i)};0.00"])
    day.fill(SIZE, lambda i: [f"PAY;{long_name('N', i)};{'x' * 29}{i:06};N;{long_name('A', i)};{long_name('B', i)};0.01"])
    return day.done()


def refused_batches(share):
    """Batches whose last entry is bad, and refuses them: of few entries, of hundreds, of as many as fit."""
    day = live_making()
    each = {0.2: 1, 0.5: 300, 0.8: 40_250}[share]
    day.fill(SIZE, lambda i: [f"BAT;S;{i};E;{each};0.01", *["ENT;X;Y;0.01"] * (each - 1), "ENT;X;Y;0"])
    return day.done()


def refused_at_once(share):
    """Batches that are refused at their first record, and entries that are passed over; and entries that no batch has."""
    day = live_making()
    day.fill(share * SIZE, lambda i: [f"BAT;S;{i};E;1;0", *["ENT"] * 10])
    day.add("TIM;10:00:00")
    day.fill(SIZE, lambda i: ["ENT;X;Y;0.01"])
    return day.done()


def refused_setup(share):
    """A setup of all accounts, and records of accounts and stops that come too late."""
    day = Making()
    day.add(*[f"ACC;{i};DCA;B{i};;1.00" for i in range(4096)], "TIM;10:00:00")
    left = SIZE - day.size
    day.fill(SIZE - (1 - share) * left, lambda i: [f"ACC;{i};DCA;B;;1.00"])
    day.fill(SIZE, lambda i: ["TIM;10:00:00"])
    return day.done()


def refused_quotes(share):
    """A live day whose records are refused and full of quotes, or one record in quotes that doesn't end."""
    day = live_making()
    day.fill(share * SIZE, lambda i: ['"""";"";"END"'])
    day.add('"' + '""' * int((SIZE - day.size) / 2))
    return day.done()


def lines_of(heads):
    """The text of a journal, of (kind, message, entry, code, moves), each move a text behind 'M;'."""
    text = []
    for place, (kind, n, k, code, *moves) in enumerate(heads, 1):
        text += [f"J;{place};{kind};{n};{k};{code};{len(moves)}", *["M;" + move for move in moves]]
    return "".join(row + "\n" for row in text).encode()


def store_of(journal):
    """The bytes of a store of such a text."""
    entries = [b"J;" + entry for entry in (b"\n" + journal).split(b"\nJ;")[1:]]
    entries = [entry if entry.endswith(b"\n") else entry + b"\n" for entry in entries]
    return b"".join(b"\1" + len(entry).to_bytes(4, "big") + entry for entry in entries) + b"\0"


def runs_over(day, journal, bank):
    """Who reads a journal: (what, program, words, input)."""
    store, half = store_of(journal), store_of(journal[:journal.rfind(b"\nJ;", 0, len(journal) // 2) + 1])
    return [("replay", RTGS, ["replay"], day + journal), ("view", VIEW, ["view", bank, "1", "9999999"], day + journal),
            ("view of a line", VIEW, ["view", bank, "1", "1"], day + journal), ("page", PAGE, ["page"], day + journal),
            ("party's page", PAGE, ["page", bank], day + journal), ("show", STORE, ["show"], day + store),
            ("store", STORE, ["run", "9999999"], day + half)]


def last_sender_first(share):
    """Messages of as many senders, which are taken from the last to the first: of names that are no banks, and payments of banks that wait."""
    day = Making()
    day.add(*[f"ACC;{i};DCA;B{i};;0.00" for i in range(1000)])
    own = int(1000 * share)
    day.add(*[f"PAY;B{i};1;N;{i};0;0.01" for i in range(1, own)])
    unknown = day.fill(SIZE / 2, lambda i: [f"PAY;U{i};1;N;1;0;0.01"])
    last = own - 1 + unknown
    heads = [("IN", n, 0, "OK" if n < own else "US") for n in range(last, 0, -1)]
    heads += [("TIME", 0, 86400, "OK"), *[("EXPIRE", n, 0, "ED") for n in range(own - 1, 0, -1)], ("END", 0, 0, "OK")]
    return runs_over(day.done(), lines_of(heads), "B1")


def ends_in_turn(share):
    """Batches of E of one entry on one account, of two systems in turn, with one information end; those of the second are all taken first."""
    day = Making()
    day.add("AS;S;E", "AS;U;E", "ACC;X;DCA;B;;0.00", "ACC;Y;DCA;C;;0.00")
    each = {0.2: 1, 0.5: 10, 0.8: 1000}[share]
    last = day.fill(SIZE * 0.44, lambda i: [f"BAT;{'SU'[i // each % 2]};{i};E;1;0.01;info=10:00:00", "ENT;X;Y;0.01"])
    order = sorted(range(1, last + 1), key=lambda n: ((n - 1) // each % 2 == 0, n))
    heads = [("IN", n, 0, "OK") for n in order] + [("TIME", 0, 36000, "OK"), ("TIME", 0, 86400, "OK")]
    heads += [*[("EXPIRE", n, 0, "PE") for n in range(1, last + 1)], ("END", 0, 0, "OK")]
    return runs_over(day.done(), lines_of(heads), "B")


def ends_from_two_sides(share):
    """The same between two batches more, one of them long: each of the first system goes before its many entries, each of the second behind."""
    day = Making()
    day.add("AS;S;E", "AS;U;E", "AS;M;E", "AS;Z;E", "ACC;X;DCA;B;;0.00", "ACC;Y;DCA;C;;0.00", "BAT;Z;1;E;1;0.01;info=10:00:00", "ENT;X;Y;0.01")
    many = int(share * SIZE / 13)
    counts = [49_999] * (many // 49_999) + [many % 49_999]
    for i, count in enumerate(counts):
        day.add(f"BAT;M;{i};E;{count};{second.euros(count)};info=10:00:00", *["ENT;X;Y;0.01"] * count)
    pairs = day.fill(SIZE * (0.4 + share / 2), lambda i: [f"BAT;{'SU'[i % 2]};{i};E;1;0.01;info=10:00:00", "ENT;X;Y;0.01"])
    middle = range(2, 2 + len(counts))
    sides = range(2 + len(counts), 2 + len(counts) + pairs)
    heads = [("IN", n, 0, "OK") for n in (*sides[0::2], *middle, *sides[1::2], 1)] + [("TIME", 0, 36000, "OK"), ("TIME", 0, 86400, "OK")]
    heads += [*[("EXPIRE", n, 0, "PE") for n in range(1, 2 + len(counts) + pairs)], ("END", 0, 0, "OK")]
    return runs_over(day.done(), lines_of(heads), "B")


def last_payment_first(share):
    """Normal payments of one account, or of one account each, which are booked from the last to the first."""
    day = Making()
    count = max(int(2000 * (share - 0.2)), 1)
    day.add(*[f"ACC;{i};DCA;B{i};;999.00" for i in range(count + 1)])
    last = day.fill(SIZE * 0.27, lambda i: [f"PAY;B{i % count};{i};N;{i % count};{count};0.01"])
    heads = [("IN", n, 0, "OK") for n in range(1, last + 1)] + [("BOOK", n, 0, "OK", f"{(n - 1) % count + 1};{count + 1};0.01") for n in range(last, 0, -1)]
    return runs_over(day.done(), lines_of([*heads, ("TIME", 0, 86400, "OK"), ("END", 0, 0, "OK")]), "B0")


def last_entry_first(share):
    """Entries of batches of E, each debtor's in order, the last debtor's first: the batches are few and long, or many and short."""
    day = Making()
    day.add("AS;S;E", *[f"ACC;{i};DCA;B{i};;999.00" for i in range(2001)])
    each = {0.2: 2, 0.5: 200, 0.8: 15_000}[share]
    items, count = [], 0
    while day.size < SIZE * 0.28:
        count += 1
        entries = [(count + k) % 2000 for k in range(each)]
        items += [(entry, count, k) for k, entry in enumerate(entries, 1)]
        day.add(f"BAT;S;{count};E;{each};{second.euros(each)}", *[f"ENT;{entry};2000;0.01" for entry in entries])
    items.sort(key=lambda item: (-item[0], item[1], item[2]))
    heads = [("IN", n, 0, "OK") for n in range(1, count + 1)] + [("BOOK", n, k, "OK", f"{entry + 1};2001;0.01") for entry, n, k in items]
    return runs_over(day.done(), lines_of([*heads, ("TIME", 0, 86400, "OK"), ("END", 0, 0, "OK")]), "B0")


def no_journal(share):
    """A day of many payments, and what is no journal, output or store of it: line ends, a line again and again, lengths that nothing has."""
    day = Making()
    last = day.fill(share * SIZE, lambda i: [f"PAY;B;{i};N;X;Y;0.01"])
    day.rows[2:2] = ["ACC;X;DCA;B;;0.00", "ACC;Y;DCA;C;;0.00"]
    day, room = day.done(), int(SIZE * (1 - share))
    first = b"J;1;IN;1;0;OK;0\n"
    for_long = lines_of([("IN", n, 0, "OK") for n in range(1, last + 1)])[:room]
    runs = []
    for name, rest in (("line ends", b"\n" * room), ("a line", first * (room // 16)), ("a front", for_long), ("moves", b"J;1;IN;1;0;OK;50000\n" + b"M;1;2;0.01\n" * (room // 11))):
        runs += [(f"replay, {name}", RTGS, ["replay"], day + rest), (f"view, {name}", VIEW, ["view", "B", "1", "9"], day + rest), (f"follow, {name}", RTGS, ["follow", "B"], day + rest)]
    for name, rest in (("no gate", b"\n" * room), ("gates", b"\1" * room), ("lengths", b"\1\0\0\0\0" * (room // 5)), ("one length", b"\1\x7f\xff\xff\xff" + b"\0" * room), ("behind a gate", b"\0" + b"\1" * room)):
        runs += [(f"store, {name}", STORE, ["run", "9999999"], day + rest), (f"show, {name}", STORE, ["show"], day + rest)]
    return runs


def followed(share):
    """A bank with accounts and messages, and lines of an output that tell it of them without an end."""
    day = Making()
    count = int(4000 * share)
    day.add("AS;S;E", *[f"ACC;{i};DCA;B;;1.00" for i in range(count)])
    last = day.fill(SIZE / 2, lambda i: [f"PAY;B;{i};N;{i % count};0;0.01"])
    day, room = day.done(), SIZE // 2
    runs = []
    for name, rows in (("moves", (f"S;1;B;{('DBIT', 'CRDT')[i // count % 2]};{count - 1 - i % count};0.01\n" for i in range(room))),
                       ("words", (f"S;1;B;{('ACPT', 'SETL')[i % 2]};{last - i % last};B;{last - 1 - i % last};0;OK\n" for i in range(room))),
                       ("others", (f"S;1;C{i};ACPT;1;C;1;0;OK\n" for i in range(room))), ("line ends", ("\n" for _ in range(room)))):
        text, size = [], 0
        while size < room:
            text.append(next(rows))
            size += len(text[-1])
        runs.append((f"follow, {name}", RTGS, ["follow", "B"], day + "".join(text).encode()))
    return runs


def nothing_but(share):
    """Bytes that are no records: line ends, field ends, quotes, and letters without an end."""
    return b"DAY;2025-06-02\n" + bytes([b'\n;"'[int(3 * share)]]) * SIZE


DAYS = [debits_one_by_one, debits_backwards, batches_of_a, batches_of_b, one_batch_of_b, debtors_in_turn, debtors_from_behind, entries_of_e, waiting_over_stops, ends_at_once, ends_of_their_own, asked_together,
        objected_by_all, objected_by_one, objected_by_half, informed, lanes_at_stops, lanes_of_answers, stops_of_a_bank, held_by_all, long_names, repeats, sub_accounts, cycles, prefunded, kept_back, two_rings, many_systems, one_banks_accounts, quotes, nothing_but]
CHAINS = [tiny_days, empty_days, days_with_systems, late_ends, tiny_days_of_version_3, days_with_stops, days_of_many_accounts]
LIVES = [debtors_in_turn_live, debtors_among_many, debtors_at_two_ends, refused_alone, refused_between, refused_names, refused_batches, refused_at_once, refused_setup, refused_quotes]
JOURNALS, RESTS = [last_sender_first, ends_in_turn, ends_from_two_sides, last_payment_first, last_entry_first], [no_journal, followed]


class Costs:
    def __init__(self, programs):
        self.programs, self.worst = programs, 0

    def run(self, program, words, given, seconds=60):
        """The status, the text, the seconds of processor, and the most memory in MB."""
        with tempfile.TemporaryFile() as source, tempfile.TemporaryFile() as sink:
            source.write(given)
            source.seek(0)
            number = os.fork()
            if number == 0:
                os.dup2(source.fileno(), 0)
                os.dup2(sink.fileno(), 1)
                import resource
                resource.setrlimit(resource.RLIMIT_CPU, (seconds, seconds))
                os.execv(self.programs[program], [self.programs[program], *words])
            _, status, used = os.wait4(number, 0)
            sink.seek(0)
            return os.waitstatus_to_exitcode(status), sink.read(), used.ru_utime + used.ru_stime, used.ru_maxrss / 1024

    def tell(self, name, share, size, runs, expected=(0, 3)):
        """Tells of the runs, and where one has a status that isn't expected, so that it may have cost nothing."""
        row = []
        for what, (status, _, took, room) in runs:
            high = took > MOST_SECONDS or room > MOST_MEGABYTES
            self.worst = max(self.worst, high)
            wanted = (3, 6) if what == "resume, another end" else expected
            row.append(f"{what} {took:.2f} s {room:.0f} MB{'' if status in wanted else f' STATUS {status}'}{' <- HIGH' if high else ''}")
        print(f"{name} {share}, {size} bytes: " + ", ".join(row), flush=True)

    def day(self, make, share):
        given = make(share)
        settled = self.run(RTGS, ["settle", "--workers", "0"], given)
        journal = b"".join(line for line in settled[1].splitlines(True) if line[:2] in (b"J;", b"M;"))
        runs = [("settle", settled), *[(f"{n} workers", self.run(RTGS, ["settle", "--workers", str(n)], given)) for n in (4, 8)], ("migrate", self.run(RTGS, ["migrate"], given))]
        if settled[0] == 0:
            bank = next((row.split(b";")[3].decode() for row in given.splitlines() if row.startswith(b"ACC;") and b";DCA;" in row), "A")
            runs += [("replay", self.run(RTGS, ["replay"], given + journal)), ("follow", self.run(RTGS, ["follow", bank], given + settled[1])),
                     ("view", self.run(VIEW, ["view", bank, "1", "9999999"], given + journal)),
                     ("view of a line", self.run(VIEW, ["view", bank, "1", "1"], given + journal)), ("page", self.run(PAGE, ["page"], given + journal)),
                     ("party's page", self.run(PAGE, ["page", bank], given + journal))]
            stored = self.run(STORE, ["run", "9999999"], given)
            runs += [("store", stored), ("show", self.run(STORE, ["show"], given + stored[1]))]
        self.tell(make.__name__, share, len(given), [*runs, ("chain", self.run(CHAIN, [], given)), *self.live_runs(given)])

    def live_runs(self, given):
        """A live day; and gone on with where half of it was read and told, where all was but the last line, and where that was another one."""
        half = given[:given.rfind(b"\n", 0, len(given) // 2) + 1]
        runs = [("live", self.run(LIVE, ["run"], given))]
        told, first = runs[0][1][1], self.run(LIVE, ["run"], half)[1]
        told, first = (text[:text.rfind(b"\n", 0, -1) + 1] for text in (told, first))
        for what, read, old in (("half of it", half, first), ("its end", given, told), ("another end", given, told + b"J;")):
            again = b"RECORDS;%d\n%bOUTPUT;%d\n%b%b" % (len(read), read, len(old), old, given[len(read):])
            runs.append(("resume, " + what, self.run(LIVE, ["resume"], again)))
        return runs

    def live(self, make, share):
        given = make(share)
        self.tell(make.__name__, share, len(given), self.live_runs(given))

    def behind(self, make, share):
        runs = make(share)
        size = max(len(given) for *_, given in runs)
        self.tell(make.__name__, share, size, [(what, self.run(program, words, given)) for what, program, words, given in runs], (0,) if make in JOURNALS else (0, 6, 9))

    def chain(self, make, share):
        given = make(share)
        self.tell(make.__name__, share, len(given), [("chain", self.run(CHAIN, [], given))])


def main(words):
    all_shapes = DAYS + CHAINS + LIVES + JOURNALS + RESTS
    shapes = {make.__name__: make for make in all_shapes}
    if words[:1] == ["print"] and len(words) == 3 and words[1] in shapes and shapes[words[1]] not in JOURNALS + RESTS:
        sys.stdout.buffer.write(shapes[words[1]](float(words[2])))
        return 0
    wanted = [word for word in words if word in shapes]
    programs = builds_of([word for word in words if word not in shapes])
    if not programs:
        print(__doc__)
        return 2
    costs = Costs(programs)
    for make in [shapes[name] for name in wanted] or all_shapes:
        tried = next((how for some, how in ((CHAINS, costs.chain), (LIVES, costs.live), (JOURNALS + RESTS, costs.behind)) if make in some), costs.day)
        for share in (0.2, 0.5, 0.8):
            tried(make, share)
    return 1 if costs.worst else 0


if __name__ == "__main__":
    sys.exit(main(sys.argv[1:]))
