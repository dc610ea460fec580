#!/bin/sh
# Writes a day of a shape that costs much, to see how long such days take:
#
#     sh examples/shapes.sh falling 50000 > falling.day
#
# The shapes, with what COUNT counts:
#   falling    payments of normal priority from one account, each smaller than the one before it: of what one payment in
#              brings, each scan frees one
#   freed      payments of high priority that wait on one account, freed one by one by payments in, over as many stops
#   short      payments that touch all debtors but one of 20 batches of procedure B, each with 4,000 debtors, of which that
#              one stays short
#   objections objections of one bank to a batch of 10,000 entries, of which the first revokes some and the others are
#              accepted too, as long as the information period lasts
#   informed   batches of procedure E of 10,000 entries each (at most 100), with information ends, over 4,000 banks
#   names      payments between accounts whose names are as long as they may be and differ at their ends alone
#   cents      payments of a cent between two banks in turn, each of which has to wait for the one before it
#   debtors    debtor entries over 3,900 accounts that have the money, in batches of procedure B of at most 25,000 of them
#   funded     the same of accounts that have nothing: the guarantee fund pays
#   waiting    the same of accounts that get the money by payments, batch by batch over as many stops
#   credits    entries of one batch of procedure A (at most 50,000), of which the first is its debit and all others are credits
#   cycles     cycles of a system of procedure C, each of which ends with a batch in it whose debtor has nothing
#   objectors  objections of two banks in turn to a batch of 10,000 entries, of which one owns the accounts of every other
#              entry, and the other none
#   bank       accounts of one bank, and 287 stops five minutes apart, after each of which one account pays the next

case ${2-} in
'' | *[!0-9]*)
    echo 'usage: shapes.sh SHAPE COUNT' >&2
    exit 2
    ;;
esac

awk -v shape="$1" -v count="$2" '
function money(cents) { return sprintf("%d.%02d", int(cents / 100), cents % 100) }
function clock(s) { return sprintf("%02d:%02d:%02d", int(s / 3600), int(s / 60) % 60, s % 60) }
function accounts(n, cents,  i) {
    for (i = 1; i <= n; i++) printf "ACC;ACCOUNT%d;DCA;BANK%d;;%s\n", i, i, money(cents)
}
# A batch of procedure B in version 2: n entries of a cent, of ACCOUNT1 and so on in turn, and one entry that pays all of it out.
function debtors(name, n, times,  i) {
    print "BAT;CH;" name ";B;" n + 1 ";" money(2 * n) times
    for (i = 0; i < n; i++) printf "ENT;ACCOUNT%d;TB;0.01\n", i % 3900 + 1
    print "ENT;TB;OUT;" money(n)
}
function batches(total, times,  b) {
    for (b = 1; total > 0; b++) {
        debtors("B" b, total < 25000 ? total : 25000, times)
        total -= 25000
    }
    return b - 1
}
BEGIN {
    if (shape == "credits" || shape == "debtors" || shape == "funded" || shape == "waiting") print "VER;2"
    print "DAY;2025-06-02"
    if (shape == "falling") {
        print "ACC;X1;DCA;PAYER;;0.00"
        print "ACC;Y1;DCA;PAYEE;;10000000000.00"
        print "ACC;Z1;DCA;OTHER;;0.00"
        for (i = 0; i < count; i++) print "PAY;PAYER;P" i ";N;X1;Z1;" money(count - i)
        print "TIM;09:00:00"
        print "PAY;PAYEE;P;N;Y1;X1;" money(count * (count + 1) / 2)
    } else if (shape == "freed") {
        print "ACC;X1;DCA;PAYER;;0.00"
        print "ACC;Y1;DCA;PAYEE;;10000000.00"
        for (i = 0; i < count; i++) print "PAY;PAYER;P" i ";H;X1;Y1;1.00"
        for (i = 0; i < count; i++) {
            print "TIM;" clock(i + 1)
            print "PAY;PAYEE;P" i ";N;Y1;X1;1.00"
        }
    } else if (shape == "short") {
        print "AS;CH;B"
        accounts(4000, 100000000)
        print "ACC;POOR;DCA;POOR;;0.00"
        print "ACC;TB;TEC;CH;B;0.00"
        for (b = 0; b < 20; b++) {
            print "BAT;CH;B" b ";B;;;4002;" money(2 * 4001)
            for (i = 1; i <= 4000; i++) print "ENT;ACCOUNT" i ";TB;0.01"
            print "ENT;POOR;TB;0.01"
            print "ENT;TB;ACCOUNT1;40.01"
        }
        for (i = 0; i < count; i++)
            printf "PAY;BANK%d;P%d;H;ACCOUNT%d;ACCOUNT%d;0.01\n", i % 4000 + 1, i, i % 4000 + 1, (i + 1) % 4000 + 1
    } else if (shape == "objections") {
        print "AS;CH;E"
        accounts(100, 100000000)
        print "BAT;CH;B1;E;10:00:00;;10000;10000.00"
        for (i = 0; i < 10000; i++) printf "ENT;ACCOUNT%d;ACCOUNT%d;1.00\n", i % 100 + 1, (i + 1) % 100 + 1
        for (i = 0; i < count; i++) print "OBJ;BANK" i % 100 + 1 ";O" i ";CH;B1"
    } else if (shape == "informed") {
        print "AS;CH;E"
        accounts(4000, 100000000)
        for (b = 0; b < count; b++) {
            print "BAT;CH;B" b ";E;" clock(36000 + b) ";;10000;100.00"
            for (i = 0; i < 10000; i++) printf "ENT;ACCOUNT%d;ACCOUNT%d;0.01\n", (i + b) % 4000 + 1, (i + b + 1) % 4000 + 1
        }
    } else if (shape == "names") {
        for (i = 0; i < 4096; i++) printf "ACC;ACCOUNTWITHANAMEASLONGASITMAY%05d;DCA;BANKWITHANAMEASLONGASTHEYMAY%06d;;1000000.00\n", i, i
        for (i = 0; i < count; i++)
            printf "PAY;BANKWITHANAMEASLONGASTHEYMAY%06d;PAYMENT-IDENTIFIED-AT-LENGTH-%06d;N;ACCOUNTWITHANAMEASLONGASITMAY%05d;ACCOUNTWITHANAMEASLONGASITMAY%05d;0.01\n", i % 4096, i, i % 4096, (i * 7 + 1) % 4096
    } else if (shape == "cents") {
        print "ACC;X1;DCA;PAYER;;0.01"
        print "ACC;Y1;DCA;PAYEE;;0.00"
        for (i = 0; i < count; i++)
            print (i % 2 ? "PAY;PAYER;P" i ";N;X1;Y1;0.01" : "PAY;PAYEE;P" i ";N;Y1;X1;0.01")
    } else if (shape == "debtors" || shape == "funded" || shape == "waiting") {
        print "AS;CH;B"
        accounts(3900, shape == "debtors" ? 100000000 : 0)
        print "ACC;OUT;DCA;OUT;;" (shape == "waiting" ? "10000000000.00" : "0.00")
        print "ACC;TB;TEC;CH;B;0.00"
        print "ACC;FUND;FND;CH;;10000000.00"
        made = batches(count, shape == "funded" ? ";till=10:00:00" : "")
        if (shape == "funded") {
            print "TIM;11:00:00"
            for (b = 1; b <= made; b++) print "CNF;CH;A" b ";B" b ";Y"
        }
        for (b = 1; shape == "waiting" && b <= made; b++) {
            print "TIM;" clock(36000 + b)
            for (i = 1; i <= 3900; i++) printf "PAY;OUT;P%d-%d;H;OUT;ACCOUNT%d;0.07\n", b, i, i
        }
    } else if (shape == "credits") {
        print "AS;CH;A"
        accounts(100, 100000000)
        print "ACC;TA;TEC;CH;A;0.00"
        print "BAT;CH;B1;A;" count ";" money(2 * (count - 1))
        print "ENT;ACCOUNT1;TA;" money(count - 1)
        for (i = 1; i < count; i++) print "ENT;TA;ACCOUNT" i % 100 + 1 ";0.01"
    } else if (shape == "cycles") {
        print "AS;CH;C"
        print "ACC;X1;DCA;PAYER;;0.00"
        print "ACC;Y1;DCA;PAYEE;;0.00"
        print "ACC;S1;SUB;PAYER;CH;0.00"
        print "ACC;TC;TEC;CH;C;0.00"
        for (i = 0; i < count; i++) {
            print "CYC;CH;S" i ";START"
            print "BAT;CH;B" i ";C;;;1;0.01"
            print "ENT;S1;TC;0.01"
            print "CYC;CH;E" i ";END"
        }
    } else if (shape == "objectors") {
        print "AS;CH;E"
        accounts(100, 100000000)
        print "ACC;X1;DCA;PARTY;;0.00"
        print "ACC;Y1;DCA;OTHER;;0.00"
        print "BAT;CH;B1;E;10:00:00;;10000;10000.00"
        for (i = 0; i < 10000; i++)
            print "ENT;ACCOUNT" i % 100 + 1 ";" (i % 2 ? "X1" : "ACCOUNT" (i + 1) % 100 + 1) ";1.00"
        for (i = 0; i < count; i++) print "OBJ;" (i % 2 ? "PARTY" : "OTHER") ";O" i ";CH;B1"
    } else if (shape == "bank") {
        for (i = 1; i <= count; i++) print "ACC;ACCOUNT" i ";DCA;BANK;;1000.00"
        for (i = 0; i < 287; i++) {
            print "TIM;" clock(300 * (i + 1))
            print "PAY;BANK;P" i ";N;ACCOUNT" i % count + 1 ";ACCOUNT" (i + 1) % count + 1 ";1.00"
        }
    } else {
        print "no such shape: " shape > "/dev/stderr"
        exit 2
    }
    print "END"
}'
