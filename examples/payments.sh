#!/bin/sh
# Writes a day of COUNT payments, to see how long a day takes:
#
#     sh examples/payments.sh 1000 > 1000.day
#
# Five banks pay one another in turn. Every payment is of normal priority, and every account holds enough for all that its
# bank sends, so each payment is booked in the first scan. A day of this version may have up to 100000 messages.

case ${1-} in
'' | *[!0-9]*)
    echo 'usage: payments.sh COUNT' >&2
    exit 2
    ;;
esac

awk -v count="$1" 'BEGIN {
    split("NORTH SOUTH WEST EAST CENTER", bank)
    print "DAY;2025-06-02"
    for (i = 1; i <= 5; i++)
        printf "ACC;%s1;DCA;%s;;10000000.00\n", bank[i], bank[i]
    for (n = 1; n <= count; n++) {
        payer = bank[n % 5 + 1]
        payee = bank[(n + 1) % 5 + 1]
        printf "PAY;%s;P%d;N;%s1;%s1;%d.00\n", payer, n, payer, payee, n % 100 + 1
    }
    print "END"
}'
