#!/bin/sh
# Writes a chain of all the business days of a YEAR from 2023 to 2099, for the program day_chain:
#
#     sh examples/year.sh 2025 > 2025.chain
#
# NORTH opens the year with 1000000.00 and SOUTH with 0.00. On the n-th day NORTH pays SOUTH n.00 and SOUTH pays back half of
# it, and NORTH moves 2.00 to the account of the clearing house CLEAR for procedure D, of which CLEAR pays SOUTH 1.50. So 0.50
# is left there each day, which is set aside.

case ${1-} in
202[3-9] | 20[3-9][0-9]) ;;
*)
    echo 'usage: year.sh YEAR' >&2
    exit 2
    ;;
esac

awk -v year="$1" '
# The day of the week, from 0 for Sunday, of a day of the Gregorian calendar.
function weekday(y, m, d) {
    if (m < 3) { m += 12; y-- }
    return (d + int(13 * (m + 1) / 5) + y + int(y / 4) - int(y / 100) + int(y / 400) + 6) % 7
}
# Easter Sunday as a day of March: 32 is 1 April.
function easter(y,  a, b, c) {
    # From 1900 to 2099 the full moons follow the tables of these two numbers.
    a = (19 * (y % 19) + 24) % 30
    b = (2 * (y % 4) + 4 * (y % 7) + 6 * a + 5) % 7
    c = 22 + a + b
    if (c == 57 || (c == 56 && a == 28 && y % 19 > 10)) c -= 7
    return c
}
function closed(m, d,  march) {
    if (weekday(year, m, d) == 0 || weekday(year, m, d) == 6) return 1
    if ((m == 1 && d == 1) || (m == 5 && d == 1) || (m == 12 && (d == 25 || d == 26))) return 1
    march = m == 3 ? d : m == 4 ? d + 31 : 0
    return march > 0 && (march == easter(year) - 2 || march == easter(year) + 1)
}
function amount(cents) { return sprintf("%d.%02d", int(cents / 100), cents % 100) }
BEGIN {
    split("31 28 31 30 31 30 31 31 30 31 30 31", days, " ")
    if (year % 4 == 0 && (year % 100 != 0 || year % 400 == 0)) days[2] = 29
    north = 100000000
    south = 0
    for (m = 1; m <= 12; m++)
        for (d = 1; d <= days[m]; d++) {
            if (closed(m, d)) continue
            n++
            printf "DAY;%d-%02d-%02d\nAS;CLEAR;D\n", year, m, d
            printf "ACC;NORTH1;DCA;NORTH;;%s\nACC;SOUTH1;DCA;SOUTH;;%s\nACC;CLEARD;TEC;CLEAR;D;0.00\n", amount(north), amount(south)
            printf "PAY;NORTH;N1;N;NORTH1;SOUTH1;%s\n", amount(100 * n)
            printf "PAY;SOUTH;S1;N;SOUTH1;NORTH1;%s\n", amount(50 * n)
            printf "LIQ;NORTH;L1;NORTH1;CLEARD;2.00\nBAT;CLEAR;B1;D;;;1;1.50\nENT;CLEARD;SOUTH1;1.50\nEND\n"
            north -= 50 * n + 200
            south += 50 * n + 150
        }
}'
