#!/bin/sh
# Figures of a settled day: sh examples/figures.sh DAY OUTPUT, a day file and what 'rtgs settle' wrote for it.
#
# N;settled;value;unsettled;value      payments and batches: how many were settled, and how many ended otherwise; the amounts of both,
#                                      of batches of C, D and E entry by entry, add up to all that was ordered
# T;moves;value                        the turnover: all that was moved, but for what was given back or handed over at midnight
# H;hour;moves;value;back;value        the same by the hour of the clock, and what was given back or handed over
# W;settled;mean;longest;weighted      how long the settled ones waited from being taken, in seconds; weighted is by amount
# Q;message;sender;id;seconds;amount   each settled one that waited
# B;bank;opening;out;into;closing;least;used
#                                      its dedicated cash accounts together: least is the least after any line, used the opening less that
# F;message;entry;sender;id;CODE;REASON;amount
#                                      what was rejected, revoked or failed, and why; entry 0 is the message as a whole
#
# Means are rounded down. Amounts are those of entries, without the ones that were booked, revoked or rejected one by one where the
# rest failed; of what moves nothing they are 0.00. A day with quotes has to be one that 'rtgs migrate' wrote. Sums are exact below
# 90071992547409.92; from there on the script ends with 1. Of weighted the last second may be rounded where amounts are that
# large. Needs awk alone.
[ $# -eq 2 ] || { echo 'usage: sh examples/figures.sh DAY OUTPUT' >&2; exit 2; }
exec awk -F';' '
    function cents(amount,  parts) { split(amount, parts, "."); return parts[1] * 100 + parts[2] }
    function text(n,  sign) {
        if (n >= 9007199254740992) { print "figures.sh: a sum is too large" > "/dev/stderr"; bad = 1; exit 1 }
        sign = n < 0 ? "-" : ""; if (n < 0) n = -n
        return sign sprintf("%.0f.%02d", int(n / 100), n % 100)
    }
    # What a line has moved counts once all its moves are read.
    function line_ends(  b) { for (b = 1; b <= banks; b++) if (held[b] < least[b]) least[b] = held[b] }
    { sub(/\r$/, "") }
    NR == FNR {
        if ($1 == "ACC") {
            account++
            if ($3 == "DCA") {
                if (!($4 in bank)) { bank[$4] = ++banks; name[banks] = $4 }
                owner[account] = bank[$4]; held[bank[$4]] += cents($6)
            }
        }
        if ($1 ~ /^(BAT|PAY|LIQ|OBJ|CNF|CYC)$/) { message++; entry = 0; sender[message] = $2; id[message] = $3; counts[message] = $1 ~ /^(BAT|PAY)$/; singly[message] = $1 == "BAT" && $4 ~ /^[CE]$/ }
        if ($1 == "PAY") amount[message] = cents($7)
        if ($1 == "LIQ") amount[message] = cents($6)
        if ($1 == "ENT") { amount[message] += cents($4); of_entry[message, ++entry] = cents($4) }
        next
    }
    FNR == 1 { for (b = 1; b <= banks; b++) opening[b] = least[b] = held[b] }
    $1 == "J" {
        line_ends(); kind = $3
        if (kind == "TIME") clock = $5
        time[$2] = clock
        if (kind == "IN") taken[$4] = clock
        if (kind == "BOOK" && singly[$4]) booked[$4] += of_entry[$4, $5]
    }
    $1 == "M" {
        hour = int(clock / 3600); seen[hour] = 1
        if (kind ~ /^(EXPIRE|REFUSE|SWEEP)$/) { back[hour]++; back_value[hour] += cents($4) }
        else { moves[hour]++; value[hour] += cents($4); all_moves++; turnover += cents($4) }
        if ($2 in owner) { out[owner[$2]] += cents($4); held[owner[$2]] -= cents($4) }
        if ($3 in owner) { into[owner[$3]] += cents($4); held[owner[$3]] += cents($4) }
    }
    # Entries that end by themselves are told before their batch.
    $1 == "S" && $4 == "SETL" {
        waits = time[$2] - taken[$5]; cleared = amount[$5] - gone[$5]
        settled++; settled_value += cleared; weight += cleared; all += waits; weighed += waits * cleared
        if (waits > longest) longest = waits
        if (waits > 0) queue = queue sprintf("Q;%d;%s;%s;%d;%s\n", $5, sender[$5], id[$5], waits, text(cleared))
    }
    $1 == "S" && $4 ~ /^(RJCT|DUPL|RVKD|FAIL)$/ {
        if ($8 > 0) { lost = of_entry[$5, $8]; gone[$5] += lost }
        else { lost = amount[$5] - gone[$5] - booked[$5]; settled_value += booked[$5]; if (counts[$5]) unsettled++ }
        if (counts[$5]) unsettled_value += lost
        failed = failed sprintf("F;%d;%d;%s;%s;%s;%s;%s\n", $5, $8, sender[$5], id[$5], $4, $9, text(lost))
    }
    END {
        if (bad) exit 1
        line_ends()
        print "N;" settled + 0 ";" text(settled_value) ";" unsettled + 0 ";" text(unsettled_value)
        print "T;" all_moves + 0 ";" text(turnover)
        for (hour = 0; hour <= 24; hour++) if (hour in seen) printf "H;%02d;%d;%s;%d;%s\n", hour, moves[hour], text(value[hour]), back[hour], text(back_value[hour])
        printf "W;%d;%d;%d;%d\n", settled, settled ? all / settled : 0, longest, weight ? weighed / weight : 0
        printf "%s", queue
        for (b = 1; b <= banks; b++) print "B;" name[b] ";" text(opening[b]) ";" text(out[b]) ";" text(into[b]) ";" text(held[b]) ";" text(least[b]) ";" text(opening[b] - least[b])
        printf "%s", failed
    }' "$1" "$2"
