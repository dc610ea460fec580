# shellcheck shell=bash
# Days, journals and changes of them that several parts of the tests try. To be read behind kit.sh, which makes the room.
# shellcheck disable=SC2154

# The examples that are no refused days.
settled_examples() {
    local day
    for day in examples/*.day; do [ -f "${day%.day}.status" ] || echo "$day"; done
}

# The day of an example, and its journal.
viewed() {
    { cat "examples/$1.day"; grep '^[JM];' "examples/$1.out"; } > "$room/viewed"
}

# The cases of a file of worked cases: of the n-th the input as n.in and what has to be written as n.text, in a folder; and a line with
# the status, what is read before the input, what is left out of what was written, the line at which it begins, and the words.
cut_into_cases() {
    awk -v room="$2/" '
        function begin(line, before) { count++; given = before; words = line; gsub(/^ +| +$/, "", words); input = text = ""; part = 1; at = NR; file = room count }
        function finish() { printf "%s", input > (file ".in"); close(file ".in"); printf "%s", text > (file ".text"); close(file ".text"); print status, given, left_out, at, words; part = 0 }
        part == 0 && /^>>/ { begin(substr($0, 3), "output"); next }
        part == 0 && /^>J/ { begin(substr($0, 3), "journal"); next }
        part == 0 && /^>/ { begin(substr($0, 2), "nothing"); next }
        part == 1 && /^<<? / {
            if (/^<</) sub(/\n$/, "", input)
            sub(/^<<? /, ""); status = $1; left_out = $2 == "journal" ? "S" : "none"; part = 2; next
        }
        part == 1 { input = input $0 "\n" }
        part == 2 && $0 == "" { finish(); next }
        part == 2 { text = text $0 "\n" }
        END { if (part == 2) finish() }' "$1"
}

# The days of the worked cases that are settled, each in a file of its own, with the end of its last line.
days_of_cases() {
    local file at status given words
    mkdir -p "$room/days" "$room/cut"
    for file in crates/worked_cases/data/*.txt; do
        at=0
        while read -r status given _ _ words; do
            at=$((at + 1))
            case $status:$given:$words in 0:nothing:settle*) awk 1 "$room/cut/$at.in" > "$room/days/$(basename "$file" .txt).$at.day" ;; esac
        done < <(cut_into_cases "$file" "$room/cut")
    done
}

# A day of payments of a cent, all from one account: its opening, the priority of the payments, and how many there are, or 20,000.
# It is of the first version that may have so many.
one_payer() {
    [ "${3-20000}" -le 100000 ] || echo 'VER;3'
    printf 'DAY;2025-06-02\nACC;X1;DCA;BANKA;;%s\nACC;Y1;DCA;BANKB;;0.00\n' "$1"
    seq -f "PAY;BANKA;P%.0f;$2;X1;Y1;0.01" "${3-20000}"
    echo END
}

# A batch of E with so many entries of a cent, over an opening.
one_batch() {
    printf 'DAY;2025-06-02\nAS;CH1;E\nACC;X1;DCA;BANKA;;%s\nACC;Y1;DCA;BANKB;;0.00\nBAT;CH1;B1;E;;;10000;100.00\n' "$2"
    yes 'ENT;X1;Y1;0.01' 2> /dev/null | head -n "$1"
    echo END
}

# A stop in each second of a day.
stops() {
    awk 'BEGIN {
        print "DAY;2025-06-02"
        for (t = 1; t < 86400; t++) printf "TIM;%02d:%02d:%02d\n", t / 3600, t / 60 % 60, t % 60
        print "END"
    }'
}

# A day of so many systems, accounts, payments, and batches with so many entries each, of a version.
large_day() {
    awk -v systems="$1" -v accounts="$2" -v payments="$3" -v batches="$4" -v entries="$5" -v version="$6" 'BEGIN {
        if (version > 1) print "VER;" version
        print "DAY;2025-06-02"
        for (i = 1; i <= systems; i++) print "AS;SYSTEM" i ";E"
        for (i = 1; i <= accounts; i++) print "ACC;A" i ";DCA;BANK" i ";;0.01"
        for (i = 1; i <= payments; i++) print "PAY;BANK1;P" i ";N;A1;A2;1.00"
        for (i = 1; i <= batches; i++) {
            print "BAT;SYSTEM1;B" i (version > 1 ? ";E;1;1.00" : ";E;;;1;1.00")
            for (k = 1; k <= entries; k++) print "ENT;A1;A2;1.00"
        }
        print "END"
    }'
}

# A long day and its journal: 20,000 payments that are booked one after the other.
long_journal() {
    one_payer 200.00 N
    awk 'BEGIN {
        for (i = 1; i <= 20000; i++) print "J;" i ";IN;" i ";0;OK;0"
        for (i = 1; i <= 20000; i++) print "J;" 20000 + i ";BOOK;" i ";0;OK;1\nM;1;2;0.01"
        print "J;40001;TIME;0;86400;OK;0\nJ;40002;END;0;0;OK;0"
    }'
}

# A journal with a change at one line and its moves: the line is dropped, doubled, exchanged with the next, or given the number
# of the next, or a cent of its first move is changed.
spoil() {
    awk -v change="$1" -v at="$2" '
        /^J;/ { count++ }
        { item[count] = item[count] $0 "\n" }
        END {
            text = item[at]
            if (change == "dropped") item[at] = ""
            if (change == "doubled") item[at] = text text
            if (change == "exchanged") { item[at] = item[at + 1]; item[at + 1] = text }
            if (change == "misnumbered") sub(/^J;[0-9]*/, "J;" (at + 1), item[at])
            if (change == "misbooked") {
                digit = match(text, /\nM;[0-9]*;[0-9]*;[0-9]*[.][0-9][0-9]\n/) + RLENGTH - 2
                item[at] = substr(text, 1, digit - 1) (substr(text, digit, 1) + 1) % 10 substr(text, digit + 1)
            }
            for (i = 1; i <= count; i++) printf "%s", item[i]
        }'
}

# The changes of an example's journal after which a command doesn't say that it goes wrong at the line itself, or, where that is
# doubled, behind it. To be given: the day, whether its journal may lack its last line, and the command.
untold() {
    local day=$1 may_lack=$2 lines moved change at place
    shift 2
    grep '^[JM];' "${day%.day}.out" > "$room/journal"
    lines=$(grep -c '^J;' "$room/journal")
    moved=$(awk '/^J;/ { line++ } /^M;/ { print line }' "$room/journal" | sort -nu)
    for change in dropped doubled exchanged misnumbered misbooked; do
        for at in $(seq "$lines"); do
            place=$at
            case $change in
            dropped) [ "$may_lack" = no ] || [ "$at" -lt "$lines" ] || continue ;;
            doubled) place=$((at + 1)) ;;
            exchanged) [ "$at" -lt "$lines" ] || continue ;;
            misbooked) grep -qx "$at" <<< "$moved" || continue ;;
            esac
            spoil "$change" "$at" < "$room/journal" | cat "$day" - > "$room/spoilt"
            "$@" < "$room/spoilt" > "$room/output" 2> "$room/messages"
            [ $? -eq 6 ] && [ "$(cat "$room/output")" = "ILLEGAL;$place" ] || echo "$change:$at"
        done
    done
}
