#!/bin/sh
# A day on a disk, cut at each call of the disk: sh examples/crashes.sh ./durable_day examples/two_payments.day
#
# For K = 0, 1 and so on the program runs the day on a disk of which K calls pass, until the day comes to its end. From what each
# cut left the day goes on with no cut, and the journal is shown. Of each K there is a line: K, the status, how many lines
# were on the disk, and whether the journal is in the end the one of a run that was not cut.
program=$1
day=$2
room=$(mktemp -d) || exit 1
trap 'rm -rf -- "$room"' EXIT

# The journal in a store, where the input is the day and the store.
show() {
    cat -- "$day" "$1" | "$program" show
}

"$program" run 9999999 < "$day" > "$room/uncut" && show "$room/uncut" > "$room/journal" || exit 1
calls=0
while :; do
    "$program" run "$calls" < "$day" > "$room/left"
    status=$?
    lines=$(show "$room/left" | sed -n 's/^OK;//p')
    cat -- "$day" "$room/left" | "$program" run 9999999 > "$room/whole" && show "$room/whole" > "$room/again"
    if cmp -s -- "$room/journal" "$room/again"; then same='the same journal'; else same='ANOTHER JOURNAL'; fi
    echo "K $calls: status $status, $lines lines, $same"
    [ "$status" -eq 8 ] || break
    calls=$((calls + 1))
done
[ "$status" -eq 0 ]
