# shellcheck shell=bash
# What the parts of the tests have in common. A part is an executable tests/PART/run, which begins with
#     . "$(dirname -- "${BASH_SOURCE[0]}")/../kit.sh"
# tries its things from the top of the tree, and ends with 'finish'. It can be run by itself, or by tests/run.
#
# GAURVISK=unproved: the programs are those that './build --unproved' makes, without a proof. Else they are the two builds that the
# gate proved, of which one is by Rattle's own compiler. GAURVISK_PROGRAMS: names of the only programs to be tried.
cd -- "$(dirname -- "${BASH_SOURCE[0]}")/.." || exit 2
part=$(basename -- "$(dirname -- "$(readlink -f -- "$0")")")
readonly part
room=$(mktemp -d) || exit 2
trap 'rm -rf -- "$room"' EXIT
passed=0 failed=0
# How much is tried side by side.
lanes=$(nproc)
[ "$lanes" -le 4 ] || lanes=4

pass() {
    passed=$((passed + 1))
    echo "$part: $1: ok"
}

fail() {
    failed=$((failed + 1))
    echo "$part: $1: FAILED: $2"
}

# Of a name: that all went right where nothing is told, and else what went wrong.
judge() {
    if [ -z "$2" ]; then pass "$1"; else fail "$1" "$2"; fi
}

# A run of the words from the fourth on, whose input was opened by the caller: its status, and what it has to write.
expect() {
    local name=$1 status=$2 text=$3 ended line
    shift 3
    timeout 120 "$@" > "$room/output" 2> "$room/messages"
    ended=$?
    if [ "$ended" -ne "$status" ]; then
        fail "$name" "status $ended, and not $status: $(tail -n 1 "$room/messages")"
    elif ! cmp -- "$text" "$room/output" > "$room/differs" 2>&1; then
        line=$(sed -n 's/.* line \([0-9]*\).*/\1/p' "$room/differs")
        fail "$name" "$(cat "$room/differs"): '$(sed -n "${line:-1}p" "$room/output" | cut -b 1-200)' where '$(sed -n "${line:-1}p" "$text" | cut -b 1-200)' has to be"
    else
        pass "$name"
    fi
}

# What all that was tried took of processors; and the last line: how much passed and failed. The status is 1 where anything failed.
finish() {
    times > "$room/times"
    awk -F'[ms ]' 'END { printf "%d seconds of processor\n", 60 * ($1 + $4) + $2 + $5 + 0.5 }' "$room/times"
    echo "$passed passed, $failed failed"
    [ "$failed" -eq 0 ]
    exit
}

# ---- programs and their builds

# The names of the programs that are to be tried, in the order of programs.txt.
programs() {
    local program
    # A line is a name and its crate.
    # shellcheck disable=SC2013
    for program in $(sed -n '/^#/!s/ .*//p' programs.txt); do
        case " ${GAURVISK_PROGRAMS-$program} " in *" $program "*) echo "$program" ;; esac
    done
}

crate_of() {
    awk -v program="$1" '$1 == program { print $2 }' programs.txt
}

program_of() {
    awk -v crate="$1" '$2 == crate { print $1 }' programs.txt
}

# The builds: by the LLVM compiler and by Rattle's own, or without a proof.
kinds() {
    if [ "${GAURVISK-}" = unproved ]; then echo unproved; else echo llvm rattle; fi
}

# The path of a crate's program of such a build, made first where nothing is proved.
built() {
    case $2 in
    llvm) echo "crates/$1/out/$1" ;;
    rattle) echo "crates/$1/out/$1.by-rattle" ;;
    unproved)
        # One that can't be made has no path, though an older one may stand there.
        if [ -e "$room/made.$1" ] || ./build --unproved "$(program_of "$1")" < /dev/null; then
            : > "$room/made.$1"
            echo "crates/$1/out/unproved"
        else
            echo "crates/$1/out/not_made"
        fi
        ;;
    esac
}

# The paths of a crate's builds to try; none where its program isn't to be tried.
builds() {
    local kind
    programs | grep -qx "$(program_of "$1")" || return 0
    for kind in $(kinds); do built "$1" "$kind"; done
}

# The first of them, whose turn it is always.
one_build() {
    built "$1" "$(kinds | cut -d ' ' -f 1)"
}

# Calls each check, a function, with each build of a crate.
on_builds() {
    local crate=$1 path check
    shift
    for path in $(builds "$crate"); do
        if [ ! -x "$path" ]; then
            fail "$path" 'there is no such program'
            continue
        fi
        for check in "$@"; do "$check" "$path"; done
    done
}

# The programs to be tried of a build, as words NAME=PATH.
named_builds() {
    local program
    for program in $(programs); do echo "$program=$(built "$(crate_of "$program")" "$1")"; done
}

# The number of the turn, by which the build goes on which long checks are tried, and the days that these begin at.
turn() {
    local number=
    [ ! -f turn.txt ] || number=$(sed -n '1s/^turn \([0-9]\{1,\}\)$/\1/p' turn.txt)
    echo "${number:-0}"
}

kind_of_turn() {
    local -a all
    read -r -a all <<< "$(kinds)"
    echo "${all[$(turn) % ${#all[@]}]}"
}

# Whether the gate's own builds are at hand; else a line says what isn't tried.
is_proved() {
    [ "${GAURVISK-}" != unproved ] && return
    echo "$part: $1: passed over, as nothing is proved here"
    return 1
}
