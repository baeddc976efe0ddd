#!/usr/bin/env bash
# What `check` costs on decks of 1, 4 and 16 MiB: the microseconds of processor time for each KiB (the shortest of three
# runs) and by how much that grows from 1 MiB, which may be 1.5; the most memory that it holds, as a multiple of the input,
# which may be 40; and how many times as long `cobc -fsyntax-only` takes on a program of as many statements, where it is
# installed: the goal is 10. A deck has one requester, whose statements are MOVEs, ADDs and IFs in paragraphs of 100. It is
# no part of the gate. It takes the program that `./pathway` runs, or the one that is named.
set -eu
here=$(cd "$(dirname "$0")" && pwd)
program=${1:-$here/../pathway}
work=$(mktemp -d)
trap 'rm -rf "$work"' EXIT

# The statements of so many bytes of a procedure.
statements() {
    awk -v bytes="$1" 'BEGIN {
        while (size < bytes) {
            if (n % 100 == 0) text = "P" n / 100 ".\n"; else text = ""
            text = text "    MOVE A-" n % 10 " TO B-" (n + 3) % 10 ".\n    ADD 1 TO N-" n % 7 ".\n"
            text = text "    IF A-" n % 10 " = B-" n % 9 " MOVE N-" n % 7 " TO N-" (n + 1) % 7 " ELSE ADD 2 TO N-" n % 5 ".\n"
            printf "%s", text
            size += length(text)
            n++
        }
    }'
}

# The items that they name, each line behind the first word or words of its kind.
items() {
    echo "01 ALL-ITEMS."
    for n in 0 1 2 3 4 5 6 7 8 9; do
        echo "    02 A-$n PIC X(20)."
        echo "    02 B-$n PIC X(20)."
        echo "    02 N-$n PIC 9(9)."
    done
}

deck() {
    echo "?SCREEN-COBOL BIG"
    echo "IDENTIFICATION DIVISION."
    echo "PROGRAM-ID. BIG."
    echo "DATA DIVISION."
    echo "WORKING-STORAGE SECTION."
    items
    echo "PROCEDURE DIVISION."
    statements "$1"
    echo "    STOP RUN."
    echo "?END"
}

cobol() {
    echo "IDENTIFICATION DIVISION."
    echo "PROGRAM-ID. BIG."
    echo "DATA DIVISION."
    echo "WORKING-STORAGE SECTION."
    items
    echo "PROCEDURE DIVISION."
    statements "$1"
    echo "    STOP RUN."
}

# The milliseconds of processor time, and the KiB of memory at most, of a command over an input; the shortest of three runs.
spent() {
    local input=$1
    shift
    for _ in 1 2 3; do
        /usr/bin/time -f '%U %S %M' -o "$work/time" "$@" < "$input" > "$work/out" 2> "$work/err" || { cat "$work/out" "$work/err" >&2; exit 1; }
        cat "$work/time"
    done | awk '{ ms = ($1 + $2) * 1000 } NR == 1 || ms < best { best = ms } $3 > most { most = $3 } END { print best, most }'
}

"$program" check < /dev/null > /dev/null || [ $? -eq 2 ]
echo "MiB ms us-for-each-KiB growth memory-by-input cobc-ms cobc-by-check"
for mib in 1 4 16; do
    deck $((mib * 1048576 - 2000)) > "$work/deck"
    read -r ms kib < <(spent "$work/deck" "$program" check)
    grep -qx "DECK OK" "$work/out" || { cat "$work/out" >&2; exit 1; }
    theirs=-
    if command -v cobc > /dev/null; then
        cobol $((mib * 1048576 - 2000)) > "$work/big.cob"
        read -r theirs _ < <(spent /dev/null cobc -fsyntax-only -free "$work/big.cob")
    fi
    echo "$mib $ms $kib $theirs"
done | awk '
    { cost = $2 * 1000 / ($1 * 1024) }
    NR == 1 { first = cost }
    { printf "%d %d %.2f %.2f %.1f %s %s\n", $1, $2, cost, cost / first, $3 / ($1 * 1024), $4, $4 == "-" ? "-" : sprintf("%.1f", $4 / $2) }'
