#!/usr/bin/env bash
# What `run` and `verify` cost at a log of 500,000 entries whose screens show one row: seconds of processor time, seconds by
# the clock, and the most memory that is held. The goal of `verify` is less than 5 seconds and 1.5 GB on four processors. It
# is no part of the gate. It takes the program that `./pathway` runs, or the one that is named.
set -eu
here=$(cd "$(dirname "$0")" && pwd)
program=${1:-$here/../pathway}
work=$(mktemp -d)
trap 'rm -rf "$work"' EXIT

deck() {
    echo "?PATHCOM"
    echo "ADD TCP TCP-1"
    echo "START TCP TCP-1"
    echo "SET TERM TCP TCP-1"
    echo "SET TERM INITIAL SHOWS"
    echo "ADD TERM T1"
    echo "START TERM T1"
    echo "?SCREEN-COBOL SHOWS"
    echo "IDENTIFICATION DIVISION."
    echo "PROGRAM-ID. SHOWS."
    echo "DATA DIVISION."
    echo "WORKING-STORAGE SECTION."
    echo "01 N PIC 9(7)."
    echo "PROCEDURE DIVISION."
    echo "MAIN."
    echo "  PERFORM SHOW-ONE UNTIL N = 9999999."
    echo "  STOP RUN."
    echo "SHOW-ONE."
    echo "  ADD 1 TO N."
    echo "  DISPLAY \"ONE ROW\"."
}

# The time and the memory of one command.
timed() {
    local command=$1 input=$2 output=$3
    shift 3
    /usr/bin/time -f "$command: %U s of processor time, %e s by the clock, %M KB" -o "$work/time" \
        "$program" "$command" "$@" < "$input" > "$output" || true
    tail -n 1 "$work/time"
}

{ deck; echo "?END"; } > "$work/run.deck"
timed run "$work/run.deck" "$work/run.out" --events 500000
{ deck; echo "?LOG"; sed -n '/^PATHWAY LOG 2/,$p' "$work/run.out" | grep -v FINISHED; echo "?END"; } > "$work/verify.deck"
timed verify "$work/verify.deck" "$work/verify.out"
cmp "$work/run.out" "$work/verify.out"
