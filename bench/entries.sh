#!/usr/bin/env bash
# What an entry of the log costs, by the processor time of a run with one worker and of the replay of its log (`verify`), the
# report of both included. It prints microseconds an entry where the log has 1,000, 30,000 and 500,000 entries, for 1, 8 and
# 64 terminals, and the KiB of memory at most. Each terminal shows its screen, and then sends to a class of 16 servers in a
# transaction of its own, over and over; there are at most 16 terminals to a pair, which has a backup. The cost is that of the
# second half of the entries: what a log has over one of half its length, each the shortest of some turns. Then by how much an
# entry costs more in a log of 500,000 entries than in one of 1,000, which may be 1.3. Last, the same of one terminal that
# shows a full screen at every entry: its KiB for 500,000 entries may be 1,500,000. It is no part of the gate. It takes the
# program that `./pathway` runs, or the one that is named.
set -eu
here=$(cd "$(dirname "$0")" && pwd)
program=$(realpath "${1:-$here/../pathway}")
work=$(mktemp -d)
trap 'rm -rf "$work"' EXIT

# The commands of so many terminals, 16 to a pair, whose program has this name.
commands() {
    awk -v terminals="$1" -v name="$2" 'BEGIN {
        for (n = 0; n < terminals; n++) {
            if (n % 16 == 0) print "ADD TCP TCP-" n / 16 + 1 "\nSTART TCP TCP-" n / 16 + 1
        }
        for (n = 0; n < terminals; n++) {
            print "SET TERM TCP TCP-" int(n / 16) + 1 "\nSET TERM INITIAL " name "\nADD TERM T" n + 1 "\nSTART TERM T" n + 1
        }
    }'
}

# A deck of so many terminals that show and send, without its end.
sends() {
    echo "?PATHCOM"
    printf 'SET SERVER PROGRAM SERVE-P\nSET SERVER MAXSERVERS 16\nADD SERVER SERVES\n'
    commands "$1" SENDS
    cat << 'END'
?SCREEN-COBOL SENDS
IDENTIFICATION DIVISION.
PROGRAM-ID. SENDS.
DATA DIVISION.
WORKING-STORAGE SECTION.
01 K PIC 9 VALUE 0.
01 MSG PIC X(4) VALUE "HITS".
01 ANSWER.
  02 A-CODE PIC 9(4).
  02 A-TEXT PIC X(4).
PROCEDURE DIVISION.
MAIN.
  PERFORM ROUND-1 UNTIL K = 1.
  STOP RUN.
ROUND-1.
  DISPLAY MSG.
  BEGIN-TRANSACTION.
  SEND MSG TO SERVES REPLY CODE 0 YIELDS ANSWER.
  END-TRANSACTION.
?SERVER SERVE-P
IDENTIFICATION DIVISION.
PROGRAM-ID. SERVE-P.
DATA DIVISION.
WORKING-STORAGE SECTION.
01 MSG PIC X(4).
01 ANSWER.
  02 A-CODE PIC 9(4) VALUE 0.
  02 A-TEXT PIC X(4).
PROCEDURE DIVISION.
MAIN.
  READ $RECEIVE INTO MSG.
  MOVE MSG TO A-TEXT.
  WRITE $RECEIVE FROM ANSWER.
END
}

# A deck of one terminal that shows its screen, whose 23 rows are full, at every entry, without its end.
shows() {
    echo "?PATHCOM"
    commands 1 SHOWS
    cat << 'END'
?SCREEN-COBOL SHOWS
IDENTIFICATION DIVISION.
PROGRAM-ID. SHOWS.
DATA DIVISION.
WORKING-STORAGE SECTION.
01 K PIC 9 VALUE 0.
01 ROW-TEXT PIC X(80) VALUE "ROWS".
SCREEN SECTION.
01 ROWS.
END
    for row in $(seq 23); do
        echo "  02 R-$row AT $row, 1 PIC X(80) FROM ROW-TEXT."
    done
    cat << 'END'
PROCEDURE DIVISION.
MAIN.
  PERFORM ROUND-1 UNTIL K = 1.
  STOP RUN.
ROUND-1.
  DISPLAY ROWS.
END
}

# The deck of the work with the log of the last run.
with_log() {
    cat "$work/front"
    echo "?LOG"
    tac "$work/report" | sed '1d; /^LOG$/,$d' | tac
    echo "?END"
}

# The milliseconds of processor time of so many turns of a command on an input, the shortest of three, and its report.
spent() {
    local turns=$1 input=$2 best=0 one two turn TIMEFORMAT='%3U %3S'
    shift 2
    for turn in 1 2 3; do
        read -r one two < <({ time for _ in $(seq "$turns"); do "$program" "$@" < "$input" > "$work/report" || true; done; } 2>&1)
        one=$((10#${one//./} + 10#${two//./}))
        if [ "$turn" -eq 1 ] || [ "$one" -lt "$best" ]; then best=$one; fi
    done
    echo "$best"
}

# The milliseconds of so many runs to so many entries, and of their replays.
both() {
    local turns=$1 entries=$2 ran
    ran=$(spent "$turns" "$work/deck" run --workers 1 --events "$entries")
    [ "$(tail -n 1 "$work/report")" = UNFINISHED ] || { head -n 1 "$work/report" >&2; echo "bench: a run ended" >&2; exit 1; }
    with_log > "$work/logged"
    cp "$work/report" "$work/wanted"
    echo "$ran $(spent "$turns" "$work/logged" verify)"
    cmp "$work/report" "$work/wanted" >&2
}

# The KiB that a command holds at most.
held() {
    local input=$1
    shift
    /usr/bin/time -f '%M' -o "$work/kib" "$program" "$@" < "$input" > "$work/report" || true
    tail -n 1 "$work/kib"
}

# The line of a log of so many entries, behind a first word, for the deck of the work.
line() {
    local turns=1
    if [ "$2" -lt 10000 ]; then turns=20; elif [ "$2" -lt 100000 ]; then turns=4; fi
    { cat "$work/front"; echo "?END"; } > "$work/deck"
    echo "$1 $2 $turns $(both "$turns" $(($2 / 2))) $(both "$turns" "$2")" \
        "$(held "$work/deck" run --workers 1 --events "$2") $(held "$work/logged" verify)" | awk '{
            half = $2 / 2 * $3 / 1000
            printf "%s %d %.2f %.2f %d %d\n", $1, $2, ($6 - $4) / half, ($7 - $5) / half, $8, $9
        }' | tee -a "$work/lines"
}

echo "terminals entries us-an-entry-run us-replayed KiB-run KiB-replayed"
for terminals in 1 8 64; do
    sends "$terminals" > "$work/front"
    for entries in 1000 30000 500000; do line "$terminals" "$entries"; done
done
shows > "$work/front"
line shows 500000
awk '$2 == 1000 { run = $3; replay = $4 } $1 != "shows" && $2 == 500000 {
    printf "growth with %d terminals: run %.2f, replay %.2f\n", $1, $3 / run, $4 / replay
}' "$work/lines"
