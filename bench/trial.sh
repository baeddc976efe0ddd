#!/usr/bin/env bash
# How many units a second the program commits with 1, 2 and 4 workers, by the clock of the shortest of three runs: in the
# generated deck of 64 terminals (`trial`), in decks of 64 terminals that add one to a record in each unit (`increments`), and in
# such whose programs compute between their verbs; and by how much it is more with 2 and 4 workers than with 1. Beside it stand,
# where they are installed, PostgreSQL with 64 clients of which each makes the same changes, each in a transaction, plain and
# serializable (pgbench with 1, 2 and 4 threads, over a server of its own that writes without fsync, in a temporary folder), and
# SQLite in memory, by one connection, each change in a transaction. It is no part of the gate. It takes the program that
# `./pathway` runs, or the one that is named.
set -eu
here=$(cd "$(dirname "$0")" && pwd)
program=${1:-$here/../pathway}
work=$(mktemp -d)
. "$here/postgres.sh"
trap finish EXIT

terminals=64
# The units of each terminal, as many as take some tenths of a second: by the turns of its loops.
units_for() {
    if [ "$1" -ge 10000 ]; then echo 8; elif [ "$1" -ge 1000 ]; then echo 50; else echo 400; fi
}

# A deck whose terminals count to a number in a loop, and then add one to a record, over and over: to ten records that
# all share, or each to its own.
computing() {
    local turns=$1 shared=$2 units=$3
    echo "?PATHCOM"
    printf 'SET SERVER PROGRAM COUNT-P\nSET SERVER MAXSERVERS 4\nADD SERVER COUNTER\n'
    printf 'ADD TCP TCP-1\nSTART TCP TCP-1\nADD TCP TCP-2\nSTART TCP TCP-2\n'
    printf 'SET TERM INITIAL CLICKS\nSET TERM MAXTMFRESTARTS 64\n'
    for t in $(seq "$terminals"); do
        printf 'SET TERM TCP TCP-%d\nADD TERM T%d\nSTART TERM T%d\n' $((2 - t % 2)) "$t" "$t"
    done
    cat << END
?SCREEN-COBOL CLICKS
IDENTIFICATION DIVISION.
PROGRAM-ID. CLICKS.
DATA DIVISION.
WORKING-STORAGE SECTION.
01 N PIC 9(9).
01 MSG.
  02 M-KEY PIC X(4).
01 ANSWER.
  02 A-CODE PIC 9(4).
  02 A-COUNT PIC 9(5).
SCREEN SECTION.
01 ASK.
  02 F-KEY AT 2, 1 PIC X(4) USING M-KEY.
PROCEDURE DIVISION.
MAIN.
  PERFORM CLICK $units TIMES.
  STOP RUN.
CLICK.
  ACCEPT ASK UNTIL F1.
  PERFORM COUNT-ONE $turns TIMES.
  BEGIN-TRANSACTION.
  SEND MSG TO COUNTER REPLY CODE 0 YIELDS ANSWER.
  END-TRANSACTION.
COUNT-ONE.
  ADD 1 TO N.
?SERVER COUNT-P
IDENTIFICATION DIVISION.
PROGRAM-ID. COUNT-P.
DATA DIVISION.
WORKING-STORAGE SECTION.
01 N PIC 9(9).
01 MSG.
  02 M-KEY PIC X(4).
01 COUNT-REC.
  02 C-KEY PIC X(4).
  02 C-COUNT PIC 9(5).
01 ANSWER.
  02 A-CODE PIC 9(4).
  02 A-COUNT PIC 9(5).
PROCEDURE DIVISION.
MAIN.
  READ \$RECEIVE INTO MSG.
  PERFORM COUNT-ONE $turns TIMES.
  READ COUNTS WITH LOCK KEY M-KEY INTO COUNT-REC.
  ADD 1 TO C-COUNT.
  REWRITE COUNTS FROM COUNT-REC.
  MOVE C-COUNT TO A-COUNT.
  WRITE \$RECEIVE FROM ANSWER.
COUNT-ONE.
  ADD 1 TO N.
?FILE COUNTS KEY 4
END
    local keys=$terminals
    if [ "$shared" = yes ]; then keys=10; fi
    for k in $(seq 0 $((keys - 1))); do printf 'K%03d00000\n' "$k"; done
    for t in $(seq "$terminals"); do
        echo "?ENTRIES T$t"
        for u in $(seq "$units"); do
            if [ "$shared" = yes ]; then printf 'F1 F-KEY=K%03d\n' $(((t * 7 + u * 3) % keys)); else printf 'F1 F-KEY=K%03d\n' $((t - 1)); fi
        done
    done
    echo "?END"
}

# The milliseconds by the clock of a run, the shortest of three; the status has to be 0.
spent() {
    local workers=$1 best=0 one turn TIMEFORMAT='%3R'
    shift
    for turn in 1 2 3; do
        one=$({ time "$program" "$@" --workers "$workers" < "$work/deck" > "$work/out" 2> "$work/err"; } 2>&1) \
            || { head "$work/out" "$work/err" >&2; echo "bench: a run failed" >&2; exit 1; }
        one=$((10#${one//./}))
        if [ "$turn" -eq 1 ] || [ "$one" -lt "$best" ]; then best=$one; fi
    done
    echo "$best"
}

# The line of one kind of run: the units a second by workers, and by how much they are more than with one.
line() {
    local name=$1 units=$2 workers
    shift 2
    for workers in 1 2 4; do spent "$workers" "$@"; done | awk -v name="$name" -v units="$units" '
        { rate[NR] = units * 1000 / ($1 > 0 ? $1 : 1) }
        END { printf "%s %.0f %.0f %.0f %.2f %.2f\n", name, rate[1], rate[2], rate[3], rate[2] / rate[1], rate[3] / rate[1] }'
}

# The transactions a second of 64 clients that add one to a record of so many, by 1, 2 and 4 threads: so isolated, each tried
# again until it commits.
peer() {
    local name=$1 keys=$2 isolation=$3 threads
    query "DROP TABLE IF EXISTS stock; CREATE TABLE stock (key int PRIMARY KEY, n int); INSERT INTO stock SELECT k, 0 FROM generate_series(0, $keys - 1) k" 2> "$work/err"
    if [ "$keys" -eq "$terminals" ]; then echo '\set k :client_id'; else echo "\\set k random(0, $keys - 1)"; fi > "$work/socket/units.sql"
    echo 'UPDATE stock SET n = n + 1 WHERE key = :k;' >> "$work/socket/units.sql"
    chmod 644 "$work/socket/units.sql"
    for threads in 1 2 4; do
        as_owner env "PGOPTIONS=-c default_transaction_isolation=$isolation" "$bin/pgbench" -n -h "$work/socket" -d postgres \
            -c "$terminals" -j "$threads" -t 200 --max-tries 1000 -f "$work/socket/units.sql" 2> "$work/err" \
            | sed -n 's/^tps = \([0-9.]*\).*/\1/p'
    done | awk -v name="$name" '{ rate[NR] = $1 } END { printf "%s %.0f %.0f %.0f %.2f %.2f\n", name, rate[1], rate[2], rate[3], rate[2] / rate[1], rate[3] / rate[1] }'
}

# The transactions a second of SQLite in memory that add one to a record of so many: by one statement each, and by those that a
# unit has: begin, read, change, commit.
in_memory() {
    python3 - "$1" << 'END'
import sqlite3, sys, time

keys, count = int(sys.argv[1]), 100_000
UPDATE = "UPDATE stock SET n = n + 1 WHERE key = ?"


def alone(base, key):
    base.execute(UPDATE, key)


def unit(base, key):
    base.execute("BEGIN IMMEDIATE")
    base.execute("SELECT n FROM stock WHERE key = ?", key).fetchone()
    base.execute(UPDATE, key)
    base.execute("COMMIT")


for name, change in ("sqlite-in-memory-statement", alone), ("sqlite-in-memory-unit", unit):
    base = sqlite3.connect(":memory:", isolation_level=None)
    base.execute("CREATE TABLE stock (key INTEGER PRIMARY KEY, n INTEGER)")
    base.executemany("INSERT INTO stock VALUES (?, 0)", [(key,) for key in range(keys)])
    began = time.monotonic()
    for turn in range(count):
        change(base, (turn % keys,))
    print(name, round(count / (time.monotonic() - began)))
END
}

echo "units-a-second-of one-worker two four two-by-one four-by-one"
: > "$work/deck"
line trial $((terminals * 8)) trial --terms "$terminals" --seed 1
for turns in 1 100 1000 10000; do
    units=$(units_for "$turns")
    for shared in yes no; do
        computing "$turns" "$shared" "$units" > "$work/deck"
        name=$(if [ "$turns" -eq 1 ]; then echo increments; else echo "computing-$turns"; fi)-$(if [ "$shared" = yes ]; then echo shared; else echo apart; fi)
        line "$name" $((terminals * units)) run --events 500000
    done
done
if start_server off; then
    for isolation in "read committed" serializable; do
        peer "pgbench-${isolation// /-}-shared" 10 "${isolation// /\\ }"
        peer "pgbench-${isolation// /-}-apart" "$terminals" "${isolation// /\\ }"
    done
else
    echo "pgbench: PostgreSQL is not installed"
fi
if python3 -c 'import sqlite3' 2> "$work/err"; then in_memory "$terminals"; else echo "sqlite: Python has no sqlite3 here"; fi
