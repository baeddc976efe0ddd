#!/usr/bin/env bash
# How many units a second the second program, `pathway_store`, makes durable with 1, 2 and 4 workers: 64 terminals of the generated
# deck with 8 units each, in a new folder, by the clock of the shortest of three runs. Up to 32 units are synced together. Beside it
# stands PostgreSQL with fsync on, where it is installed, with 64 clients that make the same changes, each in a transaction; it
# takes 1, 2 and 4 threads of pgbench. Folder and server lie below the directory for temporary files, so set TMPDIR to the disk that
# is to be measured. It is no part of the gate. It takes the program that was built in its crate, or the one that is named.
#
#     bench/store.sh [PROGRAM]
set -eu
here=$(cd "$(dirname "$0")" && pwd)
program=${1:-$here/../crates/pathway_store/out/pathway_store}
work=$(mktemp -d)
. "$here/postgres.sh"
trap finish EXIT

terminals=64
units=8

# The milliseconds by the clock of a run in a new folder, the shortest of three; the status has to be 0.
spent() {
    local workers=$1 best=0 one turn TIMEFORMAT='%3R'
    for turn in 1 2 3; do
        rm -rf "$work/store" && mkdir "$work/store"
        one=$({ time "$program" "$work/store" --workers "$workers" < "$work/deck" > "$work/out" 2> "$work/err"; } 2>&1) \
            || { head "$work/out" "$work/err" >&2; echo "bench: a run failed" >&2; exit 1; }
        one=$((10#${one//./}))
        if [ "$turn" -eq 1 ] || [ "$one" -lt "$best" ]; then best=$one; fi
    done
    echo "$best"
}

# The transactions a second of 64 clients, each of so many that add one to a record of ten, by 1, 2 and 4 threads.
peer() {
    local threads
    query "CREATE TABLE stock (key int PRIMARY KEY, n int); INSERT INTO stock SELECT k, 0 FROM generate_series(0, 9) k" 2> "$work/err"
    printf '\\set k random(0, 9)\nUPDATE stock SET n = n + 1 WHERE key = :k;\n' > "$work/socket/units.sql"
    chmod 644 "$work/socket/units.sql"
    for threads in 1 2 4; do
        as_owner "$bin/pgbench" -n -h "$work/socket" -d postgres -c "$terminals" -j "$threads" -t 50 -f "$work/socket/units.sql" 2> "$work/err" \
            | sed -n 's/^tps = \([0-9.]*\).*/\1/p'
    done | awk '{ rate[NR] = $1 } END { printf "pgbench %.0f %.0f %.0f\n", rate[1], rate[2], rate[3] }'
}

"$here/../pathway" gen --seed 1 --terms "$terminals" > "$work/deck"
echo "durable-units-a-second-of one-worker two four"
for workers in 1 2 4; do spent "$workers"; done | awk -v units=$((terminals * units)) '
    { rate[NR] = units * 1000 / ($1 > 0 ? $1 : 1) }
    END { printf "pathway_store %.0f %.0f %.0f\n", rate[1], rate[2], rate[3] }'
if start_server on; then peer; else echo "pgbench: PostgreSQL is not installed"; fi
