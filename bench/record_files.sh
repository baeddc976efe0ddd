#!/usr/bin/env bash
# What a call of each form of record file costs, for 1,000, 10,000 and 100,000 records of 100 bytes, in microseconds, and
# by how much that grows from 1,000 to 100,000 records. A find or a next is the time of a run with these calls less that of
# one without them, so each is made 20 times for a record: the two runs of a sorted file differ by chance too. It is no
# part of the gate. It proves and builds a program of its own in a temporary folder first.
set -eu
here=$(cd "$(dirname "$0")" && pwd)
work=${1:-$(mktemp -d)}
program="$work/crates/bench_files/out/bench_files"

build() {
    mkdir -p "$work/crates/bench_files/src" "$work/crates/bench_files/proofs/insert_all"
    for crate in pw_base pw_files pw_blocks; do
        (cd "$here/.." && tar c --exclude=out "crates/$crate") | tar x -C "$work"
    done
    cp "$here/../HANDLES" "$work/"
    grep -E '^(pw_base|pw_files|pw_blocks):' "$here/../crates.txt" > "$work/crates.txt"
    echo 'bench_files: pw_base pw_files pw_blocks' >> "$work/crates.txt"
    cp "$here/record_files/main.rt.txt" "$work/crates/bench_files/src/main.rt"
    cp "$here/record_files/Invariants.antt.txt" "$work/crates/bench_files/proofs/insert_all/Invariants.antt"
    echo "bench: proving and building the program, which takes some minutes" >&2
    (cd "$work/crates/bench_files" && rt run < /dev/null > "$work/build.log" 2>&1) || true
    [ -x "$program" ] || { cat "$work/build.log" >&2; exit 1; }
}

# The nanoseconds of the shortest of three runs, each of 100,000 inserts in all into files of so many records.
run() {
    local best=0 before spent
    for _ in 1 2 3; do
        before=$(date +%s%N)
        "$program" "$1" "$2" "$3" "$((100000 / $3))" || { echo "bench: $1 $2 $3 gave another answer" >&2; exit 1; }
        spent=$(($(date +%s%N) - before))
        if [ "$best" -eq 0 ] || [ "$spent" -lt "$best" ]; then best=$spent; fi
    done
    echo "$best"
}

[ -x "$program" ] || build
echo "form call 1000 10000 100000 growth"
for form in sorted blocks; do
    for call in insert find next; do
        for count in 1000 10000 100000; do
            whole=$(run "$form" "$call" "$count")
            less=0
            calls=100000
            if [ "$call" != insert ]; then
                less=$(run "$form" insert "$count")
                calls=2000000
            fi
            echo "$((whole - less)) $calls"
        done | awk -v name="$form $call" '
            { cost[NR] = $1 / $2 / 1000 }
            END { printf "%s %.2f %.2f %.2f %.1f\n", name, cost[1], cost[2], cost[3], cost[3] / cost[1] }'
    done
done
