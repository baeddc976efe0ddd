#!/usr/bin/env bash
# How many millions of statements and turns a second compiled code does, beside a program of the same statements that
# `cobc -x -O2` makes, where it is installed: a counting loop, a table of subscripts, and a field that is edited. Each has
# about 3.3 million, with an answer before each 100,000 are counted; the peer does the same 30 times, and shows its field by
# a MOVE to an edited item. The goal is 20 for the counting loop, and the peer's rate; a fifth of that is the floor. It is no
# part of the gate. It proves and builds a program of its own in a temporary folder first.
set -eu
here=$(cd "$(dirname "$0")" && pwd)
work=${1:-$(mktemp -d)}
program="$work/crates/bench_statements/out/bench_statements"

build() {
    mkdir -p "$work"
    (cd "$here/.." && tar c --exclude=out crates crates.txt HANDLES) | tar x -C "$work"
    echo "bench_statements: anyhow pw_base pw_code pw_code_meaning pw_machine pw_compiled_deck" >> "$work/crates.txt"
    (cd "$here/statements" && find . -name '*.txt') | while read -r file; do
        install -D -m 644 "$here/statements/$file" "$work/crates/bench_statements/${file%.txt}"
    done
    echo "bench: proving and building the program, which takes some minutes" >&2
    (cd "$work/crates/bench_statements" && rt run < /dev/null > "$work/build.log" 2>&1) || true
    [ -x "$program" ] || { cat "$work/build.log" >&2; exit 1; }
}

# The millions of statements and turns a second of the peer, of which one run in 30 has so many: the shortest of three.
peer() {
    local best=0 spent run TIMEFORMAT='%3U'
    command -v cobc > /dev/null || { echo none; return; }
    cobc -x -free -O2 -o "$work/$1" "$here/statements/cobol/$1.cob" 2> "$work/cobc.log" || { cat "$work/cobc.log" >&2; exit 1; }
    for run in 1 2 3; do
        spent=$({ time "$work/$1" > "$work/$1.out"; } 2>&1)
        spent=$((10#${spent//./}))
        if [ "$run" -eq 1 ] || [ "$spent" -lt "$best" ]; then best=$spent; fi
    done
    awk -v count="$2" -v spent="$best" 'BEGIN { printf "%.2f\n", count * 30 / spent / 1000 }'
}

[ -x "$program" ] || build
"$program" | while read -r name count answers rate; do
    if [ "$name" = program ]; then echo "$name $count $answers $rate peer"; continue; fi
    echo "$name $count $answers $rate $(peer "$name" "$count")"
done
