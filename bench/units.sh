#!/usr/bin/env bash
# What a unit that updates one record costs under TMF, begin to commit, over 1,000, 10,000 and 100,000 records, in
# nanoseconds, where 1 and where 64 units are open at once; then by how much it grows from 1 to 64 units over 10,000
# records, which may be 1.5, and from 1,000 to 100,000 records with 1 unit, which may be 3. It is no part of the gate. It
# proves and builds a program of its own in a temporary folder first.
set -eu
here=$(cd "$(dirname "$0")" && pwd)
work=${1:-$(mktemp -d)}
program="$work/crates/bench_units/out/bench_units"
crates="pw_base pw_number pw_picture pw_code pw_files pw_blocks pw_locks pw_class pw_event pw_onecopy pw_paired pw_tmf"

build() {
    mkdir -p "$work/crates"
    for crate in $crates; do
        (cd "$here/.." && tar c --exclude=out "crates/$crate") | tar x -C "$work"
        grep -E "^$crate:" "$here/../crates.txt"
    done > "$work/crates.txt"
    cp "$here/../HANDLES" "$work/"
    echo 'bench_units: anyhow pw_base pw_code pw_files pw_locks pw_onecopy pw_paired pw_tmf' >> "$work/crates.txt"
    (cd "$here/units" && find . -name '*.txt') | while read -r file; do
        install -D -m 644 "$here/units/$file" "$work/crates/bench_units/${file%.txt}"
    done
    echo "bench: proving and building the program, which takes some minutes" >&2
    (cd "$work/crates/bench_units" && rt run < /dev/null > "$work/build.log" 2>&1) || true
    [ -x "$program" ] || { cat "$work/build.log" >&2; exit 1; }
}

[ -x "$program" ] || build
"$program" | awk '
    { print }
    NR > 1 { one[$1] = $2; many[$1] = $3 }
    END {
        printf "growth in units %.2f\n", many[10000] / one[10000]
        printf "growth in records %.2f\n", one[100000] / one[1000]
    }'
