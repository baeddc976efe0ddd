#!/usr/bin/env bash
# What it costs to check 32 programs, 16 requesters and 16 servers, at three sizes: the microseconds of processor time for
# each kilobyte of their texts, for reading them and for their names; and by how much that cost grows from the smallest
# size to the largest. Where names are looked up in ordered maps it may grow by the logarithm of their number and by 1.2
# besides. The largest programs have half a megabyte each. Reading is the time of a run that reads less that of one that
# makes the texts alone, names that of a run that looks at the names too less that of one that reads. It is no part of the
# gate. It proves and builds a program of its own in a temporary folder first.
set -eu
here=$(cd "$(dirname "$0")" && pwd)
work=${1:-$(mktemp -d)}
program="$work/crates/bench_programs/out/bench_programs"
programs=32

build() {
    mkdir -p "$work/crates/bench_programs/src"
    (cd "$here/.." && tar c --exclude=out crates crates.txt HANDLES) | tar x -C "$work"
    echo 'bench_programs: pw_base pw_code pw_picture pw_number pw_words pw_text pw_data pw_forms pw_divisions pw_operands pw_screen pw_scobol pw_server pw_names' >> "$work/crates.txt"
    for part in main texts; do
        cp "$here/programs/$part.rt.txt" "$work/crates/bench_programs/src/$part.rt"
    done
    echo "bench: proving and building the program, which takes some minutes" >&2
    (cd "$work/crates/bench_programs" && rt run < /dev/null > "$work/build.log" 2>&1) || true
    [ -x "$program" ] || { cat "$work/build.log" >&2; exit 1; }
}

# The microseconds of processor time of the shortest of five runs.
run() {
    local best=0 spent TIMEFORMAT='%3U'
    for _ in 1 2 3 4 5; do
        spent=$({ time "$program" "$1" "$2" "$programs" "$3" 1>&2; } 2>&1) || { echo "bench: $1 $2 gave another answer" >&2; exit 1; }
        spent=$((10#${spent//./} * 1000))
        if [ "$best" -eq 0 ] || [ "$spent" -lt "$best" ]; then best=$spent; fi
    done
    echo "$best"
}

[ -x "$program" ] || build
echo "pass small middle large cost cost cost growth allowed"
sizes=(250 1000 4000)
total=16000
for units in "${sizes[@]}"; do
    rounds=$((total / units))
    bytes=$("$program" bytes "$units" "$programs" 1)
    made=$(run texts "$units" "$rounds")
    read=$(run reading "$units" "$rounds")
    named=$(run names "$units" "$rounds")
    echo "$units $((bytes * rounds / 1024)) $((read - made)) $((named - read))"
done | awk '
    { size[NR] = $1; reading[NR] = $3 / $2; naming[NR] = $4 / $2 }
    END {
        allowed = 1.2 * log(size[3]) / log(size[1])
        printf "reading %d %d %d %.3f %.3f %.3f %.2f %.2f\n", size[1], size[2], size[3], reading[1], reading[2], reading[3], reading[3] / reading[1], allowed
        printf "names %d %d %d %.3f %.3f %.3f %.2f %.2f\n", size[1], size[2], size[3], naming[1], naming[2], naming[3], naming[3] / naming[1], allowed
    }'
