#!/usr/bin/env bash
# What the readers cost at three sizes each, in microseconds of processor time for each thing that is read; by how much
# that cost grows from the smallest size to the largest; and by how much it may grow: by 1.2, and where names are looked
# up by the logarithm of their number besides. Look-ups are the time of a run with them less that of one without them,
# tokens that of a run less that of making the text, and what a procedure has less that of its tokens. Sentences are 1, 4
# and 16 MiB of text; keys stand in one ACCEPT; branches are opened inside one another, as deep as the size says, and
# closed again. It is no part of the gate. It proves and builds a program of its own in a temporary folder first.
set -eu
here=$(cd "$(dirname "$0")" && pwd)
work=${1:-$(mktemp -d)}
program="$work/crates/bench_readers/out/bench_readers"

build() {
    mkdir -p "$work/crates/bench_readers/src"
    (cd "$here/.." && tar c --exclude=out crates crates.txt HANDLES) | tar x -C "$work"
    echo 'bench_readers: pw_base pw_code pw_number pw_picture pw_words pw_text pw_data pw_forms pw_event pw_deck' >> "$work/crates.txt"
    for part in main procedures texts; do
        cp "$here/readers/$part.rt.txt" "$work/crates/bench_readers/src/$part.rt"
    done
    echo "bench: proving and building the program, which takes some minutes" >&2
    (cd "$work/crates/bench_readers" && rt run < /dev/null > "$work/build.log" 2>&1) || true
    [ -x "$program" ] || { cat "$work/build.log" >&2; exit 1; }
}

# The microseconds of processor time of the shortest of five runs of a reader over so much, so many times.
run() {
    local best=0 spent TIMEFORMAT='%3U'
    for _ in 1 2 3 4 5; do
        spent=$({ time "$program" "$1" "$2" "$3" 1>&2; } 2>&1) || { echo "bench: $1 $2 gave another answer" >&2; exit 1; }
        spent=$((10#${spent//./} * 1000))
        if [ "$best" -eq 0 ] || [ "$spent" -lt "$best" ]; then best=$spent; fi
    done
    echo "$best"
}

[ -x "$program" ] || build
echo "reader small middle large cost cost cost growth allowed"
while read -r reader base total small middle large; do
    for count in "$small" "$middle" "$large"; do
        rounds=$((total / count))
        less=0
        [ "$base" = - ] || less=$(run "$base" "$count" "$rounds")
        whole=$(run "$reader" "$count" "$rounds")
        echo "$((whole - less)) $((count * rounds)) $count"
    done | awk -v name="$reader" '
        { cost[NR] = $1 / $2; size[NR] = $3 }
        END {
            allowed = name == "look-ups" ? 1.2 * log(size[3]) / log(size[1]) : 1.2
            printf "%s %d %d %d %.3f %.3f %.3f %.2f %.2f\n", name, size[1], size[2], size[3], cost[1], cost[2], cost[3], cost[3] / cost[1], allowed
        }'
done << 'READERS'
tokens text 2560000 2000 8000 32000
layout - 256000 2000 8000 32000
pictures - 256000 1000 4000 16000
look-ups layout 96000 2000 8000 32000
editing - 12800000 2000 8000 31998
log-lines - 2048000 2000 8000 32000
sentences sentence-tokens 1766016 55188 220752 883008
paragraphs paragraph-tokens 1024000 2000 8000 32000
keys key-tokens 5119488 624 2499 9999
branches branch-tokens 2048 4 16 64
READERS
