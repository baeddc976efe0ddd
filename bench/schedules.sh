#!/usr/bin/env bash
# Runs decks with 1, 2, 4 and 16 workers, a hundred times each, and replays every log that comes of it:
# each must be a run of its deck.
#
#     bench/schedules.sh [PROGRAM] [TIMES]
set -eu
cd "$(dirname "$0")/.."
program=$(realpath "${1:-./pathway}")
times=${2:-100}
folder=$(mktemp -d)
trap 'rm -rf "$folder"' EXIT
"$program" gen --seed 1 --terms 8 > "$folder/generated.deck"
failed=0
logs=0
for deck in decks/orders.deck decks/takeover.deck "$folder/generated.deck"; do
    sed '/^?END$/,$d' "$deck" > "$folder/front"
    for workers in 1 2 4 16; do
        for _ in $(seq "$times"); do
            "$program" run --workers "$workers" < "$deck" > "$folder/report" || failed=$((failed + 1))
            {
                cat "$folder/front"
                echo "?LOG"
                # the lines behind the last line LOG but the last one
                tac "$folder/report" | sed '1d; /^LOG$/,$d' | tac
                echo "?END"
            } > "$folder/deck"
            if "$program" verify < "$folder/deck" > "$folder/again" && cmp -s "$folder/report" "$folder/again"; then
                logs=$((logs + 1))
            else
                failed=$((failed + 1))
                echo "$(basename "$deck") with $workers workers gave a log that is no run of it" >&2
            fi
        done
    done
done
echo "$logs logs are runs, $failed failures"
[ "$failed" -eq 0 ]
