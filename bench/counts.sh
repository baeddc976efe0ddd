#!/usr/bin/env bash
# How many instructions the program takes, by valgrind, whatever else the machine does: for an entry of a run and of its replay
# with 1, 8, 64 and 128 terminals, an entry of a terminal that only shows, a statement of five kinds and a turn of a loop, and a
# byte of `check`. Each count is that of what a larger input has over a smaller one, so that what a call takes anyway is not in
# it. It prints a row a count, the table of docs/design/SPEED.md; with --compare it says which count is more than a tenth above the
# page's, and fails where one is. It takes the program that `./pathway` runs, or the one that is named.
#
#     bench/counts.sh [--compare] [PROGRAM]
set -eu
cd "$(dirname "$0")/.."
exec python3 bench/counting/counts.py "$@"
