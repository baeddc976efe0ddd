#!/usr/bin/env bash
# Gives the program hostile inputs and reports each answer that is no status of the command, want of memory among them, each
# text that is not the status's own, each report that its log, replayed, has not, each death by a signal, and each run above
# 10 seconds or 3 GB. The inputs are:
#
# - damaged: the sample decks, logs, disc scripts and schedules with bytes changed, cut, lines cut, doubled, swapped or of
#   another deck, sections repeated, words repeated or replaced, and numbers at and past limits; now and then with damaged
#   words. The same number gives the same input.
# - large: inputs as large as they may be, and one piece more, each full of one thing.
# - hard: decks without a fault whose runs fill the log, and the logs of those runs.
#
# It is no part of the gate.
#
# bench/hostile.sh [--count N] [--from N] [--only COMMAND].. [--kind KIND].. [--jobs N] [--patience SECONDS]
#     [--name TEXT] [--each] [--keep FOLDER] [--samples FOLDER] [PROGRAM]
#
# The first N is how many damaged inputs each command gets (10000), the second the number of the first of them (0). As many
# runs as there are processors are made at once, or as many as --jobs says. A run is ended where it takes more than the
# patience (60) of the processors, or stands still for as long; what it took is the smaller of the time by the clock and that
# of the processors. Of the large inputs and of the hard decks only those are taken whose names have the text. Where --each
# stands, the figures of each run are told. Each input that is reported is kept in the one folder, where it is given; the
# samples are the decks and schedules below the other one, or of decks/. It takes the program that `./pathway` runs, or the
# one that is named.
set -eu
here=$(cd "$(dirname "$0")" && pwd)
exec python3 -B "$here/hostile/hostile.py" --root "$here/.." "$@"
