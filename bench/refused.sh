#!/usr/bin/env bash
# Refuses allocations of the program, and reports each run that then answers neither status 6 with nothing written nor its own
# right answer: another status, a cut text, a death by a signal, a run that does not end. Each allocation of four worked
# examples is refused with each command that reads a deck, alone and with all behind it; of other decks, schedules and words
# so many at most as are given, spread over the run. A run that several workers make is right where its log, replayed, has
# the same report. The allocations are those of the program's C library, which gcc's own library over it refuses. It is no
# part of the gate.
#
# bench/refused.sh [--most N] [--only TEXT] [--jobs N] [--patience SECONDS] [PROGRAM]
#
# N is 400 where it is not given; only the cases are tried whose words or deck have the text in them. A run is ended where it
# takes more than the patience (60) of the processors, or stands still for as long. It takes the program that `./pathway`
# runs, or the one that is named.
set -eu
here=$(cd "$(dirname "$0")" && pwd)
exec python3 -B "$here/hostile/refused.py" --root "$here/.." "$@"
