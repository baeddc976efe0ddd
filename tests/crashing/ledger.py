"""Decks whose records tell which units were made: each unit counts in one of ten records, and writes its own key in two files.

So a unit that lacks, that is there twice or in part is seen in the FILES part of a report, whatever the files of a store look like."""
import re, typing

from crashing.program import told_in

PROGRAMS = """\
?SCREEN-COBOL KEYS
IDENTIFICATION DIVISION.
PROGRAM-ID. KEYS.
DATA DIVISION.
WORKING-STORAGE SECTION.
01 MSG.
  02 M-SLOT PIC X.
  02 M-KEY PIC X(8).
01 ANS.
  02 A-CODE PIC 9(4).
SCREEN SECTION.
01 ASK.
  02 F-SLOT AT 1, 1 PIC X USING M-SLOT.
  02 F-KEY AT 2, 1 PIC X(8) USING M-KEY.
PROCEDURE DIVISION.
P1.
  PERFORM P2 UNTIL M-SLOT = "Z".
  STOP RUN.
P2.
  ACCEPT ASK UNTIL F1.
  SEND MSG TO LEDGER REPLY CODE 0 YIELDS ANS.
?SERVER LEDGER-P
IDENTIFICATION DIVISION.
PROGRAM-ID. LEDGER-P.
DATA DIVISION.
WORKING-STORAGE SECTION.
01 MSG.
  02 M-SLOT PIC X.
  02 M-KEY PIC X(8).
01 ANS.
  02 A-CODE PIC 9(4).
01 COUNT-REC.
  02 C-SLOT PIC X.
  02 C-N PIC 9(6).
01 KEY-REC.
  02 K-KEY PIC X(8).
  02 K-REST PIC X(%(rest)d).
PROCEDURE DIVISION.
P1.
  READ $RECEIVE INTO MSG.
  MOVE M-KEY TO K-KEY.
  MOVE "WRITTEN BY ITS UNIT" TO K-REST.
  WRITE LEFTS FROM KEY-REC.
  READ COUNTS KEY M-SLOT INTO COUNT-REC.
  ADD 1 TO C-N.
  REWRITE COUNTS FROM COUNT-REC.
  WRITE RIGHTS FROM KEY-REC.
  WRITE $RECEIVE FROM ANS.
?FILE COUNTS KEY 1
"""
TERMINALS = """\
?PATHCOM
SET SERVER PROGRAM LEDGER-P
SET SERVER MAXSERVERS 4
ADD SERVER LEDGER
ADD TCP TCP-1
START TCP TCP-1
SET TERM TCP TCP-1
SET TERM INITIAL KEYS
SET TERM MAXTMFRESTARTS 32767
"""
# The ten records in which units count, and one that none changes, which tells of the deck that came first.
SLOTS, UNCHANGED = "0123456789", "Z"


class Ledger:
    """The deck of one run, and what its units write."""

    def __init__(self, run, terminals, units, rest=100, counted=0):
        """The keys of a run begin with its number, so no two runs of a store write one key. The counts of the deck's own records count
        for its store alone where it is the first one."""
        self.run = run
        names = [f"T{number}" for number in range(1, terminals + 1)]
        self.keys = {name: [f"{run:03}{place:02}{unit:03}" for unit in range(units)] for place, name in enumerate(names)}
        added = "".join(f"ADD TERM {name}\nSTART TERM {name}\n" for name in names)
        counts = "".join(f"{slot}{counted:06}\n" for slot in SLOTS + UNCHANGED)
        lines = {name: "".join(f"F1 F-SLOT={slot_of(key)} F-KEY={key}\n" for key in keys) for name, keys in self.keys.items()}
        entries = "".join(f"?ENTRIES {name}\n{text}" for name, text in lines.items() if text)
        files = f"{counts}?FILE LEFTS KEY 8\n?FILE RIGHTS KEY 8\n"
        self.deck = f"{TERMINALS}{added}{PROGRAMS % {'rest': rest}}{files}{entries}?END\n".encode()

    def units(self, output):
        """The keys of the units that an output of a run of this deck tells, in order; a terminal's come in the order of its entries."""
        left = {name: iter(keys) for name, keys in self.keys.items()}
        return [next(left[name]) for name in told_in(output)]

    def is_beginning(self, keys):
        """Whether these are units of this run, the first ones of each terminal."""
        return all(set(them[: len(keys & set(them))]) <= keys for them in self.keys.values()) and keys <= set(sum(self.keys.values(), []))


def slot_of(key):
    """Which of the ten records a unit counts in."""
    return SLOTS[sum(map(int, key)) % 10]


# A deck that only reads: one terminal, which has no entries. And the same with other records, which are to be looked at by no store.
READS, READS_OTHERS = Ledger(0, 1, 0).deck, Ledger(0, 1, 0, counted=500).deck


class Found(typing.NamedTuple):
    """What a report tells of the records: the keys of the units, and what is amiss with them, if anything."""

    keys: frozenset
    amiss: str


def found_in(report):
    """The units of the FILES part of a report."""
    part = re.search(r"^FILES\n(.*?)(?=^LOG$|\Z)", report, re.M | re.S)
    if not part:
        return Found(frozenset(), "there is no FILES part")
    sections = re.findall(r"^FILE (\S+)\n((?:\|.*\n)*)", part[1], re.M)
    files = {name: re.findall(r"^\|(.*)$", text, re.M) for name, text in sections}
    if set(files) != {"COUNTS", "LEFTS", "RIGHTS"}:
        return Found(frozenset(), f"the files are {sorted(files)}")
    lefts, rights = ([record[:8] for record in files[name]] for name in ("LEFTS", "RIGHTS"))
    counts = {record[0]: int(record[1:]) for record in files["COUNTS"]}
    keys = frozenset(lefts)
    if lefts != rights:
        return Found(keys, f"units in part: {sorted(keys ^ set(rights))[:5]}")
    wanted = {slot: 0 for slot in SLOTS + UNCHANGED}
    for key in lefts:
        wanted[slot_of(key)] += 1
    if counts != wanted:
        return Found(keys, f"the counts are {sum(counts.values())}, and there are {len(keys)} units")
    return Found(keys, "")
