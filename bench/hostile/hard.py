"""Decks without a fault whose runs fill the log, each with much of one thing."""

ITEMS = b"""IDENTIFICATION DIVISION.
PROGRAM-ID. P.
DATA DIVISION.
WORKING-STORAGE SECTION.
"""
SERVER = ITEMS.replace(b"P.\n", b"S.\n", 1) + b"""01 MSG PIC X(6).
01 REC.
  02 R-KEY PIC X(6).
  02 R-N PIC 9(6).
01 ANS.
  02 A-CODE PIC 9(4) VALUE 0.
  02 A-N PIC 9(6).
PROCEDURE DIVISION.
M.
  READ $RECEIVE INTO MSG.
"""
REPLY = b"  WRITE $RECEIVE FROM ANS.\n"
SENDS = b"""01 MSG PIC X(6) VALUE "100000".
01 ANS.
  02 FILLER PIC X(4).
  02 LAST-KEY PIC X(6).
01 N PIC 9(9).
PROCEDURE DIVISION.
M.
"""
SEND = b"SEND MSG TO C REPLY CODE 0 YIELDS ANS."
FOR_EVER = b"  PERFORM TURN UNTIL N = 999999999.\n  STOP RUN.\nTURN.\n"
UNITS = SENDS + FOR_EVER + b"  BEGIN-TRANSACTION.\n  " + SEND + b"\n  END-TRANSACTION.\n"
RECORDS = b"?FILE F KEY 6\n" + b"".join(b"%d000000\n" % n for n in range(100000, 140000))


def deck(program, terminals=1, server=None, end=b"", restarts=5):
    """A deck of terminals that run one program over two pairs, and a class of four processes."""
    text = b"?PATHCOM\n"
    if server:
        text += b"SET SERVER PROGRAM S\nSET SERVER MAXSERVERS 4\nADD SERVER C\n"
    text += b"".join(b"ADD TCP TCP-%d\nSTART TCP TCP-%d\n" % (n, n) for n in (1, 2))
    text += b"SET TERM INITIAL P\nSET TERM MAXTMFRESTARTS %d\n" % restarts
    text += b"".join(
        b"SET TERM TCP TCP-%d\nADD TERM T%d\nSTART TERM T%d\n" % (t % 2 + 1, t, t) for t in range(1, terminals + 1)
    )
    text += b"?SCREEN-COBOL P\n" + ITEMS + program
    if server:
        text += b"?SERVER S\n" + server
    return text + end + b"?END\n"


def shows():
    """Screens of one row."""
    return deck(b"PROCEDURE DIVISION.\nM.\n  PERFORM TURN UNTIL TERMINATION-STATUS = 1.\nTURN.\n" + b'  DISPLAY "ROW".\n')


def full_screens():
    """Screens whose rows are all full."""
    rows = b"".join(b'  02 FILLER AT %d, 1 VALUE "%s".\n' % (row, b"X" * 80) for row in range(1, 24))
    return deck(
        b"01 A PIC 9.\nSCREEN SECTION.\n01 S.\n" + rows
        + b'PROCEDURE DIVISION.\nM.\n  DISPLAY BASE S.\n  PERFORM TURN UNTIL A = 1.\nTURN.\n  DISPLAY "ROW".\n'
    )


def units():
    """Units of one request each, which add to one record."""
    adds = SERVER + b"  READ F WITH LOCK KEY MSG INTO REC.\n  ADD 1 TO R-N.\n  REWRITE F FROM REC.\n" + REPLY
    return deck(UNITS, server=adds, end=RECORDS)


def large_storage():
    """Units of a program whose storage is as large as it may be, so that each checkpoint is."""
    return deck(b"01 ALL-OF-IT PIC X(31900).\n" + UNITS, server=SERVER + REPLY, end=RECORDS)


def many_locks():
    """One unit that reads and changes each record of a file, again and again."""
    walks = SERVER + b"""  PERFORM WALK 9000 TIMES.
  WRITE $RECEIVE FROM ANS.
WALK.
  READ NEXT F AFTER MSG INTO REC.
  IF FILE-STATUS = 0 MOVE R-KEY TO MSG ADD 1 TO R-N REWRITE F FROM REC ELSE MOVE "100000" TO MSG.
"""
    return deck(
        SENDS + b"  BEGIN-TRANSACTION.\n" + FOR_EVER + b"  " + SEND + b"\n  MOVE LAST-KEY TO MSG.\n",
        server=walks.replace(b"  WRITE $RECEIVE", b"  MOVE MSG TO A-N.\n  WRITE $RECEIVE", 1), end=RECORDS,
    )


def many_units():
    """The units of 128 terminals that all want one record."""
    adds = SERVER + b"  READ F WITH LOCK KEY MSG INTO REC.\n  ADD 1 TO R-N.\n  REWRITE F FROM REC.\n" + REPLY
    return deck(UNITS, terminals=128, server=adds, end=RECORDS, restarts=32767)


def many_readers():
    """The units of 128 terminals that share one record, which each of them then wants to change."""
    adds = SERVER + b"  READ F KEY MSG INTO REC.\n  ADD 1 TO R-N.\n  REWRITE F FROM REC.\n" + REPLY
    return deck(UNITS, terminals=128, server=adds, end=RECORDS, restarts=32767)


def many_failures():
    """Pairs, a class and units over which every failure line comes."""
    lines = b"".join(b"TCP TCP-%d %s AFTER %d\n" % (n % 2 + 1, [b"PRIMARY", b"BACKUP"][n // 2 % 2], 900 * n) for n in range(48))
    lines += b"".join(b"SERVER C %d AFTER %d\n" % (n % 4 + 1, 1000 * n) for n in range(16))
    adds = SERVER + b"  READ F WITH LOCK KEY MSG INTO REC.\n  ADD 1 TO R-N.\n  REWRITE F FROM REC.\n" + REPLY
    return deck(UNITS, terminals=64, server=adds, end=RECORDS + b"?FAIL\n" + lines, restarts=32767)


def redone():
    """A unit that restarts itself as often as it may."""
    return deck(SENDS + b"  BEGIN-TRANSACTION.\n  " + SEND + b"\n  RESTART-TRANSACTION.\n", terminals=128,
                server=SERVER + REPLY, end=RECORDS, restarts=32767)


HARD = [shows, full_screens, units, large_storage, many_locks, many_units, many_readers, many_failures, redone]
