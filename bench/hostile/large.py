"""Inputs as large as they may be, and one piece more. Each is a name and a function that makes the bytes."""

from inputs import MOST_BYTES

FRONT = b"""?SCREEN-COBOL P
IDENTIFICATION DIVISION.
PROGRAM-ID. P.
DATA DIVISION.
WORKING-STORAGE SECTION.
"""
PROGRAM = FRONT + b"""01 A PIC 9.
01 B PIC X(30).
PROCEDURE DIVISION.
M.
"""
SCREENS = FRONT + b"""01 A PIC 9(4).
SCREEN SECTION.
01 S.
"""
KEYS = SCREENS + b"""  02 FA AT 1, 1 PIC 9(4) USING A.
PROCEDURE DIVISION.
MAIN.
  DISPLAY BASE S.
  PERFORM TURN UNTIL A = 9999.
  STOP RUN.
TURN.
  ACCEPT S UNTIL F1.
"""
PAIRS = b"?PATHCOM\n" + b"".join(b"ADD TCP TCP-%d\nSTART TCP TCP-%d\n" % (n, n) for n in (1, 2)) + b"SET TERM INITIAL P\n"


def filled(head, piece, tail):
    """As many pieces as fit into the limit of an input."""
    room = MOST_BYTES - len(head) - len(tail)
    return head + piece * (room // len(piece)) + tail


def numbered(head, form, count, tail=b"?END\n"):
    """A form for each of so many numbers of seven digits, as far as they fit into the limit."""
    pieces = b"".join(form.replace(b"#", b"%d" % n) for n in range(1000000, 1000000 + count))
    return head + pieces[: MOST_BYTES - len(head) - len(tail)].rpartition(b"\n")[0] + b"\n" + tail


def terminals(count):
    """Terminals by turns of two pairs."""
    return b"".join(b"SET TERM TCP TCP-%d\nADD TERM T%d\nSTART TERM T%d\n" % (t % 2 + 1, t, t) for t in range(1, count + 1))


def full_entries():
    """As many entries as a terminal may have, for as many terminals as there may be."""
    entries = b"".join(b"?ENTRIES T%d\n" % t + b"F1 FA=1\n" * 4096 for t in range(1, 129))
    return PAIRS + terminals(128) + KEYS + entries + b"?END\n"


def full_pairs():
    """Entry lines with as many pairs as a line may have."""
    line = b"F1" + b"".join(b" F%d=" % n for n in range(1840)) + b"\n"
    return filled(PAIRS + terminals(1) + KEYS + b"?ENTRIES T1\n", line, b"?END\n")


def shows(log, count):
    """A log of as many lines as may stand, of which few are steps."""
    return log + b"".join(b"%d SHOW T1 0.0.%d\n" % (n, n) for n in range(1, count + 1)) + b"?END\n"


def of_any_command():
    yield "one_line", lambda: b"A" * MOST_BYTES
    yield "one_line_too_long", lambda: b"A" * (MOST_BYTES + 1)
    yield "spaces", lambda: b" " * MOST_BYTES
    yield "line_feeds", lambda: b"\n" * MOST_BYTES
    yield "carriage_returns", lambda: b"\r\n" * (MOST_BYTES // 2)
    yield "quotes", lambda: b'"' * MOST_BYTES
    yield "zero_bytes", lambda: bytes(MOST_BYTES)
    yield "section_marks", lambda: b"?\n" * (MOST_BYTES // 2)


def of_procedures():
    """Programs whose statements, names or operands fill the input."""
    end = b".\n?END\n"
    yield "if_lines", lambda: filled(PROGRAM, b"    IF A = 1\n", b'    DISPLAY "X".\n?END\n')
    yield "if_words", lambda: filled(PROGRAM, b"IF A = 1 ", b"\n?END\n")
    yield "else_lines", lambda: filled(PROGRAM, b"    IF A = 1 ADD 1 TO A ELSE ADD 1 TO A.\n", b"    STOP RUN.\n?END\n")
    yield "end_ifs", lambda: filled(PROGRAM, b"IF A = 1 MOVE 1 TO A END-IF\n", end)
    yield "size_errors", lambda: filled(PROGRAM, b"ADD 1 TO A ON SIZE ERROR\n", end)
    yield "moves", lambda: filled(PROGRAM, b"    MOVE 1 TO A.\n", b"    STOP RUN.\n?END\n")
    yield "targets", lambda: filled(PROGRAM + b"MOVE A TO", b" A", end)
    yield "comparisons", lambda: filled(PROGRAM + b"IF A = 1", b" AND A = 1", end)
    yield "alternatives", lambda: filled(PROGRAM + b"PERFORM M UNTIL A = 1", b" OR A = 1 AND A = 2", end)
    yield "paragraphs", lambda: numbered(PROGRAM, b"P#.\n    PERFORM Q#.\n", 500000)
    yield "same_paragraphs", lambda: filled(PROGRAM, b"P.\n    EXIT.\n", b"?END\n")
    yield "choices", lambda: filled(PROGRAM + b"PERFORM ONE OF", b" M", b" DEPENDING ON A" + end)
    yield "arguments", lambda: filled(PROGRAM + b"CALL P USING", b" A", end)
    yield "codes", lambda: filled(PROGRAM, b"SEND A TO C REPLY" + b" CODE 1 YIELDS A" * 9999 + b".\n", b"?END\n")
    yield "accept_keys", lambda: filled(KEYS, b"ACCEPT S UNTIL" + b" F1" * 9999 + b".\n", b"?END\n")
    yield "periods", lambda: filled(PROGRAM, b".", b"\n?END\n")
    yield "brackets", lambda: filled(PROGRAM + b"MOVE A TO ", b"(", b"\n?END\n")
    yield "digits", lambda: filled(PROGRAM + b"MOVE ", b"9", b" TO A.\n?END\n")
    yield "text", lambda: filled(PROGRAM + b'DISPLAY "', b"x", b'".\n?END\n')
    yield "quotes_in_text", lambda: filled(PROGRAM + b'DISPLAY "', b'""', b'".\n?END\n')


def of_data():
    """Programs whose items, pictures or fields fill the input."""
    end = b"PROCEDURE DIVISION.\n?END\n"
    yield "items", lambda: numbered(FRONT, b"01 A# PIC X(30).\n", 700000, end)
    yield "same_items", lambda: filled(FRONT, b"01 A PIC X.\n", end)
    yield "fillers", lambda: filled(FRONT + b"01 A.\n", b"02 FILLER PIC X.\n", end)
    yield "levels", lambda: FRONT + b"".join(b"%02d A%d.\n" % (n % 49 + 1, n) for n in range(900000)) + end
    yield "tables", lambda: numbered(FRONT + b"01 A.\n", b"02 T# PIC X OCCURS 1000.\n", 500000, end)
    yield "picture", lambda: filled(FRONT + b"01 A PIC ", b"X(1)", b".\n" + end)
    yield "picture_of_commas", lambda: filled(FRONT + b"01 A PIC ", b",", b"9.\n" + end)
    yield "clauses", lambda: filled(FRONT + b"01 A", b" PIC X", b".\n" + end)
    yield "using_names", lambda: filled(FRONT + b"LINKAGE SECTION.\n01 L PIC X.\nPROCEDURE DIVISION USING", b" L", b".\n?END\n")
    yield "environment", lambda: filled(FRONT.partition(b"DATA")[0] + b"ENVIRONMENT DIVISION. ", b"DATA ", b"\n?END\n")
    yield "fields", lambda: filled(SCREENS, b"02 FILLER AT 1, 1 PIC 9(4) USING A.\n", end)
    yield "empty_fields", lambda: filled(SCREENS, b'02 FILLER AT 1, 1 VALUE "".\n', end)
    yield "named_fields", lambda: numbered(SCREENS, b"02 F# AT 1, 1 FROM A PIC 9(4).\n", 600000, end)
    yield "screens", lambda: numbered(SCREENS, b"01 S#.\n", 1500000, end)


def of_sections():
    """Decks whose sections or their lines fill the input."""
    yield "sections", lambda: filled(b"", b"?FAIL\n", b"?END\n")
    yield "programs", lambda: numbered(b"", b"?SCREEN-COBOL P#\n", 600000)
    yield "files", lambda: numbered(b"", b"?FILE F# KEY 1\n", 600000)
    yield "commands", lambda: filled(PAIRS, b"SET TERM MAXTMFRESTARTS 5\n", b"?END\n")
    yield "added_terminals", lambda: numbered(PAIRS + b"SET TERM TCP TCP-1\n", b"ADD TERM T#\n", 700000)
    yield "started_terminals", lambda: numbered(PAIRS, b"START TERM T#\n", 700000)
    yield "records", lambda: numbered(b"?FILE F KEY 7\n", b"#\n", 2000000)
    yield "records_that_fall", lambda: b"?FILE F KEY 7\n" + b"".join(b"%07d\n" % n for n in range(1999999, 0, -1)) + b"?END\n"
    yield "same_records", lambda: filled(b"?FILE F KEY 4\n", b"AAAA\n", b"?END\n")
    yield "wide_records", lambda: numbered(b"?FILE F KEY 7\n", b"#" + b"A" * 3990 + b"\n", 4200)
    yield "entries", full_entries
    yield "pairs", full_pairs
    yield "one_entry", lambda: filled(b"?ENTRIES T1\nF1", b" A=", b"\n?END\n")
    yield "failures", lambda: filled(PAIRS + b"?FAIL\n", b"TCP TCP-1 PRIMARY AFTER 1\n", b"?END\n")


def of_logs(deck):
    """Logs as long as they may be after a deck without a fault."""
    log = deck[: deck.rindex(b"?END")] + b"?LOG\n"
    header = log + b"PATHWAY LOG 2\n"
    yield "log_shows", lambda: shows(header, 500000)
    yield "log_of_version_1", lambda: shows(log, 500000)
    yield "log_too_long", lambda: shows(header, 500001)
    yield "log_words", lambda: filled(header, b"1 COMMIT T1 1\n1 TAKE A 1 T1\n1 FAIL TCP A PRIMARY 1\n", b"?END\n")
    yield "log_of_long_names", lambda: filled(header, b"1 COMMIT " + b"T" * 3000 + b" 1\n", b"?END\n")


def of_scripts(deck):
    """Disc scripts after a deck without a fault."""
    yield "lines_of_the_disc", lambda: filled(deck, b"DISC PRIMARY HELD 1\n", b"")
    yield "no_lines_of_the_disc", lambda: filled(deck, b"\n", b"")
    yield "one_line_of_the_disc", lambda: filled(deck, b"D", b"")
    yield "most_lines_of_the_disc", lambda: deck + b"DISC BACKUP AFTER 0\nDISC PRIMARY HELD 500000\n" * 32


def of_schedules():
    """Schedules of as many lines as may stand."""
    starts = b"START 1 2 3 4 5 6 7 8\n"
    delivered = b"".join(b"DELIVER %d\n" % n for n in range(1, 8751))
    yield "too_many_starts", lambda: b"SYSTEMS 8\n" + b"START 1 2\n" * 800000
    yield "starts", lambda: b"SYSTEMS 8\n" + starts * 10000
    yield "delivered", lambda: b"SYSTEMS 8\n" + starts * 1250 + delivered
    yield "answered", lambda: b"SYSTEMS 8\n" + starts * 300 + b"".join(b"DELIVER %d\n" % n for n in range(1, 9701))
    yield "delivered_again", lambda: b"SYSTEMS 8\n" + starts * 5000 + b"DELIVER 1\n" * 5000
    yield "restarts", lambda: b"SYSTEMS 8\n" + starts * 5000 + b"RESTART 1\n" * 5000
    yield "asks", lambda: b"SYSTEMS 8\n" + starts * 2 + b"DELIVER 1\n" + b"ASK 2 1 1\n" * 9997


def large(command, deck):
    """The large inputs of a command. The deck is one without a fault."""
    yield from of_any_command()
    if command == "expand":
        yield from of_schedules()
        return
    yield from of_sections()
    yield from of_logs(deck)
    if command == "disc":
        yield from of_scripts(deck)
    if command in ("check", "run"):
        yield from of_procedures()
        yield from of_data()
