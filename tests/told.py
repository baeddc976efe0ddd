"""What tools/summary tells of stored reports and of reports that are made up here, worked out by hand."""

# Whole pages, and stories, worked out by hand from the reports that are named.
PAGES = {
    # The primary fails with an order about to be committed; two orders are aborted, one for a number that is taken.
    "decks/takeover.out": """LOG: 70 entries, FINISHED
ENDINGS: 1 STOPPED
UNITS: 1 committed, 2 backed out, 0 left, 1 restarted
RESTARTS: 1 TAKEOVER
  terminals: T1 (1)
  units: T1 unit 1 (1)
FAILURES: 1
  The primary of TCP-1 failed at entry 20 (failure line 1); its backup took over at entry 21 and restarted T1 unit 1.
FAILED OPERATIONS: 1
  1 ORDER-SRV WRITE ORDERS 10, a record of this key is there already; first at entry 63, for T1 unit 3
MESSAGES ON ROW 24, once for each unit: 3
  1 ENTERED
  1 NOT ENOUGH IN STOCK
  1 NUMBER TAKEN
""",
    # A process fails after its TAKE. The unit is one SEND, so no COMMIT entry tells that it is committed.
    "decks/server_fails.out": """LOG: 19 entries, FINISHED
ENDINGS: 1 NOENTRIES
UNITS: 1 committed, 0 backed out, 0 left, 1 restarted
RESTARTS: 1 SERVER
  terminals: T1 (1)
  units: T1 unit 1 (1)
FAILURES: 1
  Process 1 of STORE failed at entry 10 (failure line 1), which restarted T1 unit 1.
FAILED OPERATIONS: none
MESSAGES ON ROW 24, once for each unit: 1
  1 00000000A10006
""",
    "decks/suspended.out": """LOG: 26 entries, FINISHED
ENDINGS: 1 SUSPENDED
  SUSPENDED: T1 (REDO)
UNITS: 0 committed, 0 backed out, 1 left, 1 restarted
  left: T1 unit 1
RESTARTS: 1 REDO
  terminals: T1 (1)
  units: T1 unit 1 (1)
FAILURES: none
FAILED OPERATIONS: none
MESSAGES ON ROW 24, once for each unit: 1
  1 00000000A10006
""",
    # The primary fails, and fails once more before the new backup has its terminal.
    "viewer/reports/pair_lost_while_raising.report": """LOG: 23 entries, FINISHED
ENDINGS: 1 LOST
  LOST: T1
UNITS: 1 committed, 0 backed out, 0 left, 0 restarted
RESTARTS: none
FAILURES: 2
  The primary of TCP-1 failed at entry 19 (failure line 1); its backup took over at entry 20 and restarted nothing.
  The primary of TCP-1 failed at entry 22 (failure line 2); the pair was lost, and T1 with it.
FAILED OPERATIONS: none
MESSAGES ON ROW 24, once for each unit: 1
  1 00000000A10006
""",
    # Three terminals take from one stock: entries 30, 35 and 55 are RESTART.
    "viewer/reports/orders.report": """LOG: 111 entries, FINISHED
ENDINGS: 3 STOPPED
UNITS: 4 committed, 1 backed out, 0 left, 3 restarted
RESTARTS: 3 OLDER
  terminals: T2 (2), T1 (1)
  units: T2 unit 1 (2), T1 unit 1 (1)
  in the way: T3 unit 1, of T1 unit 1 (1), T2 unit 1 (1)
  in the way: T1 unit 1, of T2 unit 1 (1)
FAILURES: none
FAILED OPERATIONS: none
MESSAGES ON ROW 24, once for each unit: 5
  4 ORDER TAKEN
  1 NOT ENOUGH
""",
    "decks/kept_reply.out": """LOG: 21 entries, FINISHED
ENDINGS: 1 NOENTRIES
UNITS: 1 committed, 0 backed out, 0 left, 0 restarted
RESTARTS: none
FAILURES: 1
  The primary of TCP-1 failed at entry 14 (failure line 1); its backup took over at entry 15 and restarted nothing.
SHOWN AGAIN: T1 2.0.1
REPLIES AGAIN: T1 unit 1
FAILED OPERATIONS: none
MESSAGES ON ROW 24, once for each unit: 1
  1 00000000A10006
""",
    # The log of version 1 of a run without restarts that are allowed: T2 is suspended, T1 goes on when the log stops.
    "decks/examples/suspended_version_1_limit_0.out": """LOG: 19 entries, UNFINISHED
ENDINGS: 1 SUSPENDED
  SUSPENDED: T2 (OLDER T1 1)
  not ended: T1
UNITS: 0 committed, 0 backed out, 2 left, 0 restarted
  left: T2 unit 1, T1 unit 1
RESTARTS: none
  in the way: T1 unit 1, of T2 unit 1 (1)
FAILURES: none
FAILED OPERATIONS: none
MESSAGES ON ROW 24, once for each unit: none
""",
}
STORIES = {
    ("viewer/reports/orders.report", "T2"): """\
T2 of TCP-1: STOPPED at entry 111; entry lines taken: 2; screens shown: 2; units: 1 committed, 0 backed out, 0 left, 2 restarted
  1 RAISE TCP-1
  10 SHOW T2 0.0.1
  15 KEY T2 1
  25 BEGIN T2 1 0
  35 RESTART T2 1 OLDER T3 1
  41 BEGIN T2 1 1
  53 REPLY STOCK-SRV 1 T2 OK: READ STOCK, REWRITE STOCK
  55 RESTART T2 1 OLDER T1 1
  80 BEGIN T2 1 2
  87 REPLY STOCK-SRV 1 T2 OK: READ STOCK, REWRITE STOCK
  95 REPLY ORDER-SRV 1 T2 OK: WRITE ORDERFILE
  104 COMMIT T2 1
  106 SHOW T2 2.0.1: ORDER TAKEN
  109 KEY T2 2
  111 END T2 STOPPED
""",
    # Process 1 of STOCK-SRV and of ORDER-SRV work for others in between.
    ("viewer/reports/orders.report", "t1", "1"): """T1 unit 1: committed; restarted by OLDER T3 1
  16 CHECK T1 START
  22 APPLIED T1
  23 BEGIN T1 1 0
  24 SEND T1 1 STOCK-SRV
  26 TAKE STOCK-SRV 2 T1
  30 RESTART T1 1 OLDER T3 1
  47 BEGIN T1 1 1
  48 SEND T1 1 STOCK-SRV
  49 TAKE STOCK-SRV 2 T1
  56 FILE STOCK-SRV 2 READ S STOCK 0
  59 FILE STOCK-SRV 2 REWRITE X STOCK 0
  61 REPLY STOCK-SRV 2 T1 OK
  62 SEND T1 1 ORDER-SRV
  64 TAKE ORDER-SRV 1 T1
  66 FILE ORDER-SRV 1 WRITE X ORDERFILE 0
  67 REPLY ORDER-SRV 1 T1 OK
  73 CHECK T1 END
  74 APPLIED T1
  75 COMMIT T1 1
""",
    # The units are one SEND each: that of entry 16 begins with the checkpoint of entry 14 and ends with its reply.
    ("decks/files.out", "T1", "2"): """T1 unit 2: committed
  14 CHECK T1 START
  15 APPLIED T1
  16 BEGIN T1 2 0
  17 SEND T1 2 STORE
  18 TAKE STORE 1 T1
  19 FILE STORE 1 DELETE X STOCK 11
  20 REPLY STORE 1 T1 OK
""",
    ("decks/kept_reply.out", "T1"): """\
T1 of TCP-1: NOENTRIES at entry 21; entry lines taken: 1; screens shown: 1; units: 1 committed, 0 backed out, 0 left, 0 restarted
  1 RAISE TCP-1
  4 KEY T1 1
  7 BEGIN T1 1 0
  12 REPLY STORE 1 T1 OK: READ STOCK, REWRITE STOCK
  13 SHOW T1 2.0.1: 00000000A10006
  14 FAIL TCP TCP-1 PRIMARY 1
  15 TAKEOVER TCP-1
  16 RAISE TCP-1
  19 AGAIN T1 1
  20 SHOW T1 2.0.1: again, 00000000A10006
  21 END T1 NOENTRIES
""",
}


def made_up(blocks, log, end="FINISHED"):
    """A report of these blocks and entries, without screens."""
    entries = "".join(f"{number} {entry}\n" for number, entry in enumerate(log.split(","), 1))
    serial = blocks.replace(",", "\n")
    return f"SERIAL\n{serial}\nSCREENS\nFILES\nFILE F\nLOG\nPATHWAY LOG 2\n{entries}{end}\n".encode()


# Two pairs, of which one is lost. Process 2 fails when T2 has restarted, and works for nobody; the backup of P1 fails when there
# is none; T1 may restart once. Then the page and the deck.
TWO_PAIRS = made_up(
    "UNIT T2 1 RESTART,UNIT T1 1 RESTART,UNIT T1 1 LEFT,DONE T1 SUSPENDED SERVER 4,UNIT T2 1 LEFT,DONE T2 FAULT 204,DONE T3 LOST",
    "RAISE P1,RAISE P2,CHECK T1 COPY,CHECK T2 COPY,CHECK T3 COPY,APPLIED T1,APPLIED T2,APPLIED T3,CHECK T1 START,APPLIED T1,"
    "BEGIN T1 1 0,CHECK T2 START,APPLIED T2,BEGIN T2 1 0,SEND T1 1 C,SEND T2 1 C,TAKE C 1 T1,TAKE C 2 T2,FILE C 1 READ X F 0,"
    "RESTART T2 1 OLDER T1 1,FAIL SERVER C 2 1,FAIL TCP P1 PRIMARY 2,TAKEOVER P1,FAIL TCP P1 BACKUP 3,"
    "RESTART T1 1 TAKEOVER P1,RAISE P1,CHECK T1 COPY,APPLIED T1,CHECK T2 COPY,APPLIED T2,BEGIN T1 1 1,SEND T1 1 C,TAKE C 1 T1,"
    "FAIL SERVER C 1 4,END T1 SUSPENDED SERVER 4,BEGIN T2 1 1,SEND T2 1 C,TAKE C 1 T2,FILE C 1 READ X F 11,"
    "REPLY C 1 T2 FAULT 204,END T2 FAULT 204,FAIL TCP P2 PRIMARY 5,FAIL TCP P2 BACKUP 6,END T3 LOST",
)
TWO_PAIRS_PAGE = """LOG: 44 entries, FINISHED
ENDINGS: 1 SUSPENDED, 1 FAULT 204, 1 LOST
  SUSPENDED: T1 (SERVER 4)
  FAULT 204: T2
  LOST: T3
UNITS: 0 committed, 0 backed out, 2 left, 2 restarted
  left: T1 unit 1, T2 unit 1
RESTARTS: 1 OLDER, 1 TAKEOVER
  terminals: T2 (1), T1 (1)
  units: T2 unit 1 (1), T1 unit 1 (1)
  in the way: T1 unit 1, of T2 unit 1 (1)
FAILURES: 6
  Process 2 of C failed at entry 21 (failure line 1), which restarted nothing.
  The primary of P1 failed at entry 22 (failure line 2); its backup took over at entry 23 and restarted T1 unit 1.
  The backup of P1 failed at entry 24 (failure line 3); a new backup was raised at entry 26.
  Process 1 of C failed at entry 34 (failure line 4), which restarted nothing and suspended T1.
  The primary of P2 failed at entry 42 (failure line 5); the other member failed too, at entry 43.
  The backup of P2 failed at entry 43 (failure line 6); the pair was lost, and T3 with it.
FAILED OPERATIONS: 2
  1 C READ F 11, there is no such record; first at entry 39, for T2 unit 1
  1 C FAULT 204; first at entry 40, for T2 unit 1
MESSAGES ON ROW 24, once for each unit: none
"""
TWO_PAIRS_DECK = """?pathcom
* SET TERM TCP P9
ADD SERVER C
ADD  tcp p1
ADD TCP P2
SET TERM TCP p1
ADD TERM T1
ADD TERM t2
SET TERM TCP P2
ADD TERM T3
?SCREEN-COBOL P
SET TERM TCP P8
ADD TERM T3
?FAIL
SERVER C 2 AFTER 3

TCP p1 PRIMARY AFTER 14
TCP P1 BACKUP AFTER 16
SERVER C 1 AFTER 5
TCP P2 PRIMARY AFTER 3
TCP P2 BACKUP AFTER 4
TCP P2 PRIMARY AFTER 9
?END
TCP P2 PRIMARY AFTER 1
"""
# Process 1 fails when the primary of P1, for whose T1 it worked, has failed; and the backup of P2 when its T2 has ended.
CANCELLED = made_up(
    "OUT T2,DONE T2 NOENTRIES,UNIT T1 1 RESTART",
    "RAISE P1,RAISE P2,CHECK T1 COPY,CHECK T2 COPY,APPLIED T1,APPLIED T2,CHECK T1 START,APPLIED T1,BEGIN T1 1 0,SEND T1 1 C,"
    "TAKE C 1 T1,FILE C 1 READ X F 0,FAIL TCP P1 PRIMARY 1,KEY T2 1,FAIL SERVER C 1 2,END T2 NOENTRIES,FAIL TCP P2 BACKUP 3,"
    "TAKEOVER P1,RESTART T1 1 TAKEOVER P1",
    "UNFINISHED",
)
CANCELLED_STORIES = {
    ("T1",): """T1 of P1: not ended; entry lines taken: 0; screens shown: 0; units: 0 committed, 0 backed out, 0 left, 1 restarted
  1 RAISE P1
  9 BEGIN T1 1 0
  13 FAIL TCP P1 PRIMARY 1
  18 TAKEOVER P1
  19 RESTART T1 1 TAKEOVER P1: READ F
""",
    ("T2",): """\
T2 of P2: NOENTRIES at entry 16; entry lines taken: 1; screens shown: 0; units: 0 committed, 0 backed out, 0 left, 0 restarted
  2 RAISE P2
  14 KEY T2 1
  16 END T2 NOENTRIES
""",
    ("T1", "1"): """T1 unit 1: restarted and not begun again; restarted by TAKEOVER P1
  7 CHECK T1 START
  8 APPLIED T1
  9 BEGIN T1 1 0
  10 SEND T1 1 C
  11 TAKE C 1 T1
  12 FILE C 1 READ X F 0
  13 FAIL TCP P1 PRIMARY 1
  18 TAKEOVER P1
  19 RESTART T1 1 TAKEOVER P1
""",
}
# What the page of decks/takeover.out tells, as JSON.
TAKEOVER = {
    "entries": 70, "finished": True, "endings": {"T1": "STOPPED"}, "not_ended": [],
    "attempts": {"committed": 1, "backed_out": 2, "left": 0, "restarted": 1}, "left": [],
    "restarts": [{"entry": 22, "terminal": "T1", "unit": 1, "cause": "TAKEOVER TCP-1"}], "in_the_way": [],
    "failures": [{"entry": 20, "line": 1, "pair": "TCP-1", "member": "PRIMARY", "next": {"kind": "TAKEOVER", "entry": 21},
                  "restarted": [{"terminal": "T1", "unit": 1}], "suspended": []}],
    "shown_again": [], "replies_again": [],
    "failed_operations": [{"server": "ORDER-SRV", "operation": "WRITE", "file": "ORDERS", "status": 10, "times": 1,
                           "first": {"entry": 63, "terminal": "T1", "unit": 3}}],
    "messages": [{"message": "ENTERED", "units": 1}, {"message": "NOT ENOUGH IN STOCK", "units": 1}, {"message": "NUMBER TAKEN", "units": 1}],
}  # fmt: skip
