"""Which answers a command may give where its source and its sink are sound and memory is ample."""

import re

STATUSES = {
    "run": {0, 1, 2, 3}, "trial": {0, 1, 3}, "check": {0, 2}, "verify": {0, 2, 8}, "gen": {0}, "disc": {0, 1, 2, 3, 9},
    "trail": {0, 1, 2, 3}, "status": {0, 2, 8}, "expand": {0, 2},
}
LONGEST = 2**24
USAGE = re.compile(rb"USAGE: pathway [a-z|]+( \[--[a-z]+ N\])+\n")
NO_STEP = re.compile(rb"NOT A STEP [1-9][0-9]*\n")
DECK_FAULT = re.compile(rb"DECK FAULT LINE [0-9]+ CODE 1[0-9]{2} [A-Z ]+\n")
SCHEDULE_FAULT = re.compile(rb"SCHEDULE FAULT LINE [0-9]+\n")
END_LINE = re.compile(rb"(?im)^\?END *\r?$")
LOG_SECTION = re.compile(rb"(?im)^\?LOG *\r?\n([^?\n].*\n|\n)*")
# a line of the disc script by which both members may be lost
LOSES_BOTH = re.compile(rb"(?m)^DISC (PRIMARY|BACKUP) AFTER [0-9]+\r?\n([ ]*\r?\n)*DISC PRIMARY AFTER [0-9]+\r?$")


def with_log(deck, report):
    """A deck without a fault, with the log of its report as its only log."""
    front = LOG_SECTION.sub(b"", deck[: END_LINE.search(deck).start()])
    log = report[report.rindex(b"\nLOG\n") + 5:].rpartition(b"\n")[0].rpartition(b"\n")[0]
    return front + b"?LOG\n" + log + b"\n?END\n"


def is_run_of(call, deck, answer):
    """Whether an answer is the report of a run of the deck: its log, replayed, has the same report, unless the deck is
    too long with it."""
    if answer.status not in (0, 1, 3) or b"\nLOG\n" not in answer.text:
        return False
    logged = with_log(deck, answer.text)
    again = call([b"verify"], logged)
    if len(logged) > LONGEST:
        return again.status == 2 and again.text.startswith(b"DECK FAULT LINE 0 CODE 190 ")
    return (again.status, again.text) == (0, answer.text)


def is_report(text, ends):
    """Whether a text may be a report with one of these last lines."""
    return text.startswith(b"SERIAL\n") and text.endswith(tuple(b"\n" + end + b"\n" for end in ends))


def is_own_text(command, status, text):
    """Whether a text may be that of a command that was done."""
    if command in ("run", "disc"):
        return is_report(text, [b"UNFINISHED" if status == 3 else b"FINISHED"])
    if command == "verify":
        return is_report(text, [b"FINISHED", b"UNFINISHED"])
    if command in ("trial", "trail"):
        return text.startswith(b"FILES\n") and text.endswith(b"\n")
    if command == "check":
        return text == b"DECK OK\n"
    if command == "gen":
        return text.startswith(b"?PATHCOM\n") and text.endswith(b"\n?END\n")
    if command == "status":
        return text.startswith(b"ENTRIES ") and text.rpartition(b"\nTMF BEGUN ")[2].count(b"\n") == 1
    return text == b"" or text.startswith((b"SENT 1 ", b"MARK ")) and text.endswith(b"\n")


def is_text_of(command, status, text):
    """Whether a text may be that of a status."""
    if status == 7:
        return USAGE.fullmatch(text) is not None
    if status == 8:
        return NO_STEP.fullmatch(text) is not None
    if status == 2:
        return (SCHEDULE_FAULT if command == "expand" else DECK_FAULT).fullmatch(text) is not None
    if status in (4, 5, 6, 9):
        return text == b""
    return is_own_text(command, status, text)


def fault_of(command, are_plain, data, answer):
    """What is wrong with an answer, or nothing. Plain words are those that a command takes."""
    status = answer.status
    if status is None:
        return f"has not ended with {answer.processor:.0f} s of the processors, within {answer.clock:.0f} s"
    if status < 0:
        return f"died by signal {-status}"
    if status not in STATUSES[command] and (are_plain or status != 7):
        return f"has status {status}"
    if status == 9 and not LOSES_BOTH.search(data):
        return "has status 9, though no two lines of its script lose both members"
    if not is_text_of(command, status, answer.text):
        return f"has status {status} and another text: {answer.text[:60]!r}"
    return None
