"""Notes on failure lines that never come due in a run (docs/reference/DECK.md)."""
import re

from explaining.tokens import Token
from explaining.words import counted

OF_CLASS = ("TAKE", "FILE", "REPLY")


def failure_lines(deck):
    """The failure lines, each with the number of its line."""
    return [(number, text) for section in deck.of_kind("FAIL") for number, text in section.lines if text.strip(" ")]


def wants_run(deck):
    """Whether only a run tells of the deck whether its failure lines come due."""
    return bool(failure_lines(deck)) and not deck.of_kind("LOG") and not is_drawn(deck)


def is_drawn(deck):
    """Whether a deck is one of the command gen, which draws its failure lines too: it has the programs of those, and no comment."""
    names = [section.name for section in deck.of_kind("SCREEN-COBOL", "SERVER")]
    return names == ["KEYS", "STORE-P"] and not any(text.startswith("*") for text in deck.lines)


def entries_of(report):
    """The entries of the log of a report, each as its words without the number; none where the run did not finish."""
    lines = report.split("\n")
    if "FINISHED" not in lines or "LOG" not in lines:
        return []
    return [line.split()[1:] for line in lines[lines.index("LOG") + 2 :] if re.match(r"\d+ ", line)]


def owner_of(deck, words):
    """The pair or the class that an entry of a log belongs to."""
    if words[0] in OF_CLASS:
        return f"SERVER {words[1]}"
    if words[0] in ("FAIL", "TAKEOVER", "RAISE"):
        return " ".join(words[1:3]) if words[0] == "FAIL" else f"TCP {words[1]}"
    added = deck.added("TERM").get(words[1])
    pair = deck.values_before("TERM", added.line).get("TCP") if added else None
    return f"TCP {pair.upper}" if pair else ""


def failure_notes(deck, report):
    """The failure lines of which a run has no FAIL entry."""
    entries = entries_of(report)
    struck = {int(words[-1]) for words in entries if words[0] == "FAIL"}
    for place, (number, text) in enumerate(failure_lines(deck), 1):
        if entries and place not in struck:
            words = text.split()
            owner = " ".join(words[:2])
            count = sum(owner_of(deck, it) == owner.upper() for it in entries)
            told = f"in a run with one worker {words[1]} has {counted(count, 'log entry').replace('entrys', 'entries')}"
            yield Token("line", text, number, 1), f"this failure never comes due: {told}, so AFTER {words[-1]} is too late"
