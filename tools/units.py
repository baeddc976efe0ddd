"""Whose work the entries of a log are: of which terminal, and of which of its units."""
import collections, re

# Entries that a terminal makes only while the backup of its pair has it.
STEPS = {"SHOW", "KEY", "BEGIN", "SEND", "AGAIN", "COMMIT", "BACK"}


def in_order(names):
    """Names in the order of the alphabet, numbers in them by their value: T2 stands in front of T10."""
    return sorted(names, key=lambda name: [part.zfill(30) for part in re.split("([0-9]+)", name)])


def title_of(terminal, unit):
    """How a unit is named, or a terminal that is outside its units."""
    return f"{terminal} unit {unit}" if unit else terminal


def terminals_in(entries):
    return in_order({entry.terminal for entry in entries if entry.terminal})


def cause_of(entry):
    """The words of the cause of a RESTART, or of an END that is SUSPENDED; none of any other entry."""
    if entry.ending and entry.ending.startswith("SUSPENDED "):
        return entry.ending.split(" ")[1:]
    return entry.cause.split(" ") if entry.cause else []


def pairs_told(entries):
    """The pair of each terminal, as far as the log tells it: where there is one pair alone that it may be of. A report says no
    more; its deck does."""
    may_be = dict.fromkeys(terminals_in(entries), {entry.pair for entry in entries if entry.pair})
    # The pairs whose new backup may take terminals in, or has all of them: with those that it has been sent.
    copied = {}
    for entry in entries:
        cause = cause_of(entry)
        if entry.kind == "RAISE":
            copied[entry.pair] = set()
        elif entry.pair:
            copied.pop(entry.pair, None)
        elif entry.point == "COPY":
            # A backup is sent a terminal once.
            may_be[entry.terminal] = may_be[entry.terminal] & {pair for pair in copied if entry.terminal not in copied[pair]}
            for sent in copied.values():
                sent.add(entry.terminal)
        elif entry.kind in STEPS:
            may_be[entry.terminal] = may_be[entry.terminal] & {pair for pair in copied if entry.terminal in copied[pair]}
        elif entry.ending == "LOST":
            may_be[entry.terminal] = may_be[entry.terminal] - copied.keys()
        elif cause[:1] == ["TAKEOVER"]:
            may_be[entry.terminal] = {cause[1]}
    return {terminal: min(pairs) for terminal, pairs in may_be.items() if len(pairs) == 1}


def single_sends(report):
    """The units that are one SEND: they are committed, and no COMMIT entry says it."""
    committed = {(terminal, unit) for terminal, unit, how in report.units if how == "COMMIT"}
    return committed - {(entry.terminal, entry.unit) for entry in report.entries if entry.kind == "COMMIT"}


class Work:
    """Reads the entries of a log in order. It keeps which unit of each terminal is open, and whom each process works for."""

    def __init__(self, report):
        self.pairs, self.single = pairs_told(report.entries), single_sends(report)
        self.open, self.ended, self.checked, self.at_work = {}, collections.Counter(), {}, {}

    def read(self, entry):
        """The terminal and the unit that an entry belongs to; none where it is a pair's or an idle process's, or outside units."""
        terminal = self.terminal_of(entry)
        unit = self.unit_of(entry, terminal)
        self.go_on(entry, terminal, unit)
        return terminal, unit

    def terminal_of(self, entry):
        if entry.kind in ("FILE", "FAIL SERVER"):
            return self.at_work.get((entry.server, entry.process))
        return entry.terminal

    def unit_of(self, entry, terminal):
        """A checkpoint in front of a unit belongs to it too."""
        if entry.unit is not None:
            return entry.unit
        if entry.point == "START":
            return self.ended[terminal] + 1
        return (self.checked if entry.kind == "APPLIED" else self.open).get(terminal)

    def go_on(self, entry, terminal, unit):
        """What an entry changes."""
        kind, process = entry.kind, (entry.server, entry.process)
        if kind == "TAKE":
            self.at_work[process] = terminal
        elif kind in ("REPLY", "FAIL SERVER"):
            self.at_work.pop(process, None)
        elif kind == "CHECK":
            self.checked[terminal] = unit
        elif kind == "BEGIN":
            self.open[terminal] = unit
        elif kind in ("RESTART", "END"):
            self.withdraw({terminal})
        elif entry.member == "PRIMARY":
            self.withdraw({it for it, pair in self.pairs.items() if pair == entry.pair})
        if kind in ("COMMIT", "BACK") or kind == "REPLY" and (terminal, unit) in self.single:
            self.ended[terminal] = self.open.pop(terminal, unit)

    def withdraw(self, terminals):
        """The requests of these terminals are cancelled, and the processes that worked for them are free."""
        self.at_work = {process: it for process, it in self.at_work.items() if it not in terminals}
