"""The story of a terminal, and the entries of one of its units."""
import collections
import reports, units

# The entries of a pair, which are part of the story of each of its terminals.
OF_PAIR = {"FAIL TCP", "TAKEOVER", "RAISE"}
# The entries that the story of a terminal leaves out: checkpoints, and what the reply of a request tells.
LEFT_OUT = {"CHECK", "APPLIED", "SEND", "TAKE", "FILE"}
FATES = {"COMMIT": "committed", "DROP": "backed out", "LEFT": "left", "RESTART": "restarted and not begun again"}


def entries_of(report, terminal):
    """The entries of a terminal, of its processes and, up to its end, of its pair, each with the unit that it belongs to, if it
    does. Where the log does not tell the pair, those of each pair are there."""
    work = units.Work(report)
    ended = False
    for entry in report.entries:
        whose, unit = work.read(entry)
        if entry.kind in OF_PAIR and not ended and work.pairs.get(terminal, entry.pair) == entry.pair:
            yield entry, work.open.get(terminal)
        elif whose == terminal:
            yield entry, unit
            ended = entry.kind == "END"


class Remarks:
    """What stands after the entries of a terminal: the message of a screen, and the file operations of a request, with their
    status where it is not 0, at the entry that ends it."""

    def __init__(self, report):
        self.messages, self.shown, self.done = report.messages, set(), []

    def of(self, entry):
        if entry.kind == "SHOW":
            return self.of_screen(entry.terminal, entry.refresh)
        if entry.kind == "FILE":
            self.done.append(f"{entry.operation} {entry.file}" + (f" {entry.status}" if entry.status else ""))
        elif entry.kind in ("REPLY", "RESTART", "FAIL SERVER", "END"):
            done, self.done = self.done, []
            return ", ".join(done)
        return ""

    def of_screen(self, *screen):
        again = ["again"] if screen in self.shown else []
        self.shown.add(screen)
        return ", ".join(again + [self.messages[screen]] if screen in self.messages else again)


def told(entry, remark):
    return f"  {entry.number} {entry.words}" + (f": {remark}" if remark else "")


def story(report, terminal):
    """What a terminal did: a line about it, and its entries without its checkpoints and requests, each with its remark. Replies
    tell what the servers did."""
    entries = [entry for entry, _ in entries_of(report, terminal)]
    remarks = Remarks(report)
    rows = [(entry, remarks.of(entry)) for entry in entries]
    return head_of(report, terminal, entries), [row for row in rows if row[0].kind not in LEFT_OUT]


def head_of(report, terminal, entries):
    """How a terminal ended, and what it did in numbers. Where the log does not tell its pair, each one is named."""
    pairs = units.in_order({entry.pair for entry in report.entries if entry.pair})
    pair = units.pairs_told(report.entries).get(terminal) or " or ".join(pairs)
    ending = next((f"{entry.ending} at entry {entry.number}" for entry in entries if entry.kind == "END"), "not ended")
    taken = len({entry.key for entry in entries if entry.kind == "KEY"})
    screens = len({entry.refresh for entry in entries if entry.kind == "SHOW"})
    done = f"entry lines taken: {taken}; screens shown: {screens}; units: {attempts(report, terminal)}"
    return f"{terminal} of {pair}: {ending}; {done}"


def attempts(report, terminal=None):
    """How the attempts of units ended, of a terminal or of all."""
    hows = collections.Counter(how for whose, _, how in report.units if terminal in (None, whose))
    return f"{hows['COMMIT']} committed, {hows['DROP']} backed out, {hows['LEFT']} left, {hows['RESTART']} restarted"


def unit_story(report, terminal, unit):
    """A line about a unit of a terminal, and all its entries, with its servers' work, each with its remark."""
    entries = [entry for entry, number in entries_of(report, terminal) if number and str(number) == unit]
    if not entries:
        numbers = sorted({number for whose, number, _ in report.units if whose == terminal})
        there = ", ".join(map(str, numbers)) or "none"
        raise reports.Refused(f"{terminal} has no unit {unit} in {report.title}; it has {there}")
    hows = [how for whose, number, how in report.units if (whose, str(number)) == (terminal, unit)]
    causes = ", ".join(entry.cause for entry in entries if entry.kind == "RESTART")
    fate = FATES[hows[-1]] if hows else "not begun"
    head = f"{units.title_of(terminal, unit)}: {fate}" + (f"; restarted by {causes}" if causes else "")
    remarks = Remarks(report)
    return head, [(entry, remarks.of(entry) if entry.kind == "SHOW" else "") for entry in entries]
