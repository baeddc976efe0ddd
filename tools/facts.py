"""What happened in a run, as the log and the screens of its report tell it: numbers and lists, for a page and for JSON."""
import collections
import units

HOWS = {"COMMIT": "committed", "DROP": "backed_out", "LEFT": "left", "RESTART": "restarted"}
# The entries that tell of failures and of what they brought about.
OF_FAILURES = {"FAIL TCP", "FAIL SERVER", "TAKEOVER", "RAISE", "RESTART", "END"}


def whose(terminal, unit):
    """A unit, or a terminal outside its units."""
    return {"terminal": terminal, "unit": unit} if unit else {"terminal": terminal}


def ranked(counts, name):
    """What was counted, the most first; each a dict that gets its number under a name."""
    return [{**dict(key), name: count} for key, count in counts.most_common()]


def key_of(fact):
    """A dict as something that can be counted."""
    return tuple(fact.items())


def endings(report):
    """How each terminal ended, in the order of the log, and the terminals that have not ended."""
    ended = {entry.terminal: entry.ending for entry in report.entries if entry.kind == "END"}
    return ended, [it for it in units.terminals_in(report.entries) if it not in ended]


def attempts(report):
    """How the attempts of units ended, and which units were left."""
    hows = collections.Counter(how for _, _, how in report.units)
    left = [whose(terminal, unit) for terminal, unit, how in report.units if how == "LEFT"]
    return {name: hows[how] for how, name in HOWS.items()}, left


def restarts(report):
    return [
        {"entry": entry.number, **whose(entry.terminal, entry.unit), "cause": entry.cause}
        for entry in report.entries if entry.kind == "RESTART"
    ]  # fmt: skip


def in_the_way(report):
    """The older units for which others restarted or were suspended, those of the most others first."""
    younger = collections.defaultdict(collections.Counter)
    work = units.Work(report)
    for entry in report.entries:
        terminal, unit = work.read(entry)
        cause = units.cause_of(entry)
        if cause[:1] == ["OLDER"]:
            younger[cause[1], int(cause[2])][key_of(whose(terminal, unit))] += 1
    by_others = sorted(younger.items(), key=lambda it: -sum(it[1].values()))
    return [{**whose(*older), "of": ranked(others, "times")} for older, others in by_others]


class Failures:
    """The failures, with what each brought about."""

    def __init__(self, report):
        self.entries = [entry for entry in report.entries if entry.kind in OF_FAILURES]
        self.pairs = units.pairs_told(report.entries)
        # The entries with a cause, by the number of the last TAKEOVER or FAIL SERVER entry that it names.
        self.hit = collections.defaultdict(list)
        named = {}
        for entry in self.entries:
            if entry.kind == "TAKEOVER":
                named["TAKEOVER", entry.pair] = entry.number
            elif entry.kind == "FAIL SERVER":
                named["SERVER", str(entry.line)] = entry.number
            self.hit[named.get(tuple(units.cause_of(entry)))].append(entry)

    def all(self):
        return [self.told(entry) for entry in self.entries if entry.kind.startswith("FAIL")]

    def told(self, failure):
        """A failure: a process, and what it restarted and suspended; or a member of a pair, and the next entry of the pair."""
        fact = {"entry": failure.number, "line": failure.line}
        if failure.server:
            return {**fact, "server": failure.server, "process": failure.process, **self.struck(failure.number)}
        fact.update(pair=failure.pair, member=failure.member)
        after = next((it for it in self.entries if it.number > failure.number and it.pair == failure.pair), None)
        if not after:
            return {**fact, **self.lost(failure)}
        fact["next"] = {"kind": after.kind, "entry": after.number}
        return {**fact, **self.struck(after.number)} if after.kind == "TAKEOVER" else fact

    def struck(self, number):
        """The units and terminals that an entry restarted and suspended."""
        hit = self.hit[number]
        return {
            "restarted": [whose(it.terminal, it.unit) for it in hit if it.kind == "RESTART"],
            "suspended": [it.terminal for it in hit if it.kind == "END"],
        }

    def lost(self, failure):
        """The terminals that are lost with a pair, and those of which the log does not tell whether they are of this one."""
        lost = [it.terminal for it in self.entries if it.ending == "LOST" and it.number > failure.number]
        return {
            "lost": [it for it in lost if self.pairs.get(it) == failure.pair],
            "perhaps_lost": [it for it in lost if it not in self.pairs],
        }


def again(report):
    """The screens and the replies that came again after a takeover."""
    shown = collections.Counter((entry.terminal, entry.refresh) for entry in report.entries if entry.kind == "SHOW")
    screens = [{"terminal": terminal, "refresh": refresh} for (terminal, refresh), count in shown.items() if count > 1]
    return screens, [whose(entry.terminal, entry.unit) for entry in report.entries if entry.kind == "AGAIN"]


def failed_operation(entry):
    """A file operation with a status other than 0, or a fault of a server; nothing of any other entry."""
    if entry.status:
        return {"server": entry.server, "operation": entry.operation, "file": entry.file, "status": entry.status}
    if entry.answer and entry.answer != "OK":
        return {"server": entry.server, "fault": int(entry.answer.split()[1])}
    return None


def failed_operations(report):
    """The operations that failed by server and file, each with how often and where first."""
    failed, first = collections.Counter(), {}
    work = units.Work(report)
    for entry in report.entries:
        terminal, unit = work.read(entry)
        fact = failed_operation(entry)
        if fact:
            failed[key_of(fact)] += 1
            first.setdefault(key_of(fact), {"entry": entry.number, **whose(terminal, unit)})
    return [{**dict(key), "times": count, "first": first[key]} for key, count in failed.most_common()]


def unit_of(refresh):
    """The unit in which a screen is shown, or after which: 0 before the first one. The first part of its number tells it."""
    return (int(refresh.split(".")[0]) + 1) // 2


def messages(report):
    """The messages on row 24, each with the number of units that showed it. A unit that shows one on several screens counts once."""
    shown = {(message, terminal, unit_of(refresh)) for (terminal, refresh), message in report.messages.items()}
    order = dict.fromkeys(report.messages.values())
    counts = collections.Counter(message for message, _, _ in shown)
    ranks = sorted(order, key=lambda message: -counts[message])
    return [{"message": message, "units": counts[message]} for message in ranks]


def facts_of(report):
    ended, live = endings(report)
    hows, left = attempts(report)
    screens, replies = again(report)
    return {
        "entries": len(report.entries), "finished": report.finished, "endings": ended, "not_ended": live, "attempts": hows, "left": left,
        "restarts": restarts(report), "in_the_way": in_the_way(report), "failures": Failures(report).all(), "shown_again": screens,
        "replies_again": replies, "failed_operations": failed_operations(report), "messages": messages(report),
    }  # fmt: skip
