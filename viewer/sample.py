#!/usr/bin/env python3
"""Writes the report of a large run that was made up, to try the viewer on: no program ran.

    viewer/sample.py ENTRIES [TERMINALS [SEED]] > run.report

Its lines are those of a report, and its parts go with each other: the log has all kinds of entry, failures, takeovers and each
kind of ending; the serial order is that of the log; each screen that is shown stands in SCREENS. What servers read and write,
and the files, mean nothing.
"""
import random
import sys

PAIRS, CLASSES, PROCESSES = 4, ("STOCK-SRV", "ORDER-SRV", "PRICE-SRV"), 4


class Terminal:
    def __init__(self, number):
        self.name, self.pair = f"T{number}", f"TCP-{(number - 1) % PAIRS + 1}"
        self.unit = self.tries = self.keys = self.shown = 0
        self.birth = None          # the entry at which the open unit began, or None where no attempt runs
        self.cause = None          # why the attempt has to go back
        self.job = None            # the process at work for it
        self.outside = []          # what it did outside units since the last checkpoint: a takeover repeats it
        self.is_live = True
        self.wanted = "STOPPED"


class Run:
    """The log of a made-up run, written entry by entry by its terminals, each of which is a generator."""

    def __init__(self, entries, terminals, seed):
        self.entries, self.draw = entries, random.Random(seed)
        self.log, self.serial, self.screens = [], [], {}
        self.terminals = [Terminal(number) for number in range(1, terminals + 1)]
        self.free = {name: list(range(1, PROCESSES + 1)) for name in CLASSES}
        for terminal, ending in zip(self.terminals[2:], ("NOENTRIES", "FAULT 203", "SUSPENDED")):
            terminal.wanted = ending
        self.failures = 0

    def say(self, *words):
        self.log.append(" ".join(map(str, words)))

    def make(self):
        for pair in range(1, PAIRS + 1):
            self.raise_pair(f"TCP-{pair}")
        working = [self.life(terminal) for terminal in self.terminals]
        due = [(self.entries * part // 8, part) for part in range(1, 7)]
        while working:
            if due and len(self.log) >= due[0][0]:
                self.fail(due.pop(0)[1])
            place = self.draw.randrange(len(working))
            if next(working[place], "ended") == "ended":
                working[place] = working[-1]
                working.pop()

    def raise_pair(self, pair):
        self.say("RAISE", pair)
        for terminal in self.terminals:
            if terminal.pair == pair and terminal.is_live:
                self.say("CHECK", terminal.name, "COPY")
                self.say("APPLIED", terminal.name)

    def fail(self, part):
        """Servers and primaries fail in turn, and at last both members of the second pair."""
        self.failures += 1
        if part % 2:
            name = CLASSES[0]
            self.say("FAIL SERVER", name, 1, self.failures)
            for terminal in self.terminals:
                if terminal.job == (name, 1):
                    terminal.cause = f"SERVER {self.failures}"
            return
        pair = f"TCP-{part // 2}"
        self.say("FAIL TCP", pair, "PRIMARY", self.failures)
        if part == 4:
            self.lose(pair)
            return
        self.say("TAKEOVER", pair)
        for terminal in self.terminals:
            if terminal.pair == pair and terminal.birth is not None:
                self.restart(terminal, f"TAKEOVER {pair}")
        self.raise_pair(pair)
        for terminal in self.terminals:
            if terminal.pair == pair and terminal.is_live:
                self.log += terminal.outside

    def lose(self, pair):
        self.failures += 1
        self.say("FAIL TCP", pair, "BACKUP", self.failures)
        lost = [terminal for terminal in self.terminals if terminal.pair == pair and terminal.is_live]
        for terminal in lost:
            if terminal.birth is not None:
                self.serial.append(f"UNIT {terminal.name} {terminal.unit} LEFT")
                self.let_go(terminal)
                terminal.birth = None
        for terminal in lost:
            terminal.is_live = False
            self.end(terminal, "LOST")

    def end(self, terminal, ending):
        if terminal.birth is not None:
            self.serial.append(f"UNIT {terminal.name} {terminal.unit} LEFT")
            terminal.birth = None
        terminal.is_live = False
        self.say("END", terminal.name, ending)
        self.serial.append(f"DONE {terminal.name} {ending}")

    def let_go(self, terminal):
        if terminal.job:
            self.free[terminal.job[0]].append(terminal.job[1])
            self.free[terminal.job[0]].sort()
            terminal.job = None

    def restart(self, terminal, cause):
        self.say("RESTART", terminal.name, terminal.unit, cause)
        self.serial.append(f"UNIT {terminal.name} {terminal.unit} RESTART")
        self.let_go(terminal)
        terminal.birth, terminal.cause = None, None
        terminal.tries += 1

    def out(self, terminal, entry):
        self.log.append(entry)
        self.serial.append(f"OUT {terminal.name}")
        terminal.outside.append(entry)

    def show(self, terminal, text):
        terminal.shown += 1
        number = f"{2 * terminal.unit}.0.{terminal.shown}"
        self.out(terminal, f"SHOW {terminal.name} {number}")
        rows = [f"01|ORDER ENTRY OF {terminal.name}", f"03|NUMBER {terminal.unit:04}", f"24|{text}"]
        self.screens.setdefault(terminal.name, []).append((number, rows))

    def life(self, terminal):
        self.show(terminal, "READY")
        last = terminal is self.terminals[0]
        while terminal.is_live and len(self.log) < self.entries - 40 * len(self.terminals) // (1 + last):
            yield from self.think(terminal)
            if not terminal.is_live:
                return
            terminal.keys += 1
            self.out(terminal, f"KEY {terminal.name} {terminal.keys}")
            yield from self.think(terminal)
            if not terminal.is_live:
                return
            yield from self.whole_unit(terminal)
            if terminal.is_live:
                self.show(terminal, "ENTERED" if terminal.unit % 5 else "NOT ENOUGH IN STOCK")
        # The first terminal shows screens until the log is as long as is wanted.
        while last and (len(self.log) < self.entries - 1 or any(other.is_live for other in self.terminals[1:])):
            if not any(other.is_live for other in self.terminals[1:]):
                self.show(terminal, "WAITING")
            yield
        if terminal.is_live:
            if terminal.wanted == "SUSPENDED":
                yield from self.suspend(terminal)
            else:
                self.end(terminal, terminal.wanted)

    def think(self, terminal):
        """An operator takes a while, so that lanes are idle now and then."""
        for _ in range(self.draw.randrange(1, 25)):
            if terminal.is_live:
                yield

    def whole_unit(self, terminal):
        terminal.unit, terminal.tries = terminal.unit + 1, 0
        self.say("CHECK", terminal.name, "START")
        yield
        if terminal.is_live:
            self.say("APPLIED", terminal.name)
            terminal.outside = []
        ended = False
        while terminal.is_live and not ended:
            ended = yield from self.attempt(terminal)
        terminal.shown = 0

    def attempt(self, terminal):
        """One attempt of a unit; says whether the unit has ended. After each yield it may have to go back."""
        yield
        if not terminal.is_live:
            return False
        tries = terminal.tries
        self.say("BEGIN", terminal.name, terminal.unit, tries)
        terminal.birth = len(self.log)
        for name in CLASSES[:2] if terminal.unit % 3 else CLASSES[2:]:
            for step in self.request(terminal, name):
                yield
                if not terminal.is_live or terminal.tries != tries:
                    return False
                cause = terminal.cause or self.older(terminal)
                if cause:
                    self.restart(terminal, cause)
                    return False
        if terminal.unit % 3 == 0:     # one SEND alone: it was committed by its reply
            return True
        return (yield from self.settle(terminal, tries))

    def settle(self, terminal, tries):
        for words in (("CHECK", terminal.name, "END"), ("APPLIED", terminal.name)):
            self.say(*words)
            yield
            if not terminal.is_live or terminal.tries != tries:
                return False
        drops = terminal.unit % 5 == 0
        self.say("BACK" if drops else "COMMIT", terminal.name, terminal.unit)
        self.serial.append(f"UNIT {terminal.name} {terminal.unit} {'DROP' if drops else 'COMMIT'}")
        terminal.birth = None
        return True

    def request(self, terminal, name):
        """The steps of one request; each yield is a place where something else may happen."""
        self.say("SEND", terminal.name, terminal.unit, name)
        yield
        while not self.free[name]:
            yield
        process = self.free[name].pop(0)
        terminal.job = (name, process)
        self.say("TAKE", name, process, terminal.name)
        yield
        self.say("FILE", name, process, "READ", "X", "STOCK", 0)
        yield
        self.say("FILE", name, process, "REWRITE", "X", "STOCK", 0)
        yield
        self.say("REPLY", name, process, terminal.name, "OK")
        self.let_go(terminal)
        if name == CLASSES[2]:
            self.serial.append(f"UNIT {terminal.name} {terminal.unit} COMMIT")
            terminal.birth, terminal.outside = None, [f"AGAIN {terminal.name} {terminal.unit}"]

    def older(self, terminal):
        """Now and then an older unit stands in the way."""
        if terminal.birth is None or self.draw.random() > 0.01:
            return None
        other = self.draw.choice(self.terminals)
        if other.birth is None or other.birth >= terminal.birth:
            return None
        return f"OLDER {other.name} {other.unit}"

    def suspend(self, terminal):
        terminal.unit += 1
        self.say("BEGIN", terminal.name, terminal.unit, 0)
        terminal.birth = len(self.log)
        yield
        if terminal.is_live:
            self.end(terminal, "SUSPENDED REDO")

    def lines(self):
        yield "SERIAL"
        yield from self.serial
        yield "SCREENS"
        for name, screens in self.screens.items():
            for number, rows in screens:
                yield f"SCREEN {name} {number}"
                yield from rows
        yield from ("FILES", "FILE STOCK")
        for number in range(1000):
            yield f"|A{number:04}{self.draw.randrange(100000):05}"
        yield from ("LOG", "PATHWAY LOG 2")
        for number, entry in enumerate(self.log, 1):
            yield f"{number} {entry}"
        yield "FINISHED"


def report(entries, terminals=64, seed=1):
    """The text of a report with so many entries and terminals."""
    run = Run(entries, terminals, seed)
    run.make()
    return "\n".join(run.lines()) + "\n"


if __name__ == "__main__":
    sys.stdout.write(report(*map(int, sys.argv[1:])))
