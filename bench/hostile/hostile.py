"""Runs the program on hostile inputs (bench/hostile.sh says what is reported)."""

import argparse
import os
import pathlib
import random
import resource
import sys
import time
from concurrent.futures import ThreadPoolExecutor

import answers
import calls
import hard
import inputs
import large

SECONDS = 10
BYTES = 3 * 1024**3
SEED = 1
WITHOUT_INPUT = ("gen", "trial")
WITH_LOG = ("verify", "status")
WITH_REPORT = ("run", "disc")
NUMBERS = [0, 1, 2, 3, 7, 16, 17, 64, 65, 300, 500000, 500001, 2**32 - 1, 2**32, -1, 10**30]
SCRIPTS = [
    b"DISC PRIMARY AFTER 1\nDISC BACKUP AFTER 3\nDISC PRIMARY HELD 4\n",
    b"DISC PRIMARY HELD 0\nDISC PRIMARY AFTER 2\nDISC PRIMARY AFTER 5\n",
]
OPTIONS = [b"--workers", b"--events", b"--seed", b"--terms", b"--at"]
ODD_WORDS = [
    b"", b"--", b"-", b"x", b"run", b"RUN", b"--help", b"--at", b"--at=", b"--events=+7", b"--workers=1", b"-4", b"\xff",
    b"9" * 5000,
]


def plain_words(command, chance):
    """The words of a call that a command takes."""
    words = [command.encode(), b"--events", b"%d" % chance.choice([1, 7, 60, 300, 2000])]
    if chance.random() < 0.5:
        words += [b"--workers", b"%d" % chance.choice([1, 2, 4, 16])]
    if command in ("status", "trail"):
        words += [b"--at", b"%d" % chance.choice([chance.randint(0, 40), chance.randint(0, 300), 500000])]
    if command in WITHOUT_INPUT:
        words += [b"--seed", b"%d" % chance.randrange(2**32), b"--terms", b"%d" % chance.choice([1, 2, 3, 8, 64])]
    return words


def damaged_words(words, chance):
    """Words some of which may be none of the command's."""
    words = list(words)
    for _ in range(chance.choice([1, 1, 2])):
        place = chance.randint(0, len(words))
        new = chance.choice(ODD_WORDS)
        words[place:place] = [chance.choice(OPTIONS), b"%d" % chance.choice(NUMBERS)] if chance.random() < 0.5 else [new]
    return words


class Runner:
    """Runs one program, and keeps what it found."""

    def __init__(self, program, patience, keep, tells):
        self.tells = tells
        self.program = program
        self.patience = patience
        self.keep = keep
        self.found = 0
        self.forget()

    def forget(self):
        """Begins anew with the slowest and the largest run."""
        self.runs = 0
        self.slowest = (0.0, "")
        self.largest = (0, "")

    def call(self, words, data):
        return calls.call(self.program, words, data, self.patience)

    def run(self, command, name, words, are_plain, data):
        """One run, whose answer is reported where it is none that the command may give."""
        name = f"{command}_{name}"
        answer = self.call(words, data)
        fault = answers.fault_of(command, are_plain, data, answer)
        if fault is None and answer.seconds > SECONDS:
            fault = f"took {answer.seconds:.1f} s"
        if fault is None and command in WITH_REPORT and len(answer.text) < calls.HALF and answer.status in (0, 1, 3):
            fault = None if answers.is_run_of(self.call, data, answer) else "has a report that its log has not, replayed"
        if fault is None and answer.held > BYTES:
            fault = f"held {answer.held // 2**20} MiB"
        if self.tells:
            print(f"  {name}: status {answer.status}, {answer.seconds:.2f} s, {answer.held // 2**20} MiB\n", end="", flush=True)
        self.runs += 1
        self.slowest = max(self.slowest, (answer.seconds, name))
        self.largest = max(self.largest, (answer.held, name))
        if fault:
            self.found += 1
            print(f"{name}: pathway {b' '.join(words)[:200]!r} {fault}\n", end="", flush=True)
            if self.keep:
                (self.keep / name).write_bytes(data)

    def takes(self, command):
        """Whether the program takes a command."""
        return self.call([command], b"?END\n").status != 7

    def tell(self, command, kind, began):
        print(
            f"{command}: {self.runs} {kind} in {time.monotonic() - began:.0f} s; the slowest {self.slowest[0]:.2f} s "
            f"({self.slowest[1]}), the largest {self.largest[0] // 2**20} MiB ({self.largest[1]})", flush=True,
        )
        self.forget()


def logged(runner, deck):
    """A deck with the log of its run, or none where it has no run or a log already."""
    if b"?LOG" in deck:
        return deck
    answer = runner.call([b"run", b"--events", b"200"], deck)
    return answers.with_log(deck, answer.text) if answer.status in (0, 1, 3) else None


def samples_of(runner, folder):
    """The samples of each command."""
    read = lambda form: [path.read_bytes() for path in sorted(folder.rglob(form))]
    decks, schedules = read("*.deck"), read("*.schedule")
    logs = [log for log in (logged(runner, deck) for deck in decks) if log]
    if not logs:
        sys.exit("hostile: no deck has a log")
    scripts = [
        deck + script for deck in decks
        for script in SCRIPTS
    ]
    return {command: decks for command in answers.STATUSES} | {
        "expand": schedules, "verify": logs, "status": logs, "disc": scripts,
    }


def run_damaged(runner, pool, command, samples, numbers):
    """The damaged inputs of these numbers."""
    began = time.monotonic()

    def run_one(number):
        chance = random.Random(f"{SEED} {command} {number}")
        words = plain_words(command, chance)
        are_plain = chance.random() < 0.95
        if not are_plain:
            words = damaged_words(words, chance)
        runner.run(command, number, words, are_plain, inputs.damaged(chance, samples))

    for _ in pool.map(run_one, numbers):
        pass
    runner.tell(command, "damaged inputs", began)


def run_large(runner, pool, command, deck, part):
    """The large inputs of a command whose names have the part."""
    began = time.monotonic()
    words = [command.encode()] + ([b"--at", b"500000"] if command == "status" else [])

    def run_one(each):
        name, made = each
        runner.run(command, name, words, True, made())

    for _ in pool.map(run_one, (each for each in large.large(command, deck) if part in each[0])):
        pass
    runner.tell(command, "large inputs", began)


def run_hard(runner, commands, part):
    """The runs that fill the log, and the logs of those runs, of the decks whose names have the part."""
    began = time.monotonic()
    for made in (made for made in hard.HARD if part in made.__name__):
        name, deck = made.__name__, made()
        for command in ("run", "disc", "trail"):
            if command in commands:
                runner.run(command, name, [command.encode(), b"--events", b"500000"], True, deck)
        if set(WITH_LOG) & set(commands):
            data = whole_log(runner, deck)
        for command in WITH_LOG:
            if command in commands and data:
                runner.run(command, name, [command.encode(), b"--at", b"500000"], True, data)
    runner.tell("hard", "long runs", began)


def whole_log(runner, deck):
    """A deck with the log of its longest run whose report is not above the limit of an input."""
    for events in (500000, 250000, 100000, 10000):
        answer = calls.call(runner.program, [b"run", b"--events", b"%d" % events], deck, runner.patience, half=2**26)
        if answer.status in (0, 1, 3) and b"\nLOG\n" in answer.text:
            data = answers.with_log(deck, answer.text)
            if len(data) <= inputs.MOST_BYTES:
                return data
    return None


def main():
    parser = argparse.ArgumentParser()
    parser.add_argument("--count", type=int, default=10000)
    parser.add_argument("--from", type=int, default=0, dest="first")
    parser.add_argument("--jobs", type=int, default=os.cpu_count())
    parser.add_argument("--patience", type=float, default=60)
    parser.add_argument("--only", choices=sorted(answers.STATUSES), action="append")
    parser.add_argument("--kind", choices=["damaged", "large", "hard"], action="append")
    parser.add_argument("--keep", type=pathlib.Path)
    parser.add_argument("--name", default="")
    parser.add_argument("--each", action="store_true")
    parser.add_argument("--samples", type=pathlib.Path)
    parser.add_argument("--root", type=pathlib.Path)
    parser.add_argument("program", nargs="?")
    given = parser.parse_args()
    resource.setrlimit(resource.RLIMIT_AS, (2 * BYTES, 2 * BYTES))
    runner = Runner(given.program or calls.built(given.root), given.patience, given.keep, given.each)
    if given.keep:
        given.keep.mkdir(parents=True, exist_ok=True)
    kinds = given.kind or ["damaged", "large", "hard"]
    commands = given.only or sorted(answers.STATUSES)
    for command in [command for command in commands if not runner.takes(command)]:
        print(f"{command}: the program does not take it", flush=True)
        commands.remove(command)
    samples = samples_of(runner, given.samples or given.root / "decks")
    sound = (given.root / "decks/hello.deck").read_bytes()
    with ThreadPoolExecutor(given.jobs) as pool:
        for command in commands:
            if "damaged" in kinds:
                run_damaged(runner, pool, command, samples[command], range(given.first, given.first + given.count))
            if "large" in kinds and command not in WITHOUT_INPUT:
                run_large(runner, pool, command, sound, given.name)
    if "hard" in kinds:
        run_hard(runner, commands, given.name)
    print(f"{runner.found} found")
    sys.exit(runner.found != 0)


if __name__ == "__main__":
    main()
