"""Refuses allocations of the program (bench/refused.sh says which, and what is reported)."""

import argparse
import os
import pathlib
import struct
import subprocess
import sys
import tempfile
import time
from concurrent.futures import ThreadPoolExecutor
from typing import NamedTuple

import answers
import calls

HERE = pathlib.Path(__file__).parent
FOUR = ["empty_deck", "hello_deck", "open_unit_is_left", "takeover_after_commit"]
DECK_WORDS = [
    "run --workers 1", "run --workers 4", "check", "verify", "disc --workers 1", "trail --workers 1",
    "trail --workers 1 --at 3", "status --at 10",
]
OTHERS = [
    ("orders.deck", "run --workers 1"), ("contention.deck", "run --workers 4"), ("statements.deck", "run --workers 1"),
    ("called.deck", "run --workers 1"), ("examples/takeover_answers_kept_reply.deck", "run --workers 1"),
    ("examples/pair_lost_while_raising.deck", "run --workers 1"), ("refused.deck", "check"), ("refused.deck", "run"),
    ("generated.deck", "check"), ("examples/orders.deck", "verify"),
    ("examples/span_lock_write_in_span.deck", "verify"), ("examples/trail_recovers_prefix_log.deck", "trail --workers 1"),
    ("examples/orders.deck", "status --at 30"), ("restarted.schedule", "expand"),
    ("examples/prepared_member_asks.schedule", "expand"), (None, "gen --terms 3"), (None, "trial --terms 2"), (None, "expand"),
    (None, "run"), (None, "fly"), (None, "run --at x"),
]
LAST = 2**63


class Refused(NamedTuple):
    """An answer where allocations were refused."""

    answer: calls.Answer
    asked: int
    refused: int


class Case(NamedTuple):
    name: str
    words: list
    data: bytes
    is_whole: bool  # whether each of its allocations is refused, however many they are


def cases_of(decks):
    """The worked examples with each command that reads a deck, and others."""
    for name in FOUR:
        data = (decks / "examples" / f"{name}.deck").read_bytes()
        for words in DECK_WORDS:
            yield Case(f"{words} < {name}", words.split(), data, True)
    for name, words in OTHERS:
        yield Case(f"{words} < {name}" if name else words, words.split(), (decks / name).read_bytes() if name else b"", False)


class Runner:
    """Runs one program with a library that refuses allocations."""

    def __init__(self, program, library, patience):
        self.program = program
        self.library = library
        self.patience = patience
        self.found = 0

    def call(self, words, data):
        return calls.call(self.program, words, data, self.patience)

    def run(self, case, first, last):
        """One run where the allocations from the first to the last are refused, or none where the first is 0."""
        with tempfile.NamedTemporaryFile() as counts:
            counts.write(bytes(16))
            counts.flush()
            refusals = {
                "LD_PRELOAD": self.library, "REFUSED_COUNT": counts.name, "REFUSED_FIRST": str(first), "REFUSED_LAST": str(last)
            }
            answer = calls.call(self.program, case.words, case.data, self.patience, os.environ | refusals)
            counts.seek(0)
            return Refused(answer, *struct.unpack("QQ", counts.read()))

    def fault_of(self, case, whole, found):
        """What is wrong with an answer, or nothing."""
        answer = found.answer
        if answer.status is None:
            return f"has not ended within {answer.clock:.0f} s"
        if answer.status < 0:
            return f"died by signal {-answer.status}"
        if answer.status == 6:
            return None if answer.text == b"" else f"has status 6 and the text {answer.text[:60]!r}"
        if (answer.status, answer.text) == (whole.status, whole.text):
            return None
        if case.words[0] == "run" and answers.is_run_of(self.call, case.data, answer):
            return None
        return f"has status {answer.status} and the text {answer.text[:60]!r}, not those of the deck"

    def try_case(self, pool, case, most):
        """Refuses the allocations of a case, each alone and each with all after it; gives what it counted."""
        whole = self.run(case, 0, 0)
        numbers = range(1, whole.asked + 1)
        if not case.is_whole and len(numbers) > most:
            numbers = sorted({1 + place * (len(numbers) - 1) // (most - 1) for place in range(most)})
        counted = {"runs": 0, "wanting": 0, "own": 0, "unrefused": 0}

        def try_one(place):
            first, last = place
            found = self.run(case, first, last)
            fault = self.fault_of(case, whole.answer, found)
            return first, last, found, fault

        for first, last, found, fault in pool.map(try_one, [(n, last) for n in numbers for last in (n, LAST)]):
            counted["runs"] += 1
            counted["wanting"] += found.answer.status == 6
            counted["own"] += found.answer.status != 6 and found.refused > 0
            counted["unrefused"] += found.refused == 0
            if fault:
                self.found += 1
                which = f"allocation {first}" if first == last else f"each allocation from {first} on"
                print(f"pathway {case.name}: where {which} of {whole.asked} is refused it {fault}", flush=True)
        return whole, counted


def main():
    parser = argparse.ArgumentParser()
    parser.add_argument("--most", type=int, default=400)
    parser.add_argument("--only", default="")
    parser.add_argument("--jobs", type=int, default=os.cpu_count())
    parser.add_argument("--patience", type=float, default=60)
    parser.add_argument("--root", type=pathlib.Path)
    parser.add_argument("program", nargs="?")
    given = parser.parse_args()
    with tempfile.TemporaryDirectory() as folder, ThreadPoolExecutor(given.jobs) as pool:
        library = f"{folder}/refusing.so"
        subprocess.run(["gcc", "-O2", "-shared", "-fPIC", "-o", library, HERE / "refusing.c"], check=True)
        runner = Runner(given.program or calls.built(given.root), library, given.patience)
        for case in cases_of(given.root / "decks"):
            if given.only not in case.name:
                continue
            began = time.monotonic()
            whole, counted = runner.try_case(pool, case, given.most)
            print(
                f"pathway {case.name}: status {whole.answer.status} with {whole.asked} allocations; of {counted['runs']} runs "
                f"{counted['wanting']} answered 6 and {counted['own']} their own answer, {counted['unrefused']} met no "
                f"refusal; {time.monotonic() - began:.0f} s", flush=True,
            )
    print(f"{runner.found} found")
    sys.exit(runner.found != 0)


if __name__ == "__main__":
    main()
