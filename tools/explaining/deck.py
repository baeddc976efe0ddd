"""The deck (docs/reference/DECK.md): its lines, sections, commands, objects and programs, as far as they can be read."""
import functools
import re
from typing import NamedTuple

from explaining.program import Program
from explaining.tokens import Token

SIDES = {"SCREEN-COBOL": "requester", "SERVER": "server"}


class Section(NamedTuple):
    """A section: the word after the question mark, the words of its line, the number of that line, and its numbered lines."""
    kind: str
    words: list
    line: int
    lines: list

    @property
    def name(self):
        return self.words[1].upper() if len(self.words) > 1 else ""


def lines_of(raw):
    """The lines of a text without their ends, one character for each byte."""
    lines = raw.decode("latin-1").split("\n")
    ended = [line[:-1] if line.endswith("\r") else line for line in lines[:-1]]
    return ended + ([lines[-1]] if lines[-1] else [])


def words_of(text, line):
    """The words between the spaces of a line, as tokens."""
    return [Token("word", found[0], line, found.start() + 1) for found in re.finditer("[^ ]+", text)]


def section_of(text, line):
    words = text.split()
    return Section(words[0][1:].upper(), words, line, [])


class Deck:
    """A deck that was read from a file."""

    def __init__(self, raw):
        self.raw = raw
        self.lines = lines_of(raw)
        self.sections, self.end = [], None
        for number, text in enumerate(self.lines, 1):
            if text.startswith("?"):
                self.sections.append(section_of(text, number))
                if self.sections[-1].kind == "END":
                    self.end = number
                    break
            elif self.sections:
                self.sections[-1].lines.append((number, text))

    def line(self, number):
        return self.lines[number - 1] if 0 < number <= len(self.lines) else ""

    def section_at(self, line):
        """The section in which a line stands, or none."""
        before = [section for section in self.sections if section.line <= line]
        return before[-1] if before else None

    def of_kind(self, *kinds):
        return [section for section in self.sections if section.kind in kinds]

    @functools.cached_property
    def programs(self):
        """The programs of the deck in order."""
        return [Program(SIDES[section.kind], section) for section in self.of_kind(*SIDES)]

    def program_at(self, line):
        """The program in whose section a line stands, or none."""
        section = self.section_at(line)
        return next((program for program in self.programs if program.section is section), None)

    def program(self, side, name):
        """The program of a side that has a name, or none."""
        return next((it for it in self.programs if it.side == side and it.section.name == name), None)

    @functools.cached_property
    def commands(self):
        """The commands: the words of each, as tokens."""
        lines = [line for section in self.of_kind("PATHCOM") for line in section.lines]
        return [words for number, text in lines if not text.startswith("*") and (words := words_of(text, number))]

    def commands_of(self, *verbs):
        """The commands that begin with these words and have a name after them."""
        longer = [words for words in self.commands if len(words) > len(verbs)]
        return [words for words in longer if all(word.upper == verb for word, verb in zip(words, verbs))]

    def added(self, kind):
        """The names of a kind of object that were added, each with the token of its first ADD."""
        found = {}
        for words in self.commands_of("ADD", kind):
            found.setdefault(words[2].upper, words[2])
        return found

    def values_before(self, kind, line):
        """The values that are set for a kind of object in front of a line, each as the token that says it."""
        return {words[2].upper: words[3] for words in self.commands_of("SET", kind) if len(words) > 3 and words[0].line < line}

    @functools.cached_property
    def classes(self):
        """The server classes, each with the values that are set for it."""
        return {name: self.values_before("SERVER", token.line) for name, token in self.added("SERVER").items()}

    def program_of(self, name):
        """The name of the program of a class."""
        value = self.classes.get(name, {}).get("PROGRAM")
        return value.upper if value else ""

    @functools.cached_property
    def files(self):
        """The files, each with the length of its keys."""
        keys = {}
        for section in self.of_kind("FILE"):
            if len(section.words) > 3 and section.words[3].isdigit():
                keys.setdefault(section.name, int(section.words[3]))
        return keys

    def names(self, kind, program=None):
        """The names that the deck has of a kind, in a program where they are its own."""
        if kind in ("item", "screen", "paragraph"):
            return program.names(kind)
        if kind == "program":
            return [section.name for section in self.of_kind("SCREEN-COBOL")]
        if kind == "server program":
            return [section.name for section in self.of_kind("SERVER")]
        return list(self.classes if kind == "class" else self.files if kind == "file" else self.added(kind))
