"""Why the divisions of a source are refused (151): which token may not stand where it is, and what may."""
import difflib

from explaining.program import SECTIONS, entries_of, heading_at
from explaining.source_reasons import advised
from explaining.tokens import Token, behind
from explaining.words import suggestion

PERIOD = "a period"
PARAMETER = "a name of level 01 in LINKAGE SECTION"


class Walk:
    """Goes over the tokens of a source by its divisions, and stops at the first that may not stand where it is."""

    def __init__(self, program):
        self.program, self.tokens, self.at, self.wanted = program, program.tokens, 0, None
        self.parameters = None

    def sees(self, *words):
        """Whether these words, or periods, stand next."""
        here = self.tokens[self.at : self.at + len(words)]
        return len(here) == len(words) and all(it.is_mark(word) or it.is_word(word) for it, word in zip(here, words))

    def take(self, *words):
        """Takes these words, and stops at the first that is another."""
        for word in words:
            if not self.wanted and not self.sees(word):
                self.wanted = PERIOD if word == "." else " ".join(words).replace(" .", ".") if word is words[0] else word
            self.at += not self.wanted

    def skip_to_heading(self, *sections):
        """Goes on to the next division, or to one of these sections."""
        while self.at < len(self.tokens) and not heading_at(self.tokens, self.at, "DIVISION", self.tokens[self.at].upper) \
                and not heading_at(self.tokens, self.at, "SECTION", *sections):
            self.at += 1

    def run(self):
        self.take("IDENTIFICATION", "DIVISION", ".")
        self.take("PROGRAM-ID", ".")
        self.take(self.program.section.name, ".")
        if not self.wanted and self.sees("ENVIRONMENT", "DIVISION"):
            self.take("ENVIRONMENT", "DIVISION", ".")
            self.skip_to_heading()
        if not self.wanted and self.sees("DATA", "DIVISION"):
            self.take("DATA", "DIVISION", ".")
            for section in SECTIONS if self.program.side == "requester" else SECTIONS[:1]:
                if not self.wanted and self.sees(section, "SECTION"):
                    self.take(section, "SECTION", ".")
                    self.skip_to_heading(*SECTIONS)
        self.take("PROCEDURE", "DIVISION")
        if not self.wanted and self.program.side == "requester" and self.sees("USING"):
            self.using()
        self.take(".")

    def using(self):
        """The names after USING."""
        names = [it.name.upper for it in entries_of(self.program.parts["LINKAGE"], "LINKAGE") if it.level == 1 and it.name]
        self.at += 1
        first = self.at
        while self.at < len(self.tokens) and not self.sees("."):
            if self.tokens[self.at].upper not in names or self.sees("FILLER"):
                self.wanted, self.parameters = PARAMETER, names
                return
            self.at += 1
        if self.at == first:
            self.wanted = "a name"


def told_of(program, token):
    """What is to be told of a token that may not stand where it is."""
    if token.is_word("LINKAGE", "SCREEN") and program.side == "server":
        return "a server has WORKING-STORAGE SECTION alone"
    if token.is_word(*SECTIONS):
        return "the sections stand in the order WORKING-STORAGE, LINKAGE, SCREEN, after DATA DIVISION, each once"
    if token.is_word("FILE"):
        return "there is no FILE SECTION: a file is a section of the deck, ?FILE name KEY n"
    if token.is_word("USING"):
        return "a server has no parameters: READ $RECEIVE gives it its message"
    if token.is_word("DATA", "ENVIRONMENT", "IDENTIFICATION"):
        return "the divisions stand in the order IDENTIFICATION, ENVIRONMENT, DATA, PROCEDURE, each once"
    return (advised(program, [token]) or (token, None))[1]


HEADINGS = ("IDENTIFICATION DIVISION", "ENVIRONMENT DIVISION", "DATA DIVISION", "WORKING-STORAGE SECTION", "LINKAGE SECTION",
            "SCREEN SECTION", "PROCEDURE DIVISION")


def misspelt_heading(program):
    """The first line that is nearly a heading, with that heading."""
    for number, text in program.section.lines:
        told = " ".join(text.upper().split()).rstrip(" .")
        head = told.split(" USING ")[0]
        meant = difflib.get_close_matches(head, HEADINGS, 1, 0.85) if head not in HEADINGS else []
        # A word of the text more, as in a statement, is none that is spelled wrong.
        if meant and not text.startswith("*") and len(head.split()) <= 3:
            column = len(text) - len(text.lstrip(" ")) + 1
            yield Token("line", text.strip(" "), number, column), f"line {number}: {told}: did you mean {meant[0]}?"
            return


def bad_division(deck, line):
    """151"""
    # A source without a line is refused at the line after it, which is that of the next section.
    program = deck.program_at(line - deck.line(line).startswith("?"))
    section = program.section
    if not program.tokens:
        yield Token("line", section.words[0], section.line, 1), f"after {section.words[0]} {section.name} stands no source"
        return
    walk = Walk(program)
    walk.run()
    last, stop = program.tokens[walk.at - 1], program.tokens[walk.at] if walk.at < len(program.tokens) else None
    here = f"{stop.text if stop else 'the end of the source'} stands where {walk.wanted} is wanted"
    yield from misspelt_heading(program)
    if walk.wanted == PERIOD and stop and stop.line > last.line:
        words = [token.text for token in program.tokens if token.line == last.line]
        yield behind(last), f"no period ends line {last.line}: {' '.join(words)}"
    if walk.parameters is not None:
        yield stop, here, f"{stop.text}: {suggestion(stop.text, walk.parameters, 'such name')}"
    if walk.wanted == f"{section.name}.":
        yield stop or behind(last), here, f"PROGRAM-ID names the program as its section line does: {section.name}"
    told = stop and told_of(program, stop)
    yield stop if stop and (told or walk.wanted != PERIOD) else behind(last), *([told] if told else []), here
