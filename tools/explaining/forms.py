"""The forms of statements and the places of their operands (docs/reference/LANGUAGE.md). A form is words in upper case and places in
lower case; brackets stand round what may be left out, and two dots after what may be repeated."""
import functools
import re
from typing import NamedTuple, Optional

from explaining.words import FIGURATIVE, REGISTERS, TABLE, listed

COMMON = """
MOVE any TO receiver ..
ADD amount TO sum [GIVING sum] [ON SIZE ERROR]
SUBTRACT amount FROM sum [GIVING sum] [ON SIZE ERROR]
MULTIPLY amount BY sum [GIVING sum] [ON SIZE ERROR]
DIVIDE amount INTO sum [GIVING sum] [ON SIZE ERROR]
IF condition [THEN]
PERFORM paragraph
PERFORM paragraph amount TIMES
PERFORM paragraph UNTIL condition
PERFORM ONE OF paragraph .. DEPENDING ON position
EXIT
EXIT PROGRAM
STOP RUN
ELSE
END-IF
"""
OWN = {
    "requester": """
DISPLAY BASE screen
DISPLAY shown
ACCEPT screen UNTIL key ..
CALL program [USING receiver ..]
SEND sent TO class REPLY CODE code YIELDS receiver [CODE code YIELDS receiver] ..
BEGIN-TRANSACTION
END-TRANSACTION
ABORT-TRANSACTION
RESTART-TRANSACTION
""",
    "server": """
READ $RECEIVE INTO receiver
WRITE $RECEIVE FROM sent
READ NEXT file [WITH LOCK] AFTER lookup INTO receiver
READ file [WITH LOCK] KEY lookup INTO receiver
WRITE file FROM record
REWRITE file FROM record
DELETE file KEY lookup
""",
}
# What is wanted in a place: an operand in these,
OPERANDS = {
    "any": "an item or a literal", "shown": "an item, a literal or a screen", "amount": "a number", "position": "a number item",
    "sent": "an item", "receiver": "an item", "sum": "a number item", "lookup": "an item as key", "record": "an item",
}
# and a name, a key or a number in these.
NAMES = {
    "paragraph": "a paragraph", "screen": "a screen", "program": "a program", "class": "a class", "file": "a file",
    "key": "a key, F1 to F16 or SF1 to SF16", "code": "a number of at most 4 digits",
}
END = "the end of the statement"
COMPARED = {"=", "<", ">", "<=", ">="}
# How a place is called where a form is shown.
SHOWN = {**dict.fromkeys(OPERANDS, "a"), "receiver": "b", "sum": "b", "lookup": "key"}


class Match(NamedTuple):
    """How tokens match a form: what is used in which place, where the match ends, and what is wanted there, if anything is."""
    form: str
    uses: list
    at: int
    wanted: Optional[str]


@functools.cache
def parts_of(form):
    """A form as parts, each its kind, what it is, and whether it may be repeated; the parts of a group are such parts."""
    stack = [[]]
    for word in re.findall(r"\[|\]|\.\.|[^\s\[\]]+", form):
        if word == "[":
            stack.append([])
        elif word == "]":
            group = stack.pop()
            stack[-1].append(("group", tuple(group), False))
        elif word == "..":
            kind, what, _ = stack[-1].pop()
            stack[-1].append((kind, what, True))
        else:
            stack[-1].append(("place" if word.islower() else "word", word, False))
    return tuple(stack[0])


@functools.cache
def forms_of(side):
    """The forms of a side by their first words."""
    found = {}
    for form in filter(None, (COMMON + OWN[side]).split("\n")):
        found.setdefault(form.split()[0], []).append(form)
    return found


def shown_form(form):
    """A form as it is told to who writes a program."""
    return re.sub(r"[a-z]+", lambda found: SHOWN.get(found[0], found[0]), form).replace("GIVING b", "GIVING c")


class Reader:
    """Goes over the tokens of a statement, and keeps what is used in which place. Each step gives where it ends, and what is
    wanted there if it does not fit."""

    def __init__(self, tokens, side):
        self.tokens, self.side, self.uses = tokens, side, []

    def word_at(self, at, *words):
        return at < len(self.tokens) and self.tokens[at].is_word(*words)

    def is_name(self, at):
        """Whether a word stands there that is no word of the language, or is a register."""
        if at >= len(self.tokens) or self.tokens[at].kind != "word" or self.tokens[at].upper == "$RECEIVE":
            return False
        return self.tokens[at].upper not in TABLE[self.side] or self.tokens[at].upper in REGISTERS[self.side]

    def is_literal(self, at, *kinds):
        """Whether a literal stands there, of these kinds if there are any."""
        literal = at < len(self.tokens) and self.tokens[at].kind in (kinds or ("number", "text"))
        return literal or not kinds and self.word_at(at, *FIGURATIVE)

    def mark_at(self, at, *marks):
        return at < len(self.tokens) and any(self.tokens[at].is_mark(mark) for mark in marks)

    def parts(self, parts, at):
        """Follows the parts of a form."""
        for kind, what, repeated in parts:
            at, wanted = self.part(kind, what, at)
            if wanted:
                return at, wanted
            while repeated and self.may_begin(kind, what, at):
                at, wanted = self.part(kind, what, at)
                if wanted:
                    return at, wanted
        return at, None

    def may_begin(self, kind, what, at):
        """Whether a further one of what may be repeated begins there."""
        if kind == "group":
            return self.word_at(at, what[0][1])
        return self.is_name(at) or what in OPERANDS and self.is_literal(at)

    def part(self, kind, what, at):
        if kind == "word":
            return (at + 1, None) if self.word_at(at, what) else (at, what)
        if kind == "group":
            return self.parts(what, at) if self.word_at(at, what[0][1]) else (at, None)
        return self.place(what, at)

    def place(self, place, at):
        """What stands in a place of a form."""
        if place == "condition":
            return self.condition(at)
        begin = at
        if place in OPERANDS:
            at, wanted = self.operand(at, OPERANDS[place])
        else:
            at, wanted = self.name(place, at)
        if not wanted:
            self.uses.append((place, self.tokens[begin:at]))
        return at, wanted

    def name(self, place, at):
        return (at + 1, None) if at < len(self.tokens) and self.fits(place, self.tokens[at]) else (at, NAMES[place])

    def fits(self, place, token):
        """Whether a token may be a name, a key or a number in a place."""
        if place == "key":
            return bool(re.fullmatch(r"S?F([1-9]|1[0-6])", token.upper))
        if place == "code":
            return token.kind == "number" and token.text.isdigit() and int(token.text) <= 9999
        if place in ("paragraph", "screen"):
            return token.kind == "word" and token.upper not in TABLE[self.side] | {"$RECEIVE"}
        return token.kind == "word" and token.upper != "$RECEIVE" or token.kind == "text" and place in ("program", "class")

    def operand(self, at, wanted):
        """An item with its subscript, or a literal."""
        if not (self.is_name(at) or self.is_literal(at)):
            return at, wanted
        if not (self.is_name(at) and self.mark_at(at + 1, "(")):
            return at + 1, None
        if not (self.is_name(at + 2) or self.is_literal(at + 2, "number")):
            return at + 2, "a subscript"
        return (at + 4, None) if self.mark_at(at + 3, ")") else (at + 3, ")")

    def condition(self, at):
        """Comparisons joined by AND and OR."""
        while True:
            at, wanted = self.comparison(at)
            if wanted or not self.word_at(at, "AND", "OR"):
                return at, wanted
            at += 1

    def comparison(self, at):
        at, wanted = self.place("any", at)
        if wanted:
            return at, wanted
        at += self.word_at(at, "IS")
        at += self.word_at(at, "NOT")
        if self.word_at(at, "NUMERIC"):
            return at + 1, None
        if self.word_at(at, "EQUAL", "GREATER", "LESS"):
            at += 1 + self.word_at(at + 1, "TO" if self.word_at(at, "EQUAL") else "THAN")
        elif self.mark_at(at, *COMPARED):
            at += 1
        else:
            return at, "a comparison (=, <, >, <=, >= or NUMERIC)"
        return self.place("any", at)


def match(tokens, side):
    """How a statement matches the form of its verb that it follows farthest, with all that may stand where it stops."""
    best, wanted_there = None, []
    for form in forms_of(side).get(tokens[0].upper, ()):
        reader = Reader(tokens, side)
        at, wanted = reader.parts(parts_of(form), 0)
        if wanted is None and at == len(tokens):
            return Match(form, reader.uses, at, None)
        if best is None or at > best.at:
            best, wanted_there = Match(form, reader.uses, at, ""), []
        if at == best.at:
            wanted_there.append(wanted or END)
    return best._replace(wanted=listed(dict.fromkeys(wanted_there))) if best else Match("", [], 0, "a verb")
