"""The tokens of a source text (docs/reference/LANGUAGE.md), each with its line and its column from 1."""
import re
from typing import NamedTuple

TOKEN = re.compile(
    r"""(?P<gap>[ ,;|]+)|(?P<word>[A-Za-z][A-Za-z0-9-]*|\$RECEIVE(?![A-Za-z0-9-]))|(?P<number>[+-]?[0-9]+(?:\.[0-9]+)?)
    |(?P<text>"(?:[^"]|"")*")|(?P<mark><=|>=|[.()=<>])|(?P<unclosed>".*)|(?P<bad>.)""",
    re.X | re.I | re.S,
)
PICTURE = re.compile(r" *([^ ]+)")
PIC = ("PIC", "PICTURE")


class Token(NamedTuple):
    """A token: its kind, how it is written, and where. What begins no token is bad, and a text without its end is unclosed."""
    kind: str
    text: str
    line: int
    column: int

    @property
    def upper(self):
        return self.text.upper()

    @property
    def end(self):
        """The column after the token."""
        return self.column + len(self.text)

    def is_word(self, *words):
        return self.kind == "word" and self.upper in words

    def is_mark(self, mark):
        return self.kind == "mark" and self.text == mark

    def named(self):
        """The name that a word, or a text in the place of a name, stands for."""
        return self.text[1:-1].replace('""', '"') if self.kind == "text" else self.upper


def behind(token):
    """The place after a token."""
    return Token("end", " ", token.line, token.end)


def picture_tokens(text, at, line):
    """The picture at a place after PIC, and the period after it."""
    found = PICTURE.match(text, at)
    run, column = found[1], found.start(1) + 1
    if run == ".":
        return [Token("mark", ".", line, column)], found.end()
    body = run[:-1] if run.endswith(".") else run
    tokens = [Token("picture", body, line, column)]
    if body != run:
        tokens.append(Token("mark", ".", line, column + len(body)))
    return tokens, found.end()


def picture_begins(tokens, text, at):
    """Whether a picture stands after the tokens of a line: after PIC, or after the IS that follows it."""
    words = [token.upper if token.kind == "word" else "" for token in tokens[-2:]]
    behind_is = words[-1:] == ["IS"] and words[0] in PIC
    behind_pic = words[-1:] and words[-1] in PIC and not re.match(" *IS(?![A-Za-z0-9-])", text[at:], re.I)
    return (behind_is or behind_pic) and text[at:].strip(" ")


def tokens_of_line(text, line):
    """The tokens of one line."""
    found, at = [], 0
    while at < len(text) and not text.startswith("*"):
        if picture_begins(found, text, at):
            more, at = picture_tokens(text, at, line)
            found += more
            continue
        token = TOKEN.match(text, at)
        if token.lastgroup != "gap":
            found.append(Token(token.lastgroup, token[0], line, at + 1))
        at = token.end()
    return found


def tokens_of(lines):
    """The tokens of numbered lines."""
    return [token for number, text in lines for token in tokens_of_line(text, number)]
