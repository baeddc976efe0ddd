"""A program (docs/reference/LANGUAGE.md): its items, its screens, and its paragraphs with their statements."""
import functools
import re

from explaining.branches import depths
from explaining.forms import match
from explaining.pictures import picture_of
from explaining.tokens import tokens_of
from explaining.words import REGISTERS, TABLE, VERBS

SECTIONS = ("WORKING-STORAGE", "LINKAGE", "SCREEN")
TOLD = {"text": "a text", "number": "a number", "edited": "an edited number", "group": "a group"}


class Entry:
    """An entry of the data or of a screen section: its tokens up to its period, and whether that is there."""

    def __init__(self, tokens, closed, section):
        self.tokens, self.closed, self.section = tokens, closed, section
        first = tokens[0]
        self.level = int(first.text) if first.kind == "number" and first.text.isdigit() else None
        self.name = tokens[1] if len(tokens) > 1 and tokens[1].kind == "word" and self.level is not None else None

    @property
    def line(self):
        return self.tokens[0].line

    def has(self, *words):
        return next((token for token in self.tokens if token.is_word(*words)), None)

    def behind(self, *words):
        """The token after a word and an IS, or none."""
        for place, token in enumerate(self.tokens):
            if token.is_word(*words):
                rest = self.tokens[place + 1 : place + 3]
                rest = rest[1:] if rest and rest[0].is_word("IS") else rest
                return rest[0] if rest else None
        return None

    def pictures(self):
        return [token for token in self.tokens if token.kind == "picture"]


class Item:
    """An item of the data, with the items that are its members."""

    def __init__(self, entry, parent):
        self.entry, self.parent, self.members = entry, parent, []
        pictures = entry.pictures()
        self.picture = picture_of(pictures[0].text) if pictures else None
        times = entry.behind("OCCURS")
        self.occurs = int(times.text) if times and times.text.isdigit() else 0

    @property
    def name(self):
        return self.entry.name.upper if self.entry.name else ""

    @property
    def kind(self):
        return "group" if self.members else self.picture.kind if self.picture else "group"

    @functools.cached_property
    def size(self):
        """The characters of one occurrence."""
        own = self.picture.size if self.picture else 0
        return sum(it.size * (it.occurs or 1) for it in self.members) if self.members else own

    @functools.cached_property
    def table(self):
        """The item whose OCCURS it has or stands in, or none."""
        return self if self.entry.has("OCCURS") else self.parent.table if self.parent else None

    def places(self, at=0):
        """The items without members in it, in order, each occurrence with where it begins."""
        if not self.members:
            yield at, self
        for member in self.members:
            for _ in range(member.occurs or 1):
                yield from member.places(at)
                at += member.size


class Field:
    """A field of a screen: its place, its cells, its clause and its item, as far as its entry says."""

    def __init__(self, entry):
        self.entry = entry
        numbers = [token for token in entry.tokens if token.kind == "number" and token.text.isdigit()]
        self.row, self.column = (int(token.text) for token in numbers[1:3]) if entry.has("AT") and len(numbers) > 2 else (0, 0)
        self.clauses = [token for token in entry.tokens if token.is_word("FROM", "TO", "USING")]
        self.item = entry.behind("FROM", "TO", "USING")
        pictures, value = entry.pictures(), entry.behind("VALUE")
        self.picture = picture_of(pictures[0].text) if pictures else None
        self.width = self.picture.size if self.picture else len(value.named()) if value and value.kind == "text" else 0

    @property
    def name(self):
        return self.entry.name.upper if self.entry.name and self.entry.name.upper != "FILLER" else ""

    @property
    def takes_entries(self):
        return any(clause.is_word("TO", "USING") for clause in self.clauses)

    def cells(self):
        return {(self.row, self.column + at) for at in range(self.width)}


class Screen:
    """A screen: its entry and its fields."""

    def __init__(self, entry):
        self.entry, self.fields = entry, []

    @property
    def name(self):
        return self.entry.name.upper if self.entry.name else ""


class Piece:
    """A piece of the procedure: a statement, ELSE, END-IF, a period, the name of a paragraph, or a run that has no form."""

    def __init__(self, kind, tokens, side):
        self.kind, self.tokens, self.side = kind, tokens, side

    @property
    def first(self):
        return self.tokens[0]

    @property
    def verb(self):
        return self.first.upper

    @functools.cached_property
    def form(self):
        """How it matches the forms of its verb."""
        return match(self.tokens, self.side)

    @property
    def opens(self):
        """Whether it opens a branch."""
        return self.verb == "IF" or self.tokens[-1].is_word("ERROR")

    def uses(self, *places):
        """The tokens of its operands and names in these places."""
        return [tokens for place, tokens in self.form.uses if place in places]


def heading_at(tokens, place, last, *firsts):
    """Whether a heading of two words stands at a place."""
    return tokens[place].is_word(*firsts) and tokens[place + 1 : place + 2] and tokens[place + 1].is_word(last)


def parts_of(tokens):
    """The tokens of each section of the data division, and of the procedure, without their headings."""
    parts, part = {name: [] for name in (*SECTIONS, "PROCEDURE")}, None
    place = 0
    while place < len(tokens):
        if part != "PROCEDURE" and heading_at(tokens, place, "SECTION", *SECTIONS):
            part, place = tokens[place].upper, place + 2
            place += place < len(tokens) and tokens[place].is_mark(".")
        elif part != "PROCEDURE" and heading_at(tokens, place, "DIVISION", tokens[place].upper):
            part, place = "PROCEDURE" if tokens[place].is_word("PROCEDURE") else None, place + 2
            while part and place < len(tokens) and not tokens[place - 1].is_mark("."):
                place += 1
        else:
            if part:
                parts[part].append(tokens[place])
            place += 1
    return parts


def entries_of(tokens, section):
    """The entries of a section. A period that ends nothing is one of its own."""
    entries, run = [], []
    for token in tokens:
        if token.is_mark("."):
            entries.append(Entry(run or [token], True, section))
            run = []
        else:
            run.append(token)
    return entries + ([Entry(run, False, section)] if run else [])


def may_have(entry, other):
    """Whether an entry may have a later one as its member."""
    return entry.level < other.level and 77 not in (entry.level, other.level)


def items_of(entries):
    """The items of the entries of a section, each with its members. What has no level belongs to none, and is passed over."""
    items, open_items = [], []
    for entry in entries:
        if entry.level is None:
            items.append(Item(entry, None))
            continue
        while open_items and not may_have(open_items[-1].entry, entry):
            open_items.pop()
        item = Item(entry, open_items[-1] if open_items else None)
        if item.parent:
            item.parent.members.append(item)
        items.append(item)
        open_items.append(item)
    return items


def screens_of(entries):
    """The screens of the entries of a screen section, each with its fields."""
    screens = []
    for entry in entries:
        if entry.level == 1:
            screens.append(Screen(entry))
        elif screens:
            screens[-1].fields.append(Field(entry))
    return screens


def pieces_of(tokens, side):
    """The pieces of a procedure."""
    pieces, run = [], []

    def close(before_period):
        if run:
            word = run[0]
            kind = "statement" if word.is_word(*VERBS) else {"ELSE": "else", "END-IF": "end"}.get(word.upper, "run")
            if kind == "run" and before_period and len(run) == 1 and word.kind == "word":
                kind = "paragraph"
            pieces.append(Piece(kind, list(run), side))
            run.clear()

    for token in tokens:
        if token.is_mark("."):
            close(True)
            pieces.append(Piece("period", [token], side))
            continue
        if token.is_word("ELSE", "END-IF", *VERBS):
            close(False)
        run.append(token)
    close(False)
    return pieces


class Program:
    """The program of a section of a deck."""

    def __init__(self, side, section):
        self.side, self.section = side, section

    @functools.cached_property
    def tokens(self):
        return tokens_of(self.section.lines)

    @functools.cached_property
    def parts(self):
        return parts_of(self.tokens)

    @functools.cached_property
    def entries(self):
        """The entries of working storage and linkage."""
        return [entry for name in SECTIONS[:2] for entry in entries_of(self.parts[name], name)]

    @functools.cached_property
    def items(self):
        return [item for name in SECTIONS[:2] for item in items_of([entry for entry in self.entries if entry.section == name])]

    @functools.cached_property
    def by_name(self):
        """The items by their names, the first of each."""
        found = {}
        for item in self.items:
            found.setdefault(item.name, item)
        return found

    @functools.cached_property
    def screen_entries(self):
        return entries_of(self.parts["SCREEN"], "SCREEN")

    @functools.cached_property
    def screens(self):
        return screens_of(self.screen_entries)

    @functools.cached_property
    def pieces(self):
        return pieces_of(self.parts["PROCEDURE"], self.side)

    @functools.cached_property
    def paragraphs(self):
        """The paragraphs: the token of each name with the pieces after it."""
        found = []
        for piece in self.pieces:
            if piece.kind == "paragraph":
                found.append((piece.first, []))
            elif found:
                found[-1][1].append(piece)
        return found

    @functools.cached_property
    def parameters(self):
        """The items of USING."""
        found = re.search(r"PROCEDURE +DIVISION +USING([^.]*)", " ".join(token.upper for token in self.tokens))
        return [self.by_name[name] for name in (found[1].split() if found else ()) if name in self.by_name]

    def is_before_paragraphs(self, piece):
        """Whether a piece stands in front of the first paragraph."""
        return not self.paragraphs or piece.first[2:] < self.paragraphs[0][0][2:]

    def is_heading(self, token):
        """Whether a word stands alone on its line, with a period after it, as the name of a paragraph does."""
        mates = [it for it in self.tokens if it.line == token.line]
        is_alone = len(mates) == 2 and mates[0] == token and mates[1].is_mark(".")
        return is_alone and token.kind == "word" and not self.declares(token.upper)

    def may_name(self, token):
        """Whether a token may be the name of a paragraph."""
        return token.kind == "word" and token.upper not in TABLE[self.side]

    def depth_before(self, piece):
        """How many branches are open in front of a piece."""
        return dict(zip(map(id, self.pieces), depths(self.pieces)))[id(piece)]

    def uses(self, *places):
        """The statements with their operands and names in these places."""
        return [(piece, tokens) for piece in self.pieces if piece.kind == "statement" for tokens in piece.uses(*places)]

    def names(self, kind):
        """The names of its items, with the registers, or of its screens or paragraphs."""
        if kind == "item":
            return [name for name in self.by_name if name not in ("", "FILLER")] + list(REGISTERS[self.side])
        return [it.name for it in self.screens] if kind == "screen" else [name.upper for name, _ in self.paragraphs]

    def declares(self, word, *kinds):
        """Whether a word is a name of these kinds; without kinds, whether it is a name of any kind or a word of the language."""
        named = any(word in self.names(kind) for kind in kinds or ("item", "screen", "paragraph"))
        return named or not kinds and word in TABLE[self.side]
