"""Why an entry of the data or of a screen is refused (111, 121, 122, 124, 141 to 143). Each function goes over what may be wrong:
it gives the token, and what is to be told of it."""
import re

from explaining.division_reasons import misspelt_heading
from explaining.pictures import PICTURE_TAKES, picture_of, why_none
from explaining.program import Field, TOLD
from explaining.source_reasons import advised, comma_number
from explaining.tokens import behind
from explaining.words import FIGURATIVE, TABLE, counted

MOST_STORAGE = 32000
ROWS, COLUMNS = 23, 80
NO_PICTURE = "the picture stands after PIC on the same line"


def entries_at(deck, line, *sections):
    """The entries of these sections that begin on a line, and their program."""
    program = deck.program_at(line)
    entries = program.entries + program.screen_entries if program else []
    return [(program, entry) for entry in entries if entry.line == line and entry.section in sections]


def bad_picture(deck, line):
    """111"""
    for _, entry in entries_at(deck, line, "WORKING-STORAGE", "LINKAGE", "SCREEN"):
        for picture in entry.pictures():
            if not picture_of(picture.text):
                yield picture, f"{picture.text}: {why_none(picture.text)}"


def missing_period(entry):
    """Where an entry should have ended, since the next one begins on the next line, or since nothing follows."""
    for before, token, after in zip(entry.tokens, entry.tokens[1:], entry.tokens[2:]):
        if token.line > before.line and token.kind == "number" and token.text.isdigit() and after.kind == "word":
            yield behind(before), f"no period ends the entry after {before.text} in line {before.line}"
    if not entry.closed:
        last = entry.tokens[-1]
        yield behind(last), f"no period ends the entry after {last.text} in line {last.line}"


def bad_data_entry(deck, line):
    """121"""
    for program, entry in entries_at(deck, line, "WORKING-STORAGE", "LINKAGE"):
        item = next(it for it in program.items if it.entry is entry)
        lines = {token.line for token in entry.tokens}
        yield from (found for found in misspelt_heading(program) if found[0].line in lines)
        yield from missing_period(entry)
        yield from bad_head(program, entry)
        yield from bad_level(item)
        yield from bad_clauses(program, entry)
        yield from bad_place(item)
        if item.picture and entry.has("VALUE"):
            yield from bad_value(entry.behind("VALUE"), item.picture)


def bad_head(program, entry):
    """What is wrong with the first two tokens of an entry."""
    first = entry.tokens[0]
    if len(entry.tokens) == 2 and entry.tokens[1].is_word("SECTION"):
        others = ", LINKAGE and SCREEN" if program.side == "requester" else " alone"
        yield first, f"there is no {first.text} SECTION: the data have WORKING-STORAGE{others}"
    if entry.level is None:
        yield advised(program, [first]) or (first, "an entry begins with its level, a number")
    if entry.level in (66, 88):
        yield first, "there are no names of conditions or of parts: compare the item itself, or make a group"
    if not 1 <= entry.level <= 49 and entry.level != 77:
        yield first, "levels are 1 to 49, and 77"
    if not entry.name or entry.name.is_word("PIC", "PICTURE") or program.side == "requester" and entry.name.is_word("$RECEIVE"):
        yield entry.tokens[1] if entry.tokens[1:] else behind(first), "after the level stands a name, or FILLER"


def bad_level(item):
    """Why an entry may not stand after those before it."""
    entry = item.entry
    if item.parent is None and entry.level not in (1, 77):
        yield entry.tokens[0], "it belongs to no entry before it: begin with level 01"


def clauses_of(entry):
    """The clauses after the name of an entry of the data: each its word and its value; a word that begins none by itself."""
    rest = entry.tokens[2:]
    while rest:
        word, rest = rest[0], rest[1:]
        if not word.is_word("PIC", "PICTURE", "VALUE", "OCCURS"):
            yield word, None
            continue
        if not word.is_word("OCCURS") and rest and rest[0].is_word("IS"):
            rest = rest[1:]
        yield word, rest[0] if rest else None
        rest = rest[1:]
        if word.is_word("OCCURS") and rest and rest[0].is_word("TIMES"):
            rest = rest[1:]


def bad_clauses(program, entry):
    """What is wrong with the clauses of an entry, each by itself."""
    seen = set()
    for word, value in clauses_of(entry):
        kind = "PIC" if word.is_word("PICTURE") else word.upper
        if word.kind == "number" and comma_number(program, entry.tokens, entry.tokens.index(word)):
            yield comma_number(program, entry.tokens, entry.tokens.index(word))
        if kind not in ("PIC", "VALUE", "OCCURS"):
            yield advised(program, [word]) or (word, f"after the name stand PIC, VALUE and OCCURS alone, and not {word.text}")
        if kind in seen:
            yield word, f"{kind} stands twice"
        seen.add(kind)
        if kind == "PIC" and (value is None or value.kind != "picture"):
            yield word, NO_PICTURE
        if kind == "VALUE" and value is not None and value.is_word(*FIGURATIVE):
            yield value, "leave VALUE out: without it a text begins with spaces and a number with zero"
        if kind == "VALUE" and (value is None or value.kind not in ("text", "number")):
            yield advised(program, [value or word]) or (value or word, "after VALUE stands a text in quotes, or a number")
        if kind == "OCCURS" and (value is None or not value.text.isdigit() or not 1 <= int(value.text) <= 1000):
            yield value or word, "after OCCURS stands a number from 1 to 1,000"


def bad_place(item):
    """What an item may not have where it stands."""
    entry, name = item.entry, item.entry.name.text
    picture, value, occurs = entry.has("PIC", "PICTURE"), entry.has("VALUE"), entry.has("OCCURS")
    if item.members and (picture or value):
        line = item.members[0].entry.line
        yield picture or value, f"{name} is a group, since line {line} has a higher level: it has no PIC and no VALUE"
    if not item.members and not picture:
        yield entry.name, f"{name} has no PIC, and no entry of a higher level follows, so it is no group either"
    if occurs and entry.level in (1, 77):
        yield occurs, f"OCCURS stands at level 02 to 49: put {name} below an entry of level 01"
    outer = item.parent.table if item.parent else None
    if occurs and outer:
        told = "make one table of all elements, with a subscript that is computed"
        yield occurs, f"there is no OCCURS within an OCCURS, that of line {outer.entry.line}: {told}"
    if item.kind == "edited" and entry.pictures()[0].text.endswith(","):
        yield entry.pictures()[0], PICTURE_TAKES.format(",")
    if item.kind == "edited":
        told = "an edited picture (Z, comma, point, minus) stands on screens alone: here V is the point, as in 9(3)V99"
        yield entry.pictures()[0], told
    if value and (item.table or entry.section == "LINKAGE"):
        yield value, f"there is no VALUE in {'an OCCURS' if item.table else 'LINKAGE SECTION'}: MOVE it at the start"


def bad_value(literal, picture):
    """Why a VALUE does not fit its picture."""
    if (literal.kind == "text") != (picture.kind == "text"):
        yield literal, "a text has a VALUE in quotes" if picture.kind == "text" else "a number has a VALUE without quotes"
    elif picture.kind == "text":
        if len(literal.named()) > picture.size:
            yield literal, f"the text has {len(literal.named())} characters, and the picture {picture.size}"
    else:
        whole, _, decimals = literal.text.lstrip("+-").partition(".")
        whole, decimals = len(whole.lstrip("0")), len(decimals.rstrip("0"))
        if whole > picture.whole or decimals > picture.decimals:
            told = f"the picture has {counted(picture.whole, 'digit')} in front of the point and {picture.decimals} after it"
            yield literal, f"{told}, and the value {whole} and {decimals}"
        if literal.text.startswith("-") and not picture.signed:
            yield literal, "a picture without S has no negative value"


def name_twice(deck, line):
    """122"""
    program = deck.program_at(line)
    if program:
        yield from twice_in_order(program, line)
        for name, _ in program.paragraphs:
            if name.line == line and name.upper in TABLE[program.side]:
                yield name, f"{name.text} is a word of the language: no paragraph has its name"


def twice_in_order(program, line):
    """The names of items, screens and fields on a line that are taken, by those before them or by the language."""
    first, fields = {}, {}
    for entry in program.entries + program.screen_entries:
        name, is_field = entry.name, entry.section == "SCREEN" and entry.level != 1
        fields = fields if is_field else {}
        if name is None or name.is_word("FILLER") and (is_field or entry.section != "SCREEN"):
            continue
        taken = fields if is_field else first
        if entry.line == line and name.upper in TABLE[program.side]:
            yield name, f"{name.text} is a word of the language: take another name"
        if entry.line == line and name.upper in taken:
            yield name, f"{name.text} stands first in line {taken[name.upper].line}"
        taken.setdefault(name.upper, name)


def storage_too_large(deck, line):
    """124"""
    program, size = deck.program_at(line), 0
    for item in program.items if program else ():
        if item.parent is None:
            size += item.size
            if item.entry.line == line:
                yield item.entry.tokens[0], f"with this entry the items have {size:,} characters; {MOST_STORAGE:,} are the most"


def fields_at(deck, line):
    """The fields that stand on a line, each with those before it on its screen."""
    program = deck.program_at(line)
    for screen in program.screens if program else ():
        for place, field in enumerate(screen.fields):
            if field.entry.line == line:
                yield field, screen.fields[:place]


def told_cells(field):
    last = field.column + field.width - 1
    return f"row {field.row}, column{'s' * (field.width > 1)} {field.column}{f' to {last}' if field.width > 1 else ''}"


def field_outside(deck, line):
    """141"""
    for field, _ in fields_at(deck, line):
        if field.width and not (1 <= field.row <= ROWS and 1 <= field.column and field.column + field.width - 1 <= COLUMNS):
            yield field.entry.has("AT"), f"the field has {told_cells(field)}"


def fields_overlap(deck, line):
    """142"""
    for field, earlier in fields_at(deck, line):
        for other in earlier:
            if field.cells() & other.cells():
                told = f"the field has {told_cells(field)}; the one of line {other.entry.line} has {told_cells(other)}"
                yield field.entry.has("AT"), told


def bad_clause(deck, line):
    """143"""
    for program, entry in entries_at(deck, line, "SCREEN"):
        yield from missing_period(entry)
        yield from bad_screen_level(program, entry)
        if entry.level == 1:
            yield from bad_screen(program, entry)
        else:
            yield from bad_field_place(program, entry)
            yield from bad_field_clauses(program, entry, Field(entry))


def bad_screen_level(program, entry):
    """What is wrong with the level and the name of an entry of a screen section."""
    first = entry.tokens[0]
    if entry.level is None:
        yield first, "an entry begins with its level, a number"
    if not 1 <= entry.level <= 49:
        yield first, "a screen has level 01, and its fields levels 02 to 49"
    before = program.screen_entries[: program.screen_entries.index(entry)]
    if entry.level > 1 and not any(it.level == 1 for it in before):
        yield first, "a field stands after a screen, an entry of level 01"
    if not entry.name:
        told = "after the level stands a name" + " or FILLER" * (entry.level > 1)
        yield entry.tokens[1] if entry.tokens[1:] else behind(first), told


def bad_screen(program, entry):
    """What is wrong after the name of a screen."""
    rest = entry.tokens[2:]
    if not re.fullmatch(r"(BASE)? ?(SIZE 0*24 0*80)?", " ".join(token.upper for token in rest)):
        yield advised(program, rest) or (rest[0], "after the name of a screen stand BASE and SIZE 24, 80 alone, in this order")


def bad_field_place(program, entry):
    """What is wrong with the place of a field."""
    place = entry.tokens[2:5]
    if not (len(place) > 2 and place[0].is_word("AT") and all(it.kind == "number" and it.text.isdigit() for it in place[1:])):
        wrong = place[0] if place else behind(entry.tokens[-1])
        yield advised(program, place[:1]) or (wrong, "after the name stand AT, the row and the column")


def bad_field_clauses(program, entry, field):
    """What is wrong with the clauses of a field."""
    others = [token for token in entry.tokens[5:] if token != field.item]
    value, picture, occurs = entry.has("VALUE"), entry.has("PIC", "PICTURE"), entry.has("OCCURS")
    if advised(program, others):
        yield advised(program, others)
    if occurs:
        yield occurs, "a field has no OCCURS: write a field for each row, and MOVE the elements to items of their own"
    if value and (picture or field.clauses):
        yield value, "a field with VALUE has no other clause: give the item a VALUE, or MOVE one to it"
    if value:
        yield entry.behind("VALUE") or value, "the VALUE of a field is a text in quotes"
    if len(field.clauses) > 1:
        yield field.clauses[1], "a field has one of FROM, TO and USING: USING shows its item and takes entries into it"
    if picture and not entry.pictures():
        yield picture, NO_PICTURE
    if not field.clauses:
        yield picture or entry.tokens[0], "the field has no FROM, TO or USING with an item, and no VALUE"
    if not picture:
        yield field.clauses[0], "the field has no PIC, which says how long it is"
    yield from bad_field_item(program, field)


def bad_field_item(program, field):
    """Why an item does not fit its field."""
    item = program.by_name.get(field.item.upper) if field.item else None
    if item is None:
        yield field.clauses[0], "after FROM, TO and USING stands an item"
    name = field.item.text
    if item.table:
        yield field.item, f"{name} is of a table: MOVE the element to an item of its own, and show that"
    if any(token.is_mark("(") for token in field.entry.tokens):
        yield field.item, f"after {name} stands no subscript"
    if item.kind == "group":
        yield field.item, f"{name} is a group: show its members, each in a field of its own"
    if (field.picture.kind == "text") != (item.kind == "text"):
        wanted = "texts" if field.picture.kind == "text" else "numbers"
        yield field.item, f"{name} is {TOLD[item.kind]}, and the picture is for {wanted}"
    yield field.item, "no clause stands twice, and nothing else stands in a field"
