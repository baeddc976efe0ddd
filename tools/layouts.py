"""The layout of a record: which field stands where in it, and how its characters are told as a value, and a value as characters.
docs/reference/LANGUAGE.md says what pictures are, and what an item holds."""
import collections
import re

import reports
from explaining.deck import Deck
from explaining.pictures import picture_of, why_none

Field = collections.namedtuple("Field", ["name", "at", "picture"])
Field.__doc__ = """A field of a record: its name, where its first character stands, from 0, and its picture."""
VALUE = re.compile(r"([+-]?)(\d*)(?:\.(\d*))?")


class BadValue(Exception):
    """A value that a field cannot hold; the text says why."""


def picture_in(word, name):
    """The picture that stands at a field, which is a text or a number."""
    picture = picture_of(word.upper())
    if not picture:
        raise reports.Refused(f"{name}: {word} is no picture: {why_none(word)}")
    if picture.kind == "edited":
        raise reports.Refused(f"{name}: {word} is for a screen; a record has X, 9, S9 and V")
    return picture


def from_words(text):
    """The fields of a layout in words, as `R-ITEM X(4), R-QTY 9(5)`. PIC may stand before a picture, and FILLER is no field."""
    fields, at = [], 0
    for part in filter(str.strip, text.replace(";", ",").split(",")):
        words = [word for word in part.upper().split() if word not in ("PIC", "PICTURE", "IS")]
        if len(words) != 2 or not re.fullmatch(reports.NAME, words[0]):
            raise reports.Refused(f"a layout has names with their pictures, as in R-ITEM X(4), R-QTY 9(5); {reports.shown(part.strip())} is none")
        picture = picture_in(words[1], words[0])
        fields.append(Field(words[0], at, picture))
        at += picture.size
    return checked(fields)


def from_deck(path, words):
    """The fields of a record of a deck, as `STOCK-SRV.STOCK-REC`: the server's program, or its class, and the name of the record."""
    deck = Deck("\n".join(reports.lines_of(path)).encode(errors="surrogateescape"))
    name, _, record = words.upper().partition(".")
    program = deck.program("server", name) or deck.program("server", deck.program_of(name))
    if not program:
        there = ", ".join(deck.names("server program")) or "none"
        raise reports.Refused(f"{reports.titled(path)} has no server {reports.shown(name)}; it has {there}")
    records = [item for item in program.items if item.entry.level == 1]
    found = next((item for item in records if item.name == record), None)
    if not found:
        there = ", ".join(item.name for item in records) or "none"
        raise reports.Refused(f"{name} has no record {reports.shown(record)} of level 01; it has {there}")
    return checked(fields_of(found)), deck


def fields_of(record):
    """The fields of a record of a program. One within OCCURS has its subscript in its name."""
    seen, fields = collections.Counter(), []
    for at, item in record.places():
        if not item.picture or item.picture.kind == "edited":
            raise reports.Refused(f"{item.name or 'an item'} of {record.name} has no picture that a record can have")
        seen[item] += 1
        fields.append(Field(f"{item.name} ({seen[item]})" if item.table else item.name, at, item.picture))
    return fields


def checked(fields):
    names = collections.Counter(field.name for field in fields if is_told(field))
    twice = [name for name, count in names.items() if count > 1]
    if twice or not names:
        raise reports.Refused(f"the layout has {twice[0]} twice" if twice else "the layout has no field")
    return fields


def is_told(field):
    """Whether a field has a column: FILLER has none."""
    return not field.name.startswith("FILLER")


def size_of(fields):
    return max(field.at + field.picture.size for field in fields)


def is_number(text, picture):
    sign = "[+-]" if picture.signed else ""
    return len(text) == picture.size and re.fullmatch(f"{sign}[0-9]+", text) is not None


def value_of(field, record):
    """The value of a field, and whether its characters are one: a text without the spaces at its end, or a number in decimal. What
    a number should be and is not is told as it stands; where the record is too short for it there is nothing."""
    text = record[field.at : field.at + field.picture.size]
    if field.picture.kind == "text" or not text:
        return text.rstrip(" "), True
    if not is_number(text, field.picture):
        return text, False
    digits = text.lstrip("+-")
    whole = digits[: field.picture.whole].lstrip("0") or "0"
    value = whole + ("." + digits[field.picture.whole :] if field.picture.decimals else "")
    return ("-" if text.startswith("-") and digits.strip("0") else "") + value, True


def characters_of(field, value):
    """The characters of a value in its field. An empty one is spaces or zero."""
    if not value.isascii() or not all(" " <= it <= "~" for it in value):
        raise BadValue(f"{ascii(value)} has a character that no record has")
    if field.picture.kind == "text":
        if len(value) > field.picture.size:
            raise BadValue(f"{value} has {len(value)} characters, and the field {field.picture.size}")
        return value.ljust(field.picture.size)
    return digits_of(field.picture, value.strip() or "0")


def digits_of(picture, value):
    """The digits of a number as an item of this picture holds them."""
    found = VALUE.fullmatch(value)
    if not found or not (found[2] or found[3]):
        raise BadValue(f"{value} is no number")
    whole, decimals = found[2].lstrip("0"), (found[3] or "").rstrip("0")
    if len(whole) > picture.whole or len(decimals) > picture.decimals:
        raise BadValue(f"{value} does not fit: {picture.whole} digits may stand before the point and {picture.decimals} after it")
    digits = whole.rjust(picture.whole, "0") + decimals.ljust(picture.decimals, "0")
    negative = found[1] == "-" and digits.strip("0")
    if negative and not picture.signed:
        raise BadValue(f"{value} is negative, and the field has no sign")
    return (("-" if negative else "+") if picture.signed else "") + digits


def record_of(fields, values):
    """The record of these values, by the names of the fields. A field without one is spaces or zero."""
    record = ""
    for field in fields:
        try:
            record = record.ljust(field.at) + characters_of(field, values.get(field.name, ""))
        except BadValue as problem:
            raise BadValue(f"{field.name}: {problem}") from problem
    return record
