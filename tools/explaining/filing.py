"""Notes on the records of files: those that are shorter or longer than what the servers read, or stand in other columns."""
import re

from explaining.facts import related
from explaining.tokens import Token
from explaining.words import counted


def items_of_file(deck, name):
    """The items into which servers read the records of a file, or from which they write them, each with its program."""
    found = []
    for program in deck.programs:
        for piece in program.pieces if program.side == "server" else ():
            files = piece.uses("file") if piece.kind == "statement" else []
            if files and files[0][0].upper == name:
                items = [program.by_name.get(tokens[0].upper) for tokens in piece.uses("receiver", "record")]
                found += [(program, item) for item in items if item and (program, item) not in found]
    return found


def rewritten(deck, name):
    """The items from which servers rewrite the records of a file."""
    for program in deck.programs:
        for piece in program.pieces if program.side == "server" else ():
            if piece.verb == "REWRITE" and piece.kind == "statement" and piece.uses("file")[0][0].upper == name:
                item = program.by_name.get(piece.uses("record")[0][0].upper)
                yield from [item] if item else ()


def tests_number(program, leaf):
    """Whether a program asks whether an item is NUMERIC, so that it expects what is none."""
    tokens = [token for piece in program.pieces for token in piece.tokens]
    return any(token.is_word(leaf.name) and any(it.is_word("NUMERIC") for it in tokens[at + 1 : at + 4])
               for at, token in enumerate(tokens))


def numbers_of(items):
    """The numbers in the items of a file, each with its place, its program and the whole item."""
    for program, item in items:
        for at, leaf in item.places():
            if leaf.kind == "number" and not tests_number(program, leaf):
                yield program, item, at, leaf


def record_notes(deck):
    """The notes on the records of each file."""
    for section in deck.of_kind("FILE"):
        items = items_of_file(deck, section.name)
        records = [(number, text) for number, text in section.lines if text.strip(" ")]
        for number, text in records:
            told = told_record(deck, section, text, items, records)
            if told:
                yield Token("record", text, number, 1), told


def absent_notes(deck):
    """Operations on files that never have a record, and keys that nothing sets."""
    operations = [(program, piece, piece.uses("file")[0][0]) for program in deck.programs if program.side == "server"
                  for piece in program.pieces if piece.kind == "statement" and piece.uses("file")]
    written = {file.upper for _, piece, file in operations if piece.verb == "WRITE"}
    filled = {section.name for section in deck.of_kind("FILE") if any(text.strip(" ") for _, text in section.lines)}
    for program, piece, file in operations:
        if file.upper not in written | filled:
            yield file, f"{file.text} never has a record: it has none at the start, and no server has a WRITE {file.text}"
        key = piece.uses("lookup")
        item = program.by_name.get(key[0][0].upper) if key and "NEXT" not in piece.form.form else None
        if item and not item.table and item.entry.behind("VALUE") is None and not item.members and is_never_set(program, item, piece):
            yield key[0][0], f"nothing has put a key into {item.name} before this {piece.verb}"


def is_never_set(program, item, reader):
    """Whether no statement but the READ that looks for it changes an item."""
    names = related(item)
    return not any(tokens[0].upper in names and piece is not reader for piece, tokens in program.uses("receiver", "sum"))


def told_record(deck, section, text, items, records):
    """What is to be told of a record."""
    if text.startswith("*"):
        return "a line that begins with * is a record here, and no comment"
    if re.match(r"S?F([1-9]|1[0-6]) [A-Za-z][A-Za-z0-9-]*=", text):
        return "this record looks like an entry: is the line of its section, ?ENTRIES name, missing before it?"
    if text.startswith(" ") and sum(it.startswith(" ") for _, it in records) * 2 <= len(records):
        return f"this record begins with a space, which belongs to its key: {section.name} has no other such key"
    for _, item, at, leaf in numbers_of(items):
        if len(text) < at + leaf.size:
            return (f"the record has {counted(len(text), 'character')}, and {item.name} of line {item.entry.line} {item.size}: "
                    f"{named(leaf, at)} lacks its digits")
    for _, _, at, leaf in numbers_of(items):
        digits = text[at : at + leaf.size]
        if not is_number(digits, leaf.picture):
            return f"{named(leaf, at)} is {digits!r} here, which is no number".replace("'", '"')
    longest = max([item.size for _, item in items], default=0)
    written = [item for item in rewritten(deck, section.name) if len(text.rstrip(" ")) > max(longest, item.size)]
    if written:
        item = written[0]
        told = f"{item.name} of line {item.entry.line} {item.size}: the rest is lost"
        return f"the record has {counted(len(text), 'character')}, and {told}"
    return None


def named(leaf, at):
    return f"{leaf.name or 'a number'} (columns {at + 1} to {at + leaf.size})"


def is_number(digits, picture):
    body = digits[1:] if picture.signed and digits[:1] in ("+", "-") else digits
    return body.isdigit() and (not picture.signed or digits[:1] in ("+", "-"))
