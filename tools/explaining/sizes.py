"""Notes on lengths: texts and numbers that their item cuts, messages and replies of other lengths, and items that nobody uses."""
from decimal import Decimal

from explaining.facts import is_literal, literal_of, related
from explaining.words import counted

MESSAGE_ROOM = 80
MOST_UNUSED = 4


def size_notes(program):
    """What is cut when it is moved."""
    for piece in program.pieces:
        if piece.kind != "statement" or piece.form.wanted:
            continue
        if piece.verb == "MOVE":
            source = piece.uses("any")[0]
            for name in dict.fromkeys(target[0].upper for target in piece.uses("receiver")):
                item = program.by_name.get(name)
                if item and is_literal(source) and literal_told(item, source):
                    yield source[0], literal_told(item, source)
                elif item and not is_literal(source):
                    yield from item_notes(program, item, source[0])
        elif piece.verb == "DISPLAY" and piece.tokens[1].kind == "text" and len(piece.tokens[1].named()) > MESSAGE_ROOM:
            size = len(piece.tokens[1].named())
            yield piece.tokens[1], f"the text has {size} characters, and row 24 has {MESSAGE_ROOM}: the rest is cut"


def field_notes(program):
    """Entry fields that take more than their item holds."""
    for field in (it for screen in program.screens for it in screen.fields):
        item, taken = program.by_name.get(field.item.upper) if field.item else None, field.picture
        if not field.takes_entries or not item or not item.picture or not taken:
            continue
        held = item.picture
        if taken.kind == "text" and taken.size > held.size:
            yield field.entry.name or field.item, f"the field takes {counted(taken.size, 'character')}, and {item.name} holds {held.size}: the rest is cut"
        elif taken.kind != "text" and (taken.whole > held.whole or taken.decimals > held.decimals or taken.signed > held.signed):
            lost = "digits in front of the point" if taken.whole > held.whole else "decimals" if taken.decimals > held.decimals else "sign"
            yield field.entry.name or field.item, f"the field takes numbers that {item.name} does not hold: their {lost} are lost".replace("sign are", "sign is")


def literal_told(item, source):
    """What is to be told of a literal that is moved to an item."""
    token, value = source[0], literal_of(source)
    if token.kind == "text" and item.kind != "number":
        size = len(token.named().rstrip(" "))
        told = f"the text has {counted(size, 'character')}, and {item.name} {item.size}: the rest is cut"
        return told if size > item.size else None
    if token.kind == "text" and not token.named().isdigit():
        return f"{item.name} is a number, and {token.text} a text: what is no digit counts as 0" if token.named().strip() else None
    if item.kind != "number" or value is None or token.kind == "word":
        return None
    value, picture = Decimal(token.named() if token.kind == "text" else token.text), item.picture
    whole, scaled = int(abs(value)), abs(value) * 10 ** picture.decimals
    if whole >= 10**picture.whole:
        return f"{item.name} has {counted(picture.whole, 'digit')} in front of the point: of {token.text} the first ones are cut"
    if scaled != int(scaled):
        return f"{item.name} has {counted(picture.decimals, 'decimal')}: of {token.text} the rest is cut"
    return f"{item.name} has no sign: that of {token.text} is lost" if value < 0 and not picture.signed else None


def item_notes(program, item, source):
    """An item that cuts what is moved to it, where that is moved on to one that has room for all."""
    sent = program.by_name.get(source.upper)
    if sent and "number" not in (sent.kind, item.kind) and sent.size > item.size and passes_on(program, item, sent.size):
        other = f"{source.text}, which line {source.line} moves to it, {sent.size}"
        yield item.entry.name, f"{item.name} has {counted(item.size, 'character')}, and {other}: the rest is cut"


def passes_on(program, item, size):
    """Whether an item is moved on to one that is as long as what was cut, so that the cut is lost there."""
    for piece, tokens in program.uses("any"):
        if piece.verb == "MOVE" and tokens[0].upper == item.name:
            targets = [program.by_name.get(name) for name in {target[0].upper for target in piece.uses("receiver")}]
            if any(target and target.size >= size for target in targets):
                return True
    return False


def unused_notes(program):
    """Items that neither a statement nor a screen names, nor one that they stand in or that stands in them."""
    named = {token.upper for piece in program.pieces for token in piece.tokens if token.kind == "word"}
    named |= {field.item.upper for screen in program.screens for field in screen.fields if field.item}
    named |= {item.name for item in program.parameters}
    unused = [item for item in program.items if item.parent is None and item.name not in ("", "FILLER")
              and not related(item) & named]
    if len(unused) > MOST_UNUSED:
        yield unused[0].entry.name, f"nothing uses {unused[0].name}, {unused[1].name} and {len(unused) - 2} other items"
    for item in unused if len(unused) <= MOST_UNUSED else ():
        yield item.entry.name, f"nothing uses {item.name}"
