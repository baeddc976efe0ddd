"""Why a name or an operand is refused (123, 161 to 164). Each function goes over what may be wrong on a line: it gives the token,
and what is to be told of it."""
from explaining.program import TOLD
from explaining.source_reasons import NO_PERIOD, takes_heading
from explaining.tokens import behind
from explaining.words import ADVICE, FIGURATIVE, LIKE_ITEMS, REGISTERS, VERBS, counted, near, suggestion

NAMED_PLACES = ("screen", "program", "class", "file")
ITEM_PLACES = ("any", "shown", "amount", "position", "sent", "receiver", "sum", "lookup", "record")
MOST_RECORD = 4000


def uses_at(deck, line, *places):
    """What the statements that begin on a line have in these places: the program, the statement, the place and the tokens."""
    program = deck.program_at(line)
    for piece in program.pieces if program else ():
        if piece.first.line == line and piece.kind == "statement":
            for place, tokens in piece.form.uses:
                if place in places:
                    yield program, piece, place, tokens


def unknown(program, token, kind, names):
    """What is to be told of a name that is not there."""
    others = [other for other in ("item", "screen", "paragraph") if other != kind and token.upper in program.names(other)]
    told = f"{token.text} is {'an' if others[0] == 'item' else 'a'} {others[0]}; " if others else f"{token.text}: "
    return told + suggestion(token.text, names, kind)


def unknown_paragraph(deck, line):
    """161"""
    for program, _, _, (token, *_) in uses_at(deck, line, "paragraph"):
        if token.upper not in program.names("paragraph"):
            yield from unclosed_before(program, token.upper)
            yield token, unknown(program, token, "paragraph", program.names("paragraph"))


def unclosed_before(program, name):
    """Where the paragraph of a name stands after a statement that no period closes."""
    for piece in program.pieces:
        last = piece.tokens[-1]
        if piece.kind in ("statement", "run") and last.upper == name and program.is_heading(last):
            before = piece.tokens[-2] if piece.tokens[1:] else last
            yield behind(before), NO_PERIOD.format(name, last.line) + f": it belongs after {before.text} in line {before.line}"
            return


def unknown_name(deck, line):
    """162"""
    for program, _, place, (token, *_) in uses_at(deck, line, *NAMED_PLACES):
        names, name = deck.names(place, program), token.named()
        if name in names:
            continue
        if token.kind == "text" and name.upper() in names:
            yield token, f"a name in quotes is compared as it stands: write {name.upper()}"
        if place == "class" and name in deck.names("server program"):
            classes = [it for it in deck.classes if deck.program_of(it) == name]
            told = f"SEND to its class, {classes[0]}" if classes else "ADD a class for it"
            yield token, f"{name} is a program of servers: {told}"
        if place == "program" and name in deck.names("server program") + deck.names("class"):
            yield token, f"{name} is of servers: SEND a message to its class"
        yield token, unknown(program, token, place, names)


def unknown_item(deck, line):
    """123"""
    program = deck.program_at(line)
    for entry in program.screen_entries if program else ():
        item = entry.behind("FROM", "TO", "USING")
        if entry.line == line and item and item.upper not in program.by_name:
            yield item, told_item(program, item)
    for program, piece, place, tokens in uses_at(deck, line, *ITEM_PLACES):
        known = FIGURATIVE.union(program.names("item"), program.names("screen") if place == "shown" else ())
        for token in tokens:
            if token.kind == "word" and token.upper not in known:
                is_heading = token is piece.tokens[-1] and token.column < piece.first.column and takes_heading(program, piece)
                yield token, NO_PERIOD.format(token.text, token.line) if is_heading else told_item(program, token)


def told_item(program, token):
    """What is to be told of a name that no item has."""
    owners = [side for side in REGISTERS if token.upper in REGISTERS[side]]
    if program.side in owners:
        return f"{token.text} is a register: MOVE it to an item, and show that"
    if owners:
        return f"{token.text} is a register of {owners[0]}s alone"
    if token.upper in LIKE_ITEMS:
        return f"{token.text}: {ADVICE[token.upper]}"
    names = [name for name in program.names("item") if name not in REGISTERS[program.side]]
    verbs = near(token.text, VERBS, 0.75)
    is_verb = verbs and not near(token.text, names)
    return f"{token.text}: did you mean {verbs[0]}?" if is_verb else unknown(program, token, "item", names)


class Operand:
    """An operand of a statement: an item, a register or a literal."""

    def __init__(self, program, tokens):
        self.first, self.subscript = tokens[0], tokens[2] if len(tokens) > 2 else None
        self.text = self.first.text
        is_word = self.first.kind == "word"
        self.item = program.by_name.get(self.first.upper) if is_word else None
        self.register = REGISTERS[program.side].get(self.first.upper) if is_word else None
        self.is_screen = is_word and self.first.upper in program.names("screen")

    @property
    def is_literal(self):
        return self.item is None and self.register is None

    @property
    def size(self):
        return self.register or (self.item.size if self.item else 0)

    @property
    def is_number(self):
        return bool(self.register) or self.item is not None and self.item.kind == "number"

    @property
    def kind(self):
        return "a register" if self.register else TOLD[self.item.kind] if self.item else "a literal"


def wrong_length(deck, line):
    """163"""
    for program, piece, place, tokens in uses_at(deck, line, "program", "file"):
        if place == "program":
            called = deck.program("requester", tokens[0].named())
            yield from wrong_arguments(program, piece, called) if called else ()
        else:
            yield from wrong_keys(program, piece, tokens[0].text, deck.files.get(tokens[0].upper, 0))


def wrong_keys(program, piece, file, key):
    """The keys and records of a statement that have another length than their file takes."""
    for operand in (Operand(program, tokens) for tokens in piece.uses("lookup")):
        if not operand.is_literal and operand.size != key:
            yield operand.first, f"{operand.text} has {counted(operand.size, 'character')}, and {file} has keys of {key}"
    for operand in (Operand(program, tokens) for tokens in piece.uses("record")):
        if not operand.is_literal and not key <= operand.size <= MOST_RECORD:
            yield operand.first, (f"{operand.text} has {counted(operand.size, 'character')}, and a record of {file} has {key} to "
                                  f"{MOST_RECORD:,}")


def wrong_arguments(program, piece, called):
    """The arguments of a CALL that do not fit the USING of its program."""
    arguments, parameters = [Operand(program, tokens) for tokens in piece.uses("receiver")], called.parameters
    name = called.section.name
    if len(arguments) != len(parameters):
        yield piece.first, f"the CALL has {counted(len(arguments), 'argument')}, and the USING of {name} has {len(parameters)}"
    for argument, parameter in zip(arguments, parameters):
        if not argument.is_literal and argument.size != parameter.size:
            yield argument.first, (f"{argument.text} has {counted(argument.size, 'character')}, and {parameter.entry.name.text} of "
                                   f"{name} has {parameter.size}")


def wrong_kind(deck, line):
    """164"""
    for program, piece, place, tokens in uses_at(deck, line, *ITEM_PLACES):
        operand, has_giving = Operand(program, tokens), any(token.is_word("GIVING") for token in piece.tokens)
        if place == "sum" and has_giving and tokens is not piece.uses("sum")[-1]:
            place = "amount"
        yield from misfit(operand, place)
        yield from wrong_subscript(program, operand)


def misfit(operand, place):
    """What is wrong with the kind of an operand in its place."""
    if place == "amount" and not (operand.is_number or operand.first.kind == "number"):
        yield operand.first, f"{operand.text} is {operand.kind}, and here a number is wanted"
    if place in ("position", "sum") and not operand.is_number:
        yield operand.first, f"{operand.text} is {operand.kind}, and here an item that is a number is wanted"
    if place in ("sent", "receiver", "lookup", "record") and operand.is_literal:
        yield operand.first, f"{operand.text} is a literal, and here an item is wanted: MOVE it to one"
    if place in ("receiver", "sum") and operand.register:
        yield operand.first, f"{operand.text} is a register, which nothing is put into: take an item"


def wrong_subscript(program, operand):
    """What is wrong with the subscript of an operand."""
    item, subscript, text = operand.item, operand.subscript, operand.text
    if subscript is None:
        if item is not None and item.table:
            yield operand.first, f"{text} is of a table: write {text} (1), or an item in place of 1"
        return
    if operand.is_literal and operand.is_screen:
        yield operand.first, f"{text} is a screen, and has no subscript"
    if item is None or not item.table:
        yield operand.first, f"{text} stands in no OCCURS, and has no subscript"
    if subscript.kind == "number":
        if "." in subscript.text:
            yield subscript, "a subscript has no decimals"
        return
    index = Operand(program, [subscript]).item
    if index is not None and (index.kind != "number" or index.picture.signed or index.table):
        yield subscript, f"{subscript.text} is no subscript: that is a number, or a number item without sign and OCCURS"
