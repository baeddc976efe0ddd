"""Notes on the messages between requesters and servers: their lengths, and the codes of replies (docs/reference/LANGUAGE.md)."""
from explaining.words import counted, listed

CODE_SIZE = 4


def item_of(program, tokens):
    """The item that an operand names, or none."""
    return program.by_name.get(tokens[0].upper)


def ends_of(program, verb, place):
    """The items in which a server takes its message, or from which it replies."""
    pieces = [piece for piece in program.pieces if piece.verb == verb and piece.tokens[1].is_word("$RECEIVE")]
    return [item_of(program, piece.uses(place)[0]) for piece in pieces]


def sends(deck):
    """Each SEND with its program, the name of its class, and the server of that."""
    for program in deck.programs:
        for piece in program.pieces:
            if piece.kind == "statement" and piece.verb == "SEND":
                name = piece.uses("class")[0][0].named()
                yield program, piece, name, deck.program("server", deck.program_of(name))


def message_notes(deck):
    """Messages and replies that are longer than each item that takes them, or that lack numbers of it."""
    for program, piece, name, server in sends(deck):
        sent, taken = item_of(program, piece.uses("sent")[0]), ends_of(server, "READ", "receiver")
        if sent and taken and None not in taken and not any(may_take(item, sent.size) for item in taken):
            other = f"{taken[0].name}, in which the server of {name} takes it (line {taken[0].entry.line}), has {taken[0].size}"
            yield piece.uses("sent")[0][0], f"{sent.name} has {counted(sent.size, 'character')}, and {other}"
        replies = ends_of(server, "WRITE", "sent")
        for token in {tokens[0].upper: tokens[0] for tokens in piece.uses("receiver")}.values():
            item = program.by_name.get(token.upper)
            if item and replies and None not in replies and not any(may_yield(item, reply) for reply in replies):
                reply = replies[0]
                other = f"{reply.name}, the reply of the server of {name} (line {reply.entry.line}), has {reply.size}"
                yield token, f"{item.name} (line {item.entry.line}) has {counted(item.size, 'character')}, and {other}"


def may_take(item, size):
    """Whether an item may be meant to take a message of a size: the message is no longer, and has all numbers of the item."""
    has_numbers = all(leaf.kind != "number" or at + leaf.size <= size for at, leaf in item.places())
    return size <= item.size and has_numbers


def may_yield(item, reply):
    """The same of a reply, whose beginning may be all that is wanted: its code, or what stands in front of a text."""
    if item.size == CODE_SIZE or reply.size <= item.size:
        return item.size == CODE_SIZE or may_take(item, reply.size)
    return all(leaf.kind != "number" or at + leaf.size <= item.size for at, leaf in reply.places())


def reply_notes(deck):
    """Replies whose code is not four digits, and codes that a server gives and no SEND to it names."""
    named = {}
    for _, piece, name, server in sends(deck):
        named.setdefault(server, (name, set()))[1].update(int(tokens[0].text) for tokens in piece.uses("code"))
    for server, (name, codes) in named.items():
        for reply in ends_of(server, "WRITE", "sent"):
            code = next(reply.places())[1] if reply else None
            if code and code.kind == "number" and (code.size != 4 or code.picture.signed):
                told = f"{code.name} begins the reply of {server.section.name}, and is no code of four digits: PIC 9(4)"
                yield code.entry.name, told
            elif code and code.kind == "number":
                yield from code_notes(server, code, name, codes)


def code_notes(server, code, name, codes):
    """The codes that a server puts into the item of its code and that no SEND names, where it does so by numbers alone."""
    changed, moved, value = list(changes(server, code)), moved_numbers(server, code), code.entry.behind("VALUE")
    if not changed:
        moved = [(code.entry.name, int(value.text) if value else 0)]
    elif len(moved) < len(changed):
        return
    for token, number in moved:
        if number not in codes:
            named = listed([str(it) for it in sorted(codes)], "and")
            yield token, f"the code of the reply is {number} here, and no SEND to {name} has CODE {number}: they have {named}"


def changes(server, code):
    """The statements that change an item or a group that it stands in."""
    names, item = set(), code
    while item:
        names.add(item.name)
        item = item.parent
    for piece, tokens in server.uses("receiver", "sum"):
        if tokens[0].upper in names:
            yield piece


def moved_numbers(server, code):
    """The whole numbers that statements MOVE to an item, each with its token."""
    sources = [piece.uses("any")[0][0] for piece in changes(server, code) if piece.verb == "MOVE"
               and any(tokens[0].upper == code.name for tokens in piece.uses("receiver"))]
    return [(token, int(token.text)) for token in sources if token.kind == "number" and token.text.isdigit()]
