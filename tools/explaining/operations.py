"""Notes on what servers do to files: statuses that nobody looks at, and changes of what was read without a lock."""
from explaining.facts import has_condition, related
from explaining.flow import Graph, TooManyWays

ARITHMETIC = ("ADD", "SUBTRACT", "MULTIPLY", "DIVIDE")
CHANGING = ("WRITE", "REWRITE", "DELETE")
STATUS = "FILE-STATUS"
# The status that tells of a record that is not there.
NO_RECORD = "11"


def names_in(tokens):
    return {token.upper for token in tokens if token.kind == "word"}


def operation_of(piece):
    """The operation on a file that a statement is: READ, NEXT, WRITE, REWRITE or DELETE, and its file; none of others."""
    files = piece.uses("file")
    if piece.kind != "statement" or not files:
        return None, None
    return "NEXT" if piece.verb == "READ" and piece.tokens[1].is_word("NEXT") and piece.uses("lookup") \
        and piece.form.form.startswith("READ NEXT") else piece.verb, files[0][0].upper


def is_locking(piece):
    return piece.form.form.startswith("READ") and any(token.is_word("LOCK") for token in piece.tokens)


def asks_for_status(deck):
    """Whether some server of the deck compares FILE-STATUS: a deck whose servers never do is not held to it."""
    pieces = [piece for program in deck.programs if program.side == "server" for piece in program.pieces]
    return any(has_condition(piece) and STATUS in names_in(piece.tokens) for piece in pieces if piece.kind == "statement")


def operation_notes(deck):
    """The notes on the servers of a deck."""
    for program in deck.programs if asks_for_status(deck) else ():
        if program.side == "server":
            work = Work(program)
            try:
                Graph(program, lambda piece: bool(piece.uses("file"))).walk(work.meet, mark=(None, frozenset(), frozenset()))
            except TooManyWays:
                continue
            yield from work.notes()


def message_names(program):
    """The names of the items that take the message of a server."""
    taking = [piece for piece in program.pieces if piece.kind == "statement" and piece.form.form.startswith("READ $RECEIVE")]
    items = [program.by_name.get(piece.uses("receiver")[0][0].upper) for piece in taking]
    return {name for item in items if item for name in related(item)}


class Work:
    """Goes the ways of a server. A mark is the operation whose status nobody has looked at yet, the last READ of each file where
    that did not lock, and the files of which a READ was looked at."""

    def __init__(self, program):
        self.program, self.looked, self.unread, self.used, self.unlocked = program, set(), {}, {}, {}
        self.message = message_names(program)

    def meet(self, state, piece):
        waiting, readers, looked = state.mark
        if piece is None:
            self.miss(waiting, looked, None)
            return state.mark, False
        operation, file = operation_of(piece)
        names = names_in(piece.tokens[1:])
        if waiting and STATUS in names:
            self.looked.add(waiting)
            looked |= {operation_of(waiting)[1]} if waiting.verb == "READ" else set()
            looked |= {absent(operation_of(waiting)[1])} if any(it.text == NO_RECORD for it in piece.tokens) else set()
            waiting = None
        if waiting and waiting.verb == "READ" and self.works_on(piece, names, waiting):
            self.used.setdefault(waiting, piece)
        if operation:
            self.miss(waiting, looked, piece)
            waiting = piece
            if operation in ("REWRITE", "DELETE"):
                for reader in (it for it in readers if operation_of(it)[1] == file):
                    self.unlocked.setdefault(reader, piece)
            elif piece.verb == "READ":
                readers = frozenset(it for it in readers if operation_of(it)[1] != file)
                readers |= frozenset() if is_locking(piece) else {piece}
        elif piece.verb == "WRITE":
            self.miss(waiting, looked, piece)
            return state.mark, False
        return (waiting, readers, frozenset(looked)), True

    def works_on(self, piece, names, reader):
        """Whether a statement computes with what a READ has read, asks for it, or puts it into a file."""
        item = self.program.by_name.get(reader.uses("receiver")[0][0].upper)
        is_work = piece.verb in ARITHMETIC or has_condition(piece) or operation_of(piece)[0] in CHANGING
        return is_work and item is not None and bool(names & related(item))

    def miss(self, waiting, looked, piece):
        """Takes note that nobody looks at a status before the next operation, the reply or the end."""
        operation, file = operation_of(waiting) if waiting else (None, None)
        is_asked = operation == "READ" and waiting.uses("lookup")[0][0].upper in self.message
        if is_asked or operation in CHANGING and (absent(file) if operation == "WRITE" else file) not in looked:
            self.unread.setdefault(waiting, piece)

    def notes(self):
        for waiting, piece in self.unread.items():
            if waiting not in self.looked and waiting not in self.unlocked.values() and waiting not in self.used:
                yield waiting.first, told_unread(waiting, piece)
        for reader, piece in self.used.items():
            what = f"the {piece.verb} of line {piece.first.line}"
            none = f"where there is none, {reader.uses('receiver')[0][0].text} is as it was"
            yield reader.first, f"nobody looks at FILE-STATUS after this READ before {what} works with the record: {none}"
        for reader, piece in self.unlocked.items():
            told = f"and the {piece.verb} of line {piece.first.line} changes it: READ .. WITH LOCK, or one of two units restarts"
            yield reader.first, f"this READ does not lock the record for a change, {told}"


def absent(file):
    """The mark that a record was found missing: a WRITE of it needs no look at its status."""
    return f"no record of {file}"


def told_unread(waiting, piece):
    operation, _ = operation_of(waiting)
    if operation == "READ":
        item = waiting.uses("receiver")[0][0].text
        return f"nobody looks at FILE-STATUS after this READ: where there is no such record, {item} is as it was"
    status = "10, a record of this key is there already," if operation == "WRITE" else "11, there is no such record,"
    following = f"before the {piece.verb} of line {piece.first.line}" if piece else "before the end"
    return f"nobody looks at FILE-STATUS after this {operation}, {following}: {status} changes nothing, and the server goes on"
