"""Notes on transactions that begin in another one, or end where none is open (docs/reference/LANGUAGE.md)."""
from explaining.flow import Graph, TooManyWays
from explaining.ways import CLOSING, INSIDE

UNITS = (*INSIDE, "BEGIN-TRANSACTION")
OPEN, CLOSED, UNKNOWN = "open", "closed", "unknown"


def nesting_notes(deck):
    """BEGINs that find a transaction open on each way, and ends that find none open on any."""
    called = {tokens[0].named() for program in deck.programs for _, tokens in program.uses("program")}
    for program in deck.programs:
        if any(piece.verb in UNITS for piece in program.pieces if piece.kind == "statement"):
            work = Nesting(deck)
            start = UNKNOWN if program.section.name in called else CLOSED
            try:
                Graph(program, lambda piece: piece.verb in UNITS).walk(work.meet, mark=(start, None))
            except TooManyWays:
                continue
            yield from work.notes()


def has_units(deck, program, seen=()):
    """Whether a program, or one that it calls, begins or ends a transaction."""
    if program is None or program in seen:
        return program is None
    own = any(piece.kind == "statement" and piece.verb in UNITS for piece in program.pieces)
    return own or any(has_units(deck, deck.program("requester", tokens[0].named()), (*seen, program)) for _, tokens in program.uses("program"))


class Nesting:
    """Goes the ways of a requester. A mark says whether a transaction is open, and by which statement that is so."""

    def __init__(self, deck):
        self.deck, self.right, self.wrong = deck, set(), {}

    def meet(self, state, piece):
        now, since = state.mark
        if piece is None:
            return state.mark, False
        if piece.verb == "CALL":
            other = self.deck.program("requester", piece.uses("program")[0][0].named())
            return ((UNKNOWN, None) if has_units(self.deck, other) else state.mark), True
        if piece.verb not in UNITS:
            return state.mark, True
        bad = OPEN if piece.verb == "BEGIN-TRANSACTION" else CLOSED
        if now == bad:
            self.wrong.setdefault(piece, since)
            return state.mark, False
        self.right.add(piece)
        return (OPEN if bad == OPEN else CLOSED, piece), piece.verb != "RESTART-TRANSACTION"

    def notes(self):
        for piece, since in self.wrong.items():
            if piece not in self.right and piece.verb == "BEGIN-TRANSACTION":
                yield piece.first, f"a transaction is open here already, from line {since.first.line}: this BEGIN-TRANSACTION is FAULT 205"
            elif piece not in self.right:
                why = f": the {since.verb} of line {since.first.line} has ended it" if since else ": none has begun"
                yield piece.first, f"no transaction is open at this {piece.verb}, which is FAULT 206{why}"
