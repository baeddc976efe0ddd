"""Notes on the ways through a program: transactions that stay open, servers that do not reply, and what never runs."""
from explaining.flow import Graph, TooManyWays, reaching, wrong_turn
from explaining.steps import steps_of

CLOSING = ("END-TRANSACTION", "ABORT-TRANSACTION")
INSIDE = (*CLOSING, "RESTART-TRANSACTION")


def ends_run(program, piece):
    """Whether nothing runs after a statement."""
    words = [token.upper for token in piece.tokens[:2]]
    return words in (["STOP", "RUN"], ["EXIT", "PROGRAM"], ["WRITE", "$RECEIVE"]) or piece.verb == "RESTART-TRANSACTION"


def dead_notes(program):
    """Statements after one that ends the run."""
    for _, pieces in program.paragraphs:
        yield from dead_in(program, steps_of(pieces))


def dead_in(program, steps):
    texts = [[token.upper for token in step.piece.tokens] for step in steps]
    for place, (step, following) in enumerate(zip(steps, steps[1:])):
        # Where what never runs has run just before, nothing is lost.
        if ends_run(program, step.piece) and texts[place + 1 :] != texts[max(0, 2 * place + 1 - len(steps)) : place]:
            first, words = step.piece.first, " ".join(token.upper for token in step.piece.tokens[:2])
            does = "goes back to BEGIN-TRANSACTION" if first.is_word("RESTART-TRANSACTION") else "ends the run"
            if not following.piece.verb in ("STOP", "EXIT"):
                yield following.piece.first, f"this never runs: {words} in line {first.line} {does} before it"
            return
    for step in steps:
        yield from dead_in(program, step.then)
        yield from dead_in(program, step.other)


def ends_of_units(deck):
    """The statements of all requesters that end a transaction, and those that begin one."""
    verbs = [piece.verb for program in deck.programs for piece in program.pieces if piece.kind == "statement"]
    return any(verb in CLOSING for verb in verbs), "BEGIN-TRANSACTION" in verbs


def unit_notes(deck):
    """Transactions that a way leaves open, and those that nothing ends or begins."""
    has_ends, has_begins = ends_of_units(deck)
    for program in deck.programs:
        statements = [piece for piece in program.pieces if piece.kind == "statement"]
        begins = [piece for piece in statements if piece.verb == "BEGIN-TRANSACTION"]
        for begin in begins:
            if not has_ends:
                yield begin.first, "no END-TRANSACTION and no ABORT-TRANSACTION ends this transaction"
        if not has_begins:
            for piece in statements:
                if piece.verb in INSIDE:
                    yield piece.first, f"no BEGIN-TRANSACTION begins the transaction that this {piece.verb} is of"
                    break
        if begins and has_ends:
            yield from open_units(deck, program)


def closes_elsewhere(deck, program, seen=()):
    """The programs that end a transaction of their caller, or whose callees do."""
    found = any(piece.kind == "statement" and piece.verb in INSIDE for piece in program.pieces)
    for _, tokens in program.uses("program"):
        other = deck.program("requester", tokens[0].named())
        found = found or other is not None and other not in seen and closes_elsewhere(deck, other, (*seen, program))
    return found


class Units:
    """Goes the ways of a requester. A mark is the BEGIN-TRANSACTION whose unit is open; an ACCEPT ends a way on which one is, but
    where it is told to go on."""

    def __init__(self, deck, goes_on=False):
        self.deck, self.goes_on = deck, goes_on
        self.good, self.bad = {}, {}

    def meet(self, state, piece):
        """What a statement does to the open unit."""
        mark = state.mark
        if self.goes_on and piece is not None and piece.verb == "ACCEPT":
            return mark, True
        if piece is None or piece.verb in ("ACCEPT", "BEGIN-TRANSACTION") and mark:
            if mark:
                self.bad.setdefault(mark, []).append((state, piece))
            return None, piece is not None and piece.verb == "ACCEPT"
        if piece.verb == "BEGIN-TRANSACTION":
            return piece, True
        if piece.verb in CLOSING:
            if mark:
                self.good.setdefault(mark, set()).add(state.place)
            return None, True
        if piece.verb == "RESTART-TRANSACTION":
            return None, False
        if piece.verb == "CALL" and mark:
            called = self.deck.program("requester", piece.uses("program")[0][0].named())
            if called and closes_elsewhere(self.deck, called):
                return None, False
        return mark, True


def open_units(deck, program):
    """The ways of a program on which its transaction stays open."""
    try:
        units, free, asking = Units(deck), Units(deck), Units(deck, goes_on=True)
        graph = Graph(program, lambda piece: piece.verb in (*INSIDE, "BEGIN-TRANSACTION"))
        graph.walk(units.meet)
        before, behind = graph.walk(free.meet, knows=False), graph.walk(asking.meet, knows=False)
    except TooManyWays:
        return
    for begin, found in units.bad.items():
        good = free.good.get(begin, set())
        # An ACCEPT in a transaction is no fault where its end comes after it.
        closed = reaching(behind, asking.good.get(begin, ()), {it.place for it, _ in asking.bad.get(begin, ())})
        found = [(state, piece) for state, piece in found if piece is None or piece.verb != "ACCEPT" or state.place not in closed]
        if good and found:
            state, piece = found[0]
            barred = {it.place for it, _ in free.bad.get(begin, ())}
            turn = wrong_turn(state, reaching(before, good, barred))
            if turn:
                where = f"the {piece.verb} of line {piece.first.line}" if piece else "the end of the program"
                yield turn[0].first, (f"on this way no END-TRANSACTION and no ABORT-TRANSACTION ends the transaction of line "
                                      f"{begin.first.line}: it is open at {where}")


def is_reply(piece):
    return piece.verb == "WRITE" and piece.tokens[1].is_word("$RECEIVE")


class Replies:
    """Goes the ways of a server to its replies."""

    def __init__(self):
        self.good, self.bad = set(), []

    def meet(self, state, piece):
        if piece is None:
            self.bad.append(state)
        elif is_reply(piece):
            self.good.add(state.place)
            return None, False
        return None, True


def no_reply_notes(program):
    """A server without a reply, and ways through one that come to none."""
    if program.side != "server":
        return
    replies, free = Replies(), Replies()
    try:
        graph = Graph(program, is_reply)
        graph.walk(replies.meet)
        before = graph.walk(free.meet, knows=False)
    except TooManyWays:
        return
    if not replies.good and program.paragraphs:
        yield program.paragraphs[0][0], "no way through this server comes to a WRITE $RECEIVE: who sends to it gets FAULT 209"
    elif replies.bad:
        turn = wrong_turn(replies.bad[0], reaching(before, free.good))
        if turn:
            branch = "where this does not hold" if turn[1] is False and turn[0].opens else "on this way"
            yield turn[0].first, f"{branch} the server ends without a reply, and who sent has FAULT 209: no WRITE $RECEIVE follows"
