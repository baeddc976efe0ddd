"""Notes on registers: comparisons with a value that none of the statements before them gives (docs/reference/LANGUAGE.md)."""
from explaining.comparing import ALWAYS, NEVER
from explaining.facts import condition_of, has_condition, literal_of, numbers_after
from explaining.flow import Graph, TooManyWays
from explaining.words import listed

MOST_LINES = 4
REGISTER = {"requester": "TERMINATION-STATUS", "server": "FILE-STATUS"}


def register_notes(deck):
    """The notes on the registers that a statement sets and a condition asks for."""
    called = {tokens[0].named() for program in deck.programs for _, tokens in program.uses("program")}
    for program in deck.programs:
        setters = Setters(program)
        try:
            Graph(program, setters.is_meant).walk(setters.meet, knows=False)
        except TooManyWays:
            continue
        for piece, before in setters.before.items():
            # What another program has left in the register is not known.
            if program.section.name not in called or None not in before:
                yield from foreign_numbers(setters.register, condition_of(piece), before)


class Setters:
    """Goes the ways of a program. A mark is the last statement that set the register; for each condition they are kept."""

    def __init__(self, program):
        self.program, self.register, self.before = program, REGISTER[program.side], {}

    def is_meant(self, piece):
        return self.sets(piece) or self.asks(piece)

    def sets(self, piece):
        return piece.verb in ("ACCEPT", "SEND", "CALL") or bool(piece.uses("file"))

    def asks(self, piece):
        is_condition = has_condition(piece) and not piece.form.wanted
        return is_condition and any(token.is_word(self.register) for token in piece.tokens)

    def meet(self, state, piece):
        if piece is None:
            return state.mark, False
        if self.asks(piece):
            self.before.setdefault(piece, set()).add(state.mark)
        return piece if self.sets(piece) else state.mark, True


def numbers_from(piece):
    """What a register may be after a statement, or at the start; none where that is not known."""
    return {0} if piece is None else None if piece.verb == "CALL" else set(numbers_after(piece))


def foreign_numbers(register, lists, before):
    """What is to be told where a condition asks for numbers that the register has after none of these statements."""
    numbers, setters = [numbers_from(piece) for piece in before], sorted((it for it in before if it), key=lambda piece: piece.first.line)
    asked = [it for comparisons in lists for it in comparisons if it.left[0].is_word(register) and it.word == "=" and it.right
             and it.right[0].kind == "number"]
    if None in numbers or not setters:
        return
    foreign = [it for it in asked if not any(literal_of(it.right) in it_is for it_is in numbers)]
    # One that asks for more statuses than there may be is careful.
    if len(foreign) == len(asked):
        for comparison in foreign:
            yield comparison.right[0], f"this comparison {ALWAYS if comparison.is_turned else NEVER}: {told_setters(register, setters)}"


def told_setters(register, setters):
    """What a register is after some statements."""
    lines = list(dict.fromkeys(str(piece.first.line) for piece in setters))[:MOST_LINES]
    what = f"the {setters[0].verb} of line {lines[0]}" if len(setters) == 1 else f"the statements of lines {listed(lines, 'and')}"
    last = sorted(set().union(*(numbers_from(it) for it in setters)))
    named = listed([str(it) for it in last]) if len(last) <= MOST_LINES else f"{last[0]} to {last[-1]}"
    return f"after {what} {register} is {named}"
