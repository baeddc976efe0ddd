"""The statements of a paragraph as a tree: each with those of its branches."""
from explaining.facts import condition_of, has_condition


class Step:
    """A statement with its branches, where it has some: the statements of each, the ELSE between them, and what closes them."""

    def __init__(self, piece):
        self.piece, self.then, self.other, self.turned, self.closed = piece, [], [], None, None


def steps_of(pieces):
    """The statements of a paragraph, each with those of its branches."""
    top, open_steps = [], []
    for piece in pieces:
        if piece.kind == "period":
            for step in open_steps:
                step.closed = piece
            open_steps.clear()
        elif piece.kind == "else":
            while open_steps and open_steps[-1].turned:
                open_steps.pop()
            if open_steps:
                open_steps[-1].turned = piece
        elif piece.kind == "end" and open_steps:
            open_steps.pop().closed = piece
        elif piece.kind == "statement":
            step, inner = Step(piece), open_steps[-1] if open_steps else None
            (top if inner is None else inner.other if inner.turned else inner.then).append(step)
            if piece.opens:
                open_steps.append(step)
    return top


def all_steps(steps):
    """These statements, and all in their branches."""
    for step in steps:
        yield step
        yield from all_steps(step.then)
        yield from all_steps(step.other)


class Trees:
    """The trees of a program's paragraphs, by their names."""

    def __init__(self, program):
        self.trees = {}
        for name, pieces in program.paragraphs:
            self.trees.setdefault(name.upper, steps_of(pieces))

    def matters(self, steps, holding, is_meant):
        """Whether a statement of a kind is among some, or in a paragraph of those that they perform."""
        return any(is_meant(it.piece) or any(tokens[0].upper in holding for tokens in it.piece.uses("paragraph"))
                   for it in all_steps(steps))

    def holding(self, is_meant):
        """The paragraphs that have a statement of a kind, or perform one that has."""
        found, size = set(), -1
        while len(found) > size:
            size = len(found)
            found |= {name for name, steps in self.trees.items() if self.matters(steps, found, is_meant)}
        return found

    def asked(self, is_meant):
        """The names in those conditions that statements of a kind hang on."""
        holding, names = self.holding(is_meant), set()
        for step in (it for steps in self.trees.values() for it in all_steps(steps) if has_condition(it.piece)):
            if self.matters([step], holding, is_meant):
                names |= {name for comparisons in condition_of(step.piece) for it in comparisons for name in it.names()}
        return frozenset(names)
