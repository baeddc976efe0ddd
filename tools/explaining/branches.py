"""The branches of IF and ON SIZE ERROR that are open, piece by piece (docs/reference/LANGUAGE.md)."""

MOST_OPEN = 64


class Branch:
    """A branch that is open: the piece that opened it, and its ELSE if that has come."""

    def __init__(self, opener):
        self.opener, self.turned = opener, None

    @property
    def begin(self):
        """The piece after which it stands: its ELSE, or what opened it."""
        return self.turned or self.opener

    @property
    def line(self):
        return self.begin.first.line


class Branches:
    """The open branches, and the last one that a period closed, with that period."""

    def __init__(self):
        self.open, self.closed = [], None

    def take(self, piece):
        """Takes a piece, and gives whether it finds the branch that it needs."""
        if piece.kind == "period":
            self.closed = (self.open[0].opener, piece) if self.open else self.closed
            self.open = []
        elif piece.kind == "else":
            while self.open and self.open[-1].turned:
                self.open.pop()
            if not self.open:
                return False
            self.open[-1].turned = piece
        elif piece.kind == "end":
            if not self.open:
                return False
            self.open.pop()
        elif piece.kind == "statement" and piece.opens:
            self.open.append(Branch(piece))
        return True


def depths(pieces):
    """How many branches are open in front of each piece."""
    branches, found = Branches(), []
    for piece in pieces:
        found.append(len(branches.open))
        branches.take(piece)
    return found
