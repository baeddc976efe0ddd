"""What the items of a program may be, as far as literals, registers and items that are known so are moved to them."""
from decimal import Decimal

from explaining.facts import fits, is_literal, literal_of, related


class Values:
    """What the items of a program may be; `registers` says it of registers."""

    def __init__(self, program, registers):
        self.program, self.changes, self.registers, self.open = program, {}, registers, set()
        for piece in program.pieces:
            if piece.kind == "statement":
                self.take(piece)
        for item in program.parameters:
            self.put(item.name, None)

    def put(self, name, source):
        item = self.program.by_name.get(name)
        for it in related(item) if item else ():
            self.changes.setdefault(it, []).append(source if it == name else None)

    def take(self, piece):
        """Takes what a statement moves to items: a literal, an item or a register; none of others."""
        sums = piece.uses("sum")
        source = piece.uses("any")[0] if piece.verb == "MOVE" else None
        for name in dict.fromkeys(tokens[0].upper for tokens in piece.uses("receiver") + sums[-1:]):
            self.put(name, source if source and len(source) == 1 else None)
        for screen in piece.uses("screen") if piece.verb == "ACCEPT" else ():
            for field in (it for one in self.program.screens if one.name == screen[0].upper for it in one.fields):
                if field.takes_entries and field.item:
                    self.put(field.item.upper, None)

    def of(self, item):
        """All values that an item may be; none where it may be others."""
        if item.members or item.table or item.entry.section != "WORKING-STORAGE" or item.name in self.open:
            return None
        value = item.entry.behind("VALUE")
        found = {literal_of([value]) if value else "" if item.kind == "text" else Decimal(0)}
        self.open.add(item.name)
        for source in self.changes.get(item.name, ()):
            known = self.moved(item, source) if source else None
            found = None if found is None or known is None else found | known
        self.open.discard(item.name)
        return found if found is not None and all(fits(item, it) for it in found) else None

    def moved(self, item, source):
        """The values that a source may give to an item; none where they are not known."""
        if is_literal(source):
            is_zero = item.kind == "number" and source[0].is_word("ZERO", "ZEROS", "ZEROES")
            return {Decimal(0) if is_zero else literal_of(source)}
        if source[0].upper in self.registers:
            return {Decimal(it) for it in self.registers[source[0].upper]} if item.kind == "number" else None
        other = self.program.by_name.get(source[0].upper)
        return self.of(other) if other and other.kind == item.kind else None

    def may_be_unlike(self, item):
        """Whether a number item may hold what is no number, since a text or a record is moved to it or to its group."""
        return any(source is None or not is_literal(source) for source in self.changes.get(item.name, ()))
