"""What is known of the items of a program on a way through it: which comparisons hold there (docs/reference/LANGUAGE.md)."""
from decimal import Decimal

from explaining.words import FIGURATIVE, REGISTERS

OPERATORS = {"EQUAL": "=", "GREATER": ">", "LESS": "<"}
# What FILE-STATUS may be after an operation.
STATUSES = {"READ": (0, 11), "NEXT": (0, 1), "WRITE": (0, 10), "REWRITE": (0, 11), "DELETE": (0, 11)}
# <= is the contrary of >, and >= that of <.
CONTRARY = {"<=": ">", ">=": "<"}


def literal_of(tokens):
    """What a literal says: a number, or a text without the spaces at its end; none of an item, and of what fills."""
    first = tokens[0]
    if first.kind == "number":
        return Decimal(first.text)
    if first.kind == "text":
        return first.named().rstrip(" ")
    return "" if first.is_word("SPACE", "SPACES") else None


def is_literal(tokens):
    return tokens[0].kind in ("number", "text") or tokens[0].is_word(*FIGURATIVE)


class Comparison:
    """A comparison of a condition: its two sides as tokens, how they are compared, and whether it is turned by NOT."""

    def __init__(self, left, word, right, is_turned):
        self.left, self.right = left, right
        contrary = CONTRARY.get(word)
        self.word, self.is_turned = contrary or word, is_turned != bool(contrary)

    @property
    def key(self):
        """What two comparisons have in common that hold together, but for NOT."""
        return tuple(" ".join(token.upper for token in side) for side in (self.left, self.right)) + (self.word,)

    def names(self):
        return {token.upper for token in self.left + self.right if token.kind == "word"}


def operand_at(tokens, at):
    """Where the operand ends that begins at a place."""
    return at + 4 if tokens[at + 1 : at + 2] and tokens[at + 1].is_mark("(") else at + 1


def comparison_at(tokens, at):
    """The comparison that begins at a place, and where it ends."""
    end = operand_at(tokens, at)
    left, at = tokens[at:end], end
    at += tokens[at].is_word("IS")
    is_turned = tokens[at].is_word("NOT")
    at += is_turned
    word, at = tokens[at].upper, at + 1
    if word == "NUMERIC":
        return Comparison(left, word, [], is_turned), at
    at += tokens[at].is_word("TO", "THAN")
    end = operand_at(tokens, at)
    return Comparison(left, OPERATORS.get(word, word), tokens[at:end], is_turned), end


def condition_of(piece):
    """The condition of an IF or of a PERFORM .. UNTIL: lists of comparisons, of which all of one list have to hold."""
    words = [token.upper for token in piece.tokens]
    at = words.index("UNTIL") + 1 if piece.verb == "PERFORM" else 1
    lists = [[]]
    while True:
        comparison, at = comparison_at(piece.tokens, at)
        lists[-1].append(comparison)
        if at >= len(words) or words[at] not in ("AND", "OR"):
            return lists
        if words[at] == "OR":
            lists.append([])
        at += 1


class Facts:
    """What is known on a way: comparisons by their keys, each with whether it holds and the names in it. Nothing is
    kept of names that nobody asks for."""

    def __init__(self, asked, known=()):
        self.asked, self.known = asked, dict(known)

    def frozen(self):
        return frozenset((key, holds) for key, (holds, _) in self.known.items())

    def value_of(self, name):
        """The literal that an item is known to be, as tokens, or none."""
        return next((key[1] for key, (holds, _) in self.known.items() if key[0] == name and key[2] == "=" and holds is True
                     and key[3:] == ("literal",)), None)

    def put(self, comparison, holds):
        """Takes over that a comparison holds, or does not, and what an item then is."""
        if not comparison.names() <= self.asked:
            return
        self.known[comparison.key] = (holds != comparison.is_turned, comparison.names())
        if holds != comparison.is_turned and comparison.word == "=" and comparison.right:
            for item, other in ((comparison.left, comparison.right), (comparison.right, comparison.left)):
                if not is_literal(item) and literal_of(other) is not None:
                    self.be(item, literal_of(other))

    def be(self, item, value):
        """Takes over that an item is a literal."""
        name = " ".join(token.upper for token in item)
        if item[0].upper in self.asked:
            self.known[(name, value, "=", "literal")] = (True, {token.upper for token in item if token.kind == "word"})

    def forget(self, names):
        """Forgets what is known of these names."""
        return Facts(self.asked, {key: row for key, row in self.known.items() if not row[1] & names})

    def says(self, comparison):
        """Whether a comparison holds; none where that is not known."""
        row = self.known.get(comparison.key)
        holds = row[0] if row else self.compared(comparison)
        holds = self.left_over(comparison) if holds is None else holds
        return None if holds is None else holds != comparison.is_turned

    def left_over(self, comparison):
        """Whether a register is a number, by those that it may be and those that it is known not to be."""
        name = comparison.left[0].upper
        may_be = next((key[1] for key in self.known if key[0] == name and key[2] == "may be"), None)
        if may_be is None or comparison.word != "=" or comparison.right[0].kind != "number":
            return None
        value, others = literal_of(comparison.right), {key[1] for key, row in self.known.items() if key[0] == name and row[0] is False}
        return False if value not in may_be else True if all(it == value or str(it) in others for it in may_be) else None

    def compared(self, comparison):
        """Whether it holds by the literal that an item is."""
        other = literal_of(comparison.right) if comparison.right else None
        value = self.value_of(" ".join(token.upper for token in comparison.left))
        if other is None or value is None or isinstance(other, str) != isinstance(value, str):
            return None
        return {"=": value == other, "<": value < other, ">": value > other}.get(comparison.word)

    def holds(self, lists):
        """Whether a condition holds; none where that is not known."""
        said = [self.all_hold(comparisons) for comparisons in lists]
        return True if True in said else None if None in said else False

    def all_hold(self, comparisons):
        said = [self.says(it) for it in comparisons]
        return False if False in said else None if None in said else True

    def assume(self, lists, holds):
        """What is known where a condition holds, or does not."""
        facts = Facts(self.asked, self.known)
        open_lists = [it for it in lists if self.all_hold(it) is not False]
        if holds and len(open_lists) == 1:
            for comparison in open_lists[0]:
                facts.put(comparison, True)
        for comparisons in () if holds else open_lists:
            unknown = [it for it in comparisons if self.says(it) is None]
            if len(unknown) == 1:
                facts.put(unknown[0], False)
        return facts


def related(item):
    """The names of an item, of those that it stands in, and of those in it."""
    names, outer = set(), item
    while outer:
        names.add(outer.name)
        outer = outer.parent
    waiting = list(item.members)
    while waiting:
        inner = waiting.pop()
        names.add(inner.name)
        waiting += inner.members
    return names - {"", "FILLER"}


def changed_names(program, piece):
    """The names of what a statement may change, with those that share characters with them."""
    names = {tokens[0].upper for tokens in piece.uses("receiver")}
    sums = piece.uses("sum")
    names |= {sums[-1][0].upper} if sums else set()
    for screen in piece.uses("screen") if piece.verb == "ACCEPT" else ():
        fields = [field for it in program.screens if it.name == screen[0].upper for field in it.fields]
        names |= {field.item.upper for field in fields if field.item and field.takes_entries}
    found = set()
    for name in names:
        found |= related(program.by_name[name]) if name in program.by_name else {name}
    return found | registers_of(program, piece)


def registers_of(program, piece):
    """The registers that a statement sets."""
    if program.side == "server":
        return {"FILE-STATUS"} if piece.uses("file") else set()
    if piece.verb == "CALL":
        return set(REGISTERS["requester"])
    setting = {"ACCEPT": "TERMINATION-STATUS", "SEND": "TERMINATION-STATUS", "BEGIN-TRANSACTION": "RESTART-COUNTER"}
    return {setting[piece.verb]} if piece.verb in setting else set()


def numbers_after(piece):
    """What its register may be after a statement; none where that is not known."""
    places, is_next = len(piece.uses("key", "code")), piece.form.form.startswith("READ NEXT")
    return STATUSES["NEXT" if is_next else piece.verb] if piece.uses("file") else tuple(range(1, places + 1))


def after(program, piece, facts):
    """What is known after a statement."""
    changed = changed_names(program, piece)
    if not changed:
        return facts
    found = facts.forget(changed)
    for register in registers_of(program, piece) & facts.asked:
        if numbers_after(piece):
            found.known[(register, numbers_after(piece), "may be")] = (True, {register})
    if piece.verb == "MOVE":
        source = piece.uses("any")[0]
        value = moved_value(facts, source)
        for target in piece.uses("receiver") if changed & facts.asked else ():
            item = program.by_name.get(target[0].upper)
            if item and len(target) == 1 and fits(item, value if value is not None else zero(source)):
                found.be(target, value if value is not None else zero(source))
    return found


def zero(source):
    return Decimal(0) if source[0].is_word("ZERO", "ZEROS", "ZEROES") else None


def moved_value(facts, source):
    return literal_of(source) if is_literal(source) else facts.value_of(" ".join(token.upper for token in source))


def fits(item, value):
    """Whether an item is a value once that is moved to it."""
    if isinstance(value, str):
        return item.kind == "text" and not item.table and len(value) <= item.size
    is_whole = value is not None and item.kind == "number" and not item.table
    return is_whole and (value >= 0 or item.picture.signed) and holds_number(item.picture, value)


def holds_number(picture, value):
    """Whether a picture has room for all digits of a number."""
    scaled = abs(value) * 10 ** picture.decimals
    return scaled == int(scaled) and scaled < 10 ** (picture.whole + picture.decimals)


def has_condition(piece):
    """Whether a statement asks for a condition."""
    return piece.verb == "IF" or piece.verb == "PERFORM" and any(token.is_word("UNTIL") for token in piece.tokens)


def at_start(program, asked):
    """What is known where a program begins: what its items are by their VALUE, or spaces and zero."""
    facts = Facts(asked)
    for item in program.items:
        is_plain = item.picture and not item.members and not item.table and item.name != "FILLER"
        if is_plain and item.entry.section == "WORKING-STORAGE":
            value = item.entry.behind("VALUE")
            first = literal_of([value]) if value else "" if item.kind == "text" else Decimal(0)
            if first is not None and fits(item, first):
                facts.be([item.entry.name], first)
    return facts
