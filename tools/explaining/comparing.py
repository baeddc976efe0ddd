"""Notes on conditions: comparisons that can never hold, or always hold, and branches without a statement."""
from decimal import Decimal

from explaining.facts import condition_of, has_condition, is_literal, literal_of
from explaining.steps import Trees, all_steps
from explaining.values import Values
from explaining.words import REGISTERS, counted, listed

STATUSES = (0, 1, 10, 11)
MOST_NAMED = 4
NEVER, ALWAYS = "can never hold", "always holds"


def condition_notes(deck):
    """The notes on the conditions of all programs."""
    registers = {"TERMINATION-STATUS": range(most_position(deck) + 1), "FILE-STATUS": STATUSES}
    for program in deck.programs:
        values = Values(program, registers)
        for piece in program.pieces:
            if piece.kind == "statement" and has_condition(piece) and not piece.form.wanted:
                for comparison in (it for comparisons in condition_of(piece) for it in comparisons):
                    yield from comparison_notes(deck, program, comparison, values)
                yield from joined_notes(condition_of(piece))
        yield from empty_notes(program)


def joined_notes(lists):
    """Comparisons of one item that AND joins and that cannot both hold, or of which OR joins all but two turned ones."""
    for comparisons in lists:
        known = {}
        for item, word, value, token in plain_comparisons(comparisons):
            least, most = known.get(item, (None, None))
            if word in ("=", ">") and (least is None or value > least[0]):
                least = value, word, token
            if word in ("=", "<") and (most is None or value < most[0]):
                most = value, word, token
            known[item] = least, most
            if least and most and (least[0] > most[0] or least[0] == most[0] and (least[1], most[1]) != ("=", "=")):
                other = least[2] if token is most[2] else most[2]
                yield token, f"this comparison {NEVER} together with that of {item} and {other.text}: write OR, or mend one of them"
    turned = [it for comparisons in lists if len(comparisons) == 1 and comparisons[0].is_turned and comparisons[0].word == "="
              for it in plain_comparisons(comparisons, True)]
    for item, _, value, token in turned:
        others = [other for its_item, _, its_value, other in turned if its_item == item and its_value != value]
        if others and token is turned[-1][3]:
            yield token, f"one of these comparisons {ALWAYS}: {item} is never {others[0].text} and {token.text} at once; write AND"


def plain_comparisons(comparisons, is_turned=False):
    """The comparisons of an item with a number, as the item's name, the word, the number, and its token."""
    for it in comparisons:
        if it.right and it.right[0].kind == "number" and not is_literal(it.left):
            name = " ".join(token.upper for token in it.left)
            if it.is_turned == is_turned:
                yield name, it.word, literal_of(it.right), it.right[0]


def empty_notes(program):
    """IF, ON SIZE ERROR and ELSE with no statement in them."""
    for steps in Trees(program).trees.values():
        for step in all_steps(steps):
            piece = step.piece
            if piece.opens and not step.then and not step.turned:
                what = "IF" if piece.verb == "IF" else "ON SIZE ERROR"
                end = "END-IF" if step.closed and step.closed.kind == "end" else "a period"
                yield piece.tokens[-1] if what != "IF" else piece.first, f"no statement belongs to this {what}: {end} ends it"
            elif step.turned and not step.other:
                yield step.turned.first, "no statement belongs to this ELSE"


def comparison_notes(deck, program, comparison, values):
    """What is to be told of a comparison of an item with a literal."""
    if not comparison.right:
        return
    for item, literal in ((comparison.left, comparison.right), (comparison.right, comparison.left)):
        if not is_literal(item) and is_literal(literal):
            word = comparison.word if item is comparison.left else {"<": ">", ">": "<"}.get(comparison.word, comparison.word)
            if literal[0].kind == "text" and word in ("<", ">") and is_number(program, item[0]):
                yield literal[0], f"{item[0].text} is a number and {literal[0].text} a text, so they are compared as characters"
                return
            found = item_told(deck, program, item[0], literal, word, values)
            if found:
                holds, told = found
                yield literal[0], f"this comparison {ALWAYS if holds != comparison.is_turned else NEVER}: {told}"
                return
    if comparison.key[0] == comparison.key[1] and not is_literal(comparison.left):
        holds = comparison.word == "="
        yield comparison.right[0], f"this comparison {ALWAYS if holds != comparison.is_turned else NEVER}: both sides are the same"


def is_number(program, name):
    item = program.by_name.get(name.upper)
    return name.upper in REGISTERS[program.side] or item is not None and item.kind == "number"


def item_told(deck, program, name, literal, word, values):
    """Whether an item always, or never, is related to a literal as a word says, and why; none where it may be both."""
    value = literal_of(literal)
    if name.upper in ("TERMINATION-STATUS", "FILE-STATUS", "RESTART-COUNTER"):
        return register_told(deck, program, name.upper, literal[0], value, word)
    item = program.by_name.get(name.upper)
    if item is None or value is None or item.kind == "edited":
        return None
    if isinstance(value, str):
        return text_told(item, name, literal[0], value, word, values)
    if item.kind == "number":
        return number_told(item, name, literal[0], value, word, values)
    return text_told(item, name, literal[0], literal[0].text.lstrip("+-").replace(".", ""), word, values)


def as_text(token, size, kind):
    """Whether a text in quotes may be equal to a number of so many digits; else what is to be told of it."""
    value = token.named()
    if value.rstrip(" ").isdigit() and len(value.rstrip(" ")) == size:
        return None
    advice = f"compare it with {value}" if value.isdigit() else "compare numbers with numbers"
    return False, f"{kind}, of {counted(size, 'digit')}, and {token.text} is a text of {counted(len(value), 'character')}; {advice}"


def text_told(item, name, token, value, word, values):
    if item.kind == "number":
        if word == "=" and token.is_word("SPACE", "SPACES") and not values.may_be_unlike(item):
            return False, f"{name.text} is a number, which never is spaces; compare it with 0"
        if token.kind != "text" or word != "=":
            return None
        size = item.picture.whole + item.picture.decimals
        is_plain = token.named().isdigit() or not values.may_be_unlike(item)
        return as_text(token, size, f"{name.text} is a number") if is_plain else None
    if word == "=" and len(value) > item.size:
        return False, f"{name.text} has {counted(item.size, 'character')}, and the text {len(value)}"
    known = values.of(item)
    if word == "=" and known is not None and value not in known:
        if len(known) > MOST_NAMED:
            return False, f"nothing moves this to {name.text}"
        named = listed([f'"{it}"' if it else "spaces" for it in sorted(known)])
        return False, f"{name.text} is {named} alone"
    return None


def number_told(item, name, token, value, word, values):
    picture = item.picture
    most = (Decimal(10) ** (picture.whole + picture.decimals) - 1) / Decimal(10) ** picture.decimals
    least = -most if picture.signed else Decimal(0)
    told = f"{name.text} has {counted(picture.whole, 'digit')}" + (f" and {picture.decimals} decimals" if picture.decimals else "")
    sign = ", and no sign" if not picture.signed and (value < 0 or word == "<") else ""
    if word == "=" and not fits_number(picture, value):
        return False, told + sign
    if word == "=":
        known = values.of(item)
        if known is not None and value not in known:
            return False, f"{name.text} is {listed([str(it) for it in sorted(known)])} alone"
    if word == ">" and (value >= most or value < least):
        return value < least, told + sign
    if word == "<" and (value <= least or value > most):
        return value > most, told + sign
    known = values.of(item)
    # Where there is one value alone, a program that is still being written asks for it.
    if known is not None and len(known) > 1 and word in ("<", ">") and values_told(known, value, word) is False:
        return False, f"{name.text} is {listed([str(it) for it in sorted(known)])} alone"
    return None


def values_told(known, value, word):
    """Whether all of these numbers are related to a value as a word says, or none; none of both where some are."""
    holds = {{"=": it == value, "<": it < value, ">": it > value}.get(word) for it in known}
    return holds.pop() if len(holds) == 1 else None


def fits_number(picture, value):
    scaled = abs(value) * 10 ** picture.decimals
    return scaled == int(scaled) and scaled < 10 ** (picture.whole + picture.decimals) and (value >= 0 or picture.signed)


def register_told(deck, program, register, token, value, word):
    """The same of a register."""
    size = 5 if register == "RESTART-COUNTER" else 4
    if isinstance(value, str):
        is_text = token.kind == "text" and word == "="
        return as_text(token, size, f"{register} is a number") if is_text else None
    if value is None:
        return None
    if register == "FILE-STATUS":
        most, told = 11, "FILE-STATUS is 0, 1, 10 or 11"
        if word == "=" and value not in STATUSES:
            return False, told
    elif register == "TERMINATION-STATUS":
        most = most_position(deck)
        told = f"no ACCEPT has more keys, and no SEND more codes, than {most}"
    else:
        most = most_restarts(deck)
        told = f"a unit is restarted {counted(most, 'time')} at most, by MAXTMFRESTARTS"
    if register == "TERMINATION-STATUS" and word == "=" and value == 0 and most:
        return False, "after an ACCEPT or a SEND it is the position of the key or the code, from 1"
    if value < 0 or value != int(value) and word == "=":
        return word == ">", f"{register} is a whole number from 0 on"
    if word == "=" and value > most or word == ">" and value >= most:
        return False, told
    if word == "<" and value > most:
        return True, told
    return (False, f"{register} is never below 0") if word == "<" and value <= 0 else None


def most_position(deck):
    """The largest TERMINATION-STATUS that there may be."""
    pieces = [piece for program in deck.programs for piece in program.pieces if piece.verb in ("ACCEPT", "SEND")]
    return max([len(piece.uses("key", "code")) for piece in pieces], default=0)


def most_restarts(deck):
    """The largest number of restarts that a terminal of the deck permits."""
    found = [deck.values_before("TERM", token.line).get("MAXTMFRESTARTS") for token in deck.added("TERM").values()]
    return max([int(token.text) if token else 5 for token in found], default=5)
