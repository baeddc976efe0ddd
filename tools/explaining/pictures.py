"""Pictures (docs/reference/LANGUAGE.md): what a picture is, and why a text is none."""
import re
from typing import NamedTuple

PICTURE_TAKES = "what stands after PIC up to the next space is the picture: leave out the {} at its end"
MOST_SYMBOLS = 32000
MOST_DIGITS = 18
COUNTED = re.compile(r"([X9Z])\((\d+)\)")
EDITED = re.compile(r"(-?)([Z,]*)([9,]*)(\.9+)?(-?)")
FOREIGN = re.compile(r"[^X9ZSV,.()\-0-9]")


class Picture(NamedTuple):
    """A picture: its kind, its characters, its digits in front of the point and after it, and whether it has a sign."""
    kind: str
    size: int
    whole: int = 0
    decimals: int = 0
    signed: bool = False


def written_out(text):
    """The symbols of a picture without counts; none where there are too many, or a count is 0."""
    counts = [count.lstrip("0") for _, count in COUNTED.findall(text)]
    if any(not count or len(count) > 5 or int(count) > MOST_SYMBOLS for count in counts):
        return None
    symbols = COUNTED.sub(lambda found: found[1] * int(found[2]), text)
    return symbols if len(symbols) <= MOST_SYMBOLS else None


def edited(symbols):
    """The picture of symbols that are edited, or none."""
    found = EDITED.fullmatch(symbols)
    if not found or found[1] and (found[5] or symbols[1:2] == ","):
        return None
    whole, decimals = len(re.findall("[Z9]", found[2] + found[3])), len(found[4] or ".") - 1
    if not 1 <= whole + decimals <= MOST_DIGITS or not symbols.strip("9"):
        return None
    return Picture("edited", len(symbols), whole, decimals, bool(found[1] or found[5]))


def picture_of(text):
    """The picture that a text is, or none."""
    symbols = written_out(text)
    if not symbols:
        return None
    if not symbols.strip("X"):
        return Picture("text", len(symbols))
    number = re.fullmatch(r"(S?)(9*)(?:V(9+))?", symbols)
    if not number:
        return edited(symbols)
    sign, whole, decimals = len(number[1]), len(number[2]), len(number[3] or "")
    return Picture("number", sign + whole + decimals, whole, decimals, bool(sign)) if 1 <= whole + decimals <= MOST_DIGITS else None


def why_none(text):
    """Why a text is no picture."""
    if picture_of(text.upper()):
        return f"pictures are in upper case: write {text.upper()}"
    if picture_of(text.rstrip(",;")):
        return PICTURE_TAKES.format(text[-1])
    if text.count("(") != text.count(")"):
        return "a count stands in parentheses, without spaces, as in X(4)"
    if re.search(r"\(0*\)", text):
        return "a count is 1 or more"
    foreign = FOREIGN.search(COUNTED.sub("", text.upper()))
    if foreign and foreign[0] == "A":
        return "there is no A: a text is X"
    if foreign:
        return f"there is no {foreign[0]} in pictures: they have X, 9, S, V, and on screens Z, the comma, the point, the minus"
    if "V" in text and re.search("[Z,.-]", text):
        return "V is for numbers; an edited picture has a point in its place"
    if written_out(text) is None:
        return f"a picture has {MOST_SYMBOLS:,} symbols at most"
    digits = re.sub("[SV.,-]", "", written_out(text))
    if len(digits) > MOST_DIGITS and not digits.strip("9Z"):
        return f"a number has 18 digits at most, and this one {len(digits)}"
    return "a text is X, a number 9 with S in front and V for the point; on screens Z stands in front of 9, and a point may follow"
