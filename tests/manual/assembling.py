"""Puts decks of the manual together from the parts that its snippets show."""
import re


def split(text):
    return text.split("\n")


def sections(deck):
    """The sections of a deck, each a list of lines with its heading first."""
    found = []
    for line in split(deck.rstrip("\n")):
        if line.startswith("?"):
            found.append([])
        found[-1].append(line)
    return found


def joined(found):
    return "".join(f"{line}\n" for section in found for line in section)


def with_section(deck, text):
    """The deck with a section in place of its own of that heading, or in front of its ?END."""
    new = split(text.rstrip("\n"))
    found = sections(deck)
    same = [i for i, section in enumerate(found) if section[0].split() == new[0].split()]
    found[same[0] if same else -1 : same[0] + 1 if same else -1] = [new]
    return joined(found)


# Where a part of a program goes: the kind of its section, and the line after which it stands, but for paragraphs.
PLACES = {
    "items": ("?SCREEN-COBOL", r"WORKING-STORAGE SECTION\."),
    "screen": ("?SCREEN-COBOL", r"SCREEN SECTION\."),
    "statements": ("?SCREEN-COBOL", r"MAIN\."),
    "paragraphs": ("?SCREEN-COBOL", None),
    "server-items": ("?SERVER", r"WORKING-STORAGE SECTION\."),
    "server-statements": ("?SERVER", r" *READ \$RECEIVE INTO .*\."),
}
PARTS = ["section", *PLACES]


def with_paragraphs(program, text):
    """The lines of a program with paragraphs in place of those of their names, or at its end."""
    cut = re.compile(r"(?m)^(?=[\w-]+\.$)")
    kept, new = cut.split("\n".join(program)), cut.split(text.rstrip("\n"))[1:]
    for paragraph in new:
        same = [i for i, it in enumerate(kept) if split(it)[0] == split(paragraph)[0]]
        kept[same[0] if same else len(kept) : same[0] + 1 if same else len(kept)] = [paragraph]
    return [line for it in kept for line in split(it.rstrip("\n"))]


def with_part(deck, kind, text):
    if kind == "section":
        return with_section(deck, text)
    head, after = PLACES[kind]
    found = sections(deck)
    section = next(it for it in found if it[0].startswith(head))
    if after is None:
        section[:] = with_paragraphs(section, text)
        return joined(found)
    place = next(i + 1 for i, line in enumerate(section) if re.fullmatch(after, line))
    section[place:place] = split(text.rstrip("\n"))
    return joined(found)


def with_parts(deck, parts):
    # What goes in front of other lines is put there from the last part to the first, so that the parts keep their order.
    others = [it for it in parts if it[0] in ("section", "paragraphs")]
    for kind, text in others + [it for it in reversed(parts) if it not in others]:
        deck = with_part(deck, kind, text)
    return deck
