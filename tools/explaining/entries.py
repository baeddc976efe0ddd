"""Notes on the entries of terminals: keys and fields that no program takes, values that are refused, and what is missing."""
import re

from explaining.tokens import Token
from explaining.words import counted, suggestion

ENTRY_PAIR = re.compile(r' ([A-Za-z][A-Za-z0-9-]*)=("(?:[^"]|"")*"|[^ "]*)')
NUMBER = re.compile(r"([+-]?)(\d*)(?:\.(\d*))?")


def called_from(deck, program):
    """A program and those that it calls, and these call."""
    found, waiting = [], [program]
    while waiting:
        program = waiting.pop()
        if program is not None and program not in found:
            found.append(program)
            waiting += [deck.program("requester", tokens[0].named()) for _, tokens in program.uses("program")]
    return found


def programs_of_terminal(deck, name):
    """The programs that a terminal runs."""
    initial = initial_of(deck, name)
    return called_from(deck, deck.program("requester", initial)) if initial else []


def initial_of(deck, name):
    """The name of the first program of a terminal."""
    initial = deck.values_before("TERM", deck.added("TERM")[name].line).get("INITIAL")
    return initial.upper if initial else ""


def keys_of(programs):
    return {tokens[0].upper for program in programs for _, tokens in program.uses("key")}


class Pair:
    """A pair of an entry: its name and its value as tokens, and what the value is."""

    def __init__(self, found, line):
        self.name = Token("word", found[1], line, found.start(1) + 1)
        self.token = Token("value", found[2], line, found.start(2) + 1)
        self.value = found[2][1:-1].replace('""', '"') if found[2].startswith('"') else found[2]


class EntryLine:
    """An entry: its key as a token, and its pairs."""

    def __init__(self, text, line):
        self.text, self.line = text, line
        self.key = Token("word", text.split(" ", 1)[0], line, 1)
        self.pairs = [Pair(found, line) for found in ENTRY_PAIR.finditer(text)]

    def without(self, wrong):
        """The entry without the values of some of its pairs, so that a corrected one can be compared with it."""
        return self.key.text, [(it.name.upper, None if it.name.upper in wrong else it.value) for it in self.pairs]


def entry_lines(section):
    return [EntryLine(text, number) for number, text in section.lines if text.strip(" ")]


def entry_notes(deck):
    """The notes on the entries of each terminal."""
    for section in deck.of_kind("ENTRIES"):
        programs = programs_of_terminal(deck, section.name)
        if not keys_of(programs):
            heading = Token("word", section.words[0], section.line, 1)
            yield heading, f"the programs of {section.name} have no ACCEPT, so its entries are never taken"
            continue
        yield from name_notes(section, programs)
    yield from missing_notes(deck)


def name_notes(section, programs):
    """Entry fields and keys that no screen and no ACCEPT of the terminal's programs has, each once for a terminal."""
    fields = [field for program in programs for screen in program.screens for field in screen.fields if field.name]
    shown, taking = {field.name for field in fields}, {field.name for field in fields if field.takes_entries}
    keys, told = keys_of(programs), set()
    for entry in entry_lines(section):
        for token, name, is_key in [(entry.key, entry.key.text, True), *((it.name, it.name.upper, False) for it in entry.pairs)]:
            if name not in (keys if is_key else taking) and (is_key, name) not in told:
                told.add((is_key, name))
                yield token, told_entry(section.name, name, is_key, name in shown, taking)


def told_entry(terminal, name, is_key, is_shown, taking):
    """What is to be told of a key or a field of an entry that none of a terminal's programs takes."""
    if is_key:
        return f"no ACCEPT of the programs of {terminal} has the key {name}"
    if is_shown:
        return f"{name} is a field that takes no entries: that needs TO or USING with its item"
    return f"no screen of the programs of {terminal} has an entry field {name}; {suggestion(name, taking, 'entry field')}"


def value_notes(deck):
    """Values that their field refuses, but for those that the next entry corrects."""
    for section in deck.of_kind("ENTRIES"):
        fields = {}
        for field in (it for one in programs_of_terminal(deck, section.name) for screen in one.screens for it in screen.fields):
            if field.takes_entries and field.picture:
                fields.setdefault(field.name, []).append(field.picture)
        yield from refused_in(entry_lines(section), fields)


def refused_in(entries, fields):
    """The same of the entries of a terminal, by the pictures of the fields that take them."""
    for entry, following in zip(entries, [*entries[1:], None]):
        wrong = {}
        for pair, after in zip(entry.pairs, [*entry.pairs[1:], None]):
            pictures = fields.get(pair.name.upper, [])
            told = [refusal_of(pair, picture, after) for picture in pictures]
            if told and all(told):
                wrong[pair.name.upper] = pair.token._replace(text=pair.token.text or " "), told[0]
        if wrong and not (following and following.without(wrong) == entry.without(wrong)):
            yield from wrong.values()


def refusal_of(pair, picture, after):
    """Why a field of a picture refuses a value, or none."""
    value, name = pair.value, pair.name.text
    if value.endswith((",", ";")) and after:
        if not refused(value, picture) and picture.kind == "text":
            return None
        return f"{name} is refused with INVALID FIELD: the {value[-1]} belongs to the value, and pairs are parted by a space alone"
    reason = refused(value, picture)
    return f"{name} is refused with INVALID FIELD: {reason}" if reason else None


def refused(value, picture):
    """Why a value is refused, or none."""
    if not value:
        return None
    if picture.kind != "text":
        number = NUMBER.fullmatch(value)
        if not number or not (number[2] or number[3]):
            return "a number is typed without commas" if re.fullmatch(r"[\d,.+-]*\d[\d,.+-]*", value) and "," in value else \
                f"{value} is no number"
        if number[1] == "-" and not picture.signed:
            return "the field takes no negative number"
        if len(number[2]) > picture.whole or len(number[3] or "") > picture.decimals:
            decimals = f" and {counted(picture.decimals, 'decimal')}" if picture.decimals else " and no decimals"
            return f"the field has {counted(picture.whole, 'digit')} in front of the point{decimals}"
    if len(value) > picture.size:
        return f"the value has {counted(len(value), 'character')}, and the field {picture.size}"
    return None


def missing_notes(deck):
    """Terminals whose program wants entries and that have none, or whose entries end otherwise than those of all others."""
    started = {words[2].upper for words in deck.commands_of("START", "TERM")}
    sections = {section.name: section for section in deck.of_kind("ENTRIES")}
    lasts = {}
    for name, token in deck.added("TERM").items():
        lines = entry_lines(sections[name]) if name in sections else []
        if name in started and not lines and keys_of(programs_of_terminal(deck, name)):
            yield token, f"{token.text} has no entries, so its first ACCEPT ends it: write ?ENTRIES {token.text}"
        elif lines:
            lasts.setdefault(initial_of(deck, name), []).append(lines)
        ending = [key for key in keys_of(programs_of_terminal(deck, name)) if key.startswith("SF")]
        if name in started and lines and len(ending) == 1 and not any(line.key.text == ending[0] for line in lines):
            yield lines[-1].key, f"no entry of {token.text} is {ending[0]}, so where that is the key that ends, it ends NOENTRIES"
    for all_lines in lasts.values():
        inner = {it.key.text for lines in all_lines for it in lines[:-1]}
        keys = [lines[-1].key for lines in all_lines]
        for key in keys:
            others = {it.text for it in keys if it is not key}
            if len(keys) > 2 and len(others) == 1 and key.text not in others and not others & inner:
                last = next(iter(others))
                told = f"the entries of this terminal end with {key.text}, and those of all others with {last}"
                yield key, f"{told}: it ends NOENTRIES"
