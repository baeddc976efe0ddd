"""Why a line of a section that is no source is refused (171, 172, 181 to 185, 191 to 196). Each function goes over what may be
wrong on a line: it gives the token, and what is to be told of it."""
import re

from explaining.deck import words_of
from explaining.missing import section_missing
from explaining.name_reasons import MOST_RECORD
from explaining.source_reasons import foreign_characters
from explaining.tokens import Token, behind
from explaining.words import counted, listed, near, suggestion

NAME = re.compile(r"[A-Za-z][A-Za-z0-9-]{0,29}")
KEY = re.compile(r"S?F([1-9]|1[0-6])")
PAIR = re.compile(r" ([A-Za-z][A-Za-z0-9-]*)=")
VALUE = re.compile(r'[^ "]*(?= |$)|"(?:[^"]|"")*"(?= |$)')
KINDS = {"TCP": "TCP", "TERM": "terminal", "SERVER": "class"}
VALUES = {"TERM": ["TCP", "INITIAL", "MAXTMFRESTARTS"], "SERVER": ["PROGRAM", "MAXSERVERS"]}
RANGES = {"MAXTMFRESTARTS": "0 to 32,767", "MAXSERVERS": "1 to 16"}
# The value that is a program, the kind of that, and the other kind.
PROGRAMS = {"TERM": ("INITIAL", "program", "server program"), "SERVER": ("PROGRAM", "server program", "program")}
LIMITS = {"TCP": 8, "TERM": 128, "SERVER": 16}
LOG_FORMS = {
    "SHOW": "SHOW t p.a.k", "KEY": "KEY t k", "CHECK": "CHECK t START, CHECK t END or CHECK t COPY", "APPLIED": "APPLIED t",
    "BEGIN": "BEGIN t n r", "SEND": "SEND t n c", "TAKE": "TAKE c i t",
    "FILE": "FILE c i op m f s, where the mode m, S or X, stands in version 2 alone",
    "REPLY": "REPLY c i t OK or REPLY c i t FAULT x", "AGAIN": "AGAIN t n", "COMMIT": "COMMIT t n", "BACK": "BACK t n",
    "RESTART": "RESTART t n cause", "FAIL": "FAIL TCP p PRIMARY k, FAIL TCP p BACKUP k or FAIL SERVER c i k",
    "TAKEOVER": "TAKEOVER p", "RAISE": "RAISE p", "END": "END t ending",
}
LOG_WORDS = """START COPY READ NEXT WRITE REWRITE DELETE OK FAULT TCP SERVER PRIMARY BACKUP OLDER REDO STOPPED NOENTRIES SUSPENDED
    LOST S X""".split() + list(LOG_FORMS)
LOG_HEADER = "PATHWAY LOG 2"
FORMS = {
    "PATHCOM": "?PATHCOM", "SCREEN-COBOL": "?SCREEN-COBOL name", "SERVER": "?SERVER name", "FILE": "?FILE name KEY n",
    "ENTRIES": "?ENTRIES name", "FAIL": "?FAIL", "LOG": "?LOG", "END": "?END",
}
MOST_KEPT = {
    "SCREEN-COBOL": "a deck has 32 requesters", "SERVER": "a deck has 32 servers", "FILE": "a deck has 16 files",
    "LOG": "a log has 500,000 entries", "ENTRIES": "a terminal has 4,096 entries", "FAIL": "a deck has 64 failure lines",
}
MOST_PAIRS = 1840
FAILURES = "the line is TCP name PRIMARY AFTER n, TCP name BACKUP AFTER n or SERVER name i AFTER n"
NOT_A_NAME = "is no name: that is 1 to 30 letters, digits and hyphens, the first of them a letter"
LOOSE = "one space stands between two words, and none at the ends"


def words_at(deck, line):
    return words_of(deck.line(line), line)


def command_at(deck, line):
    """The words of a command, and those words in upper case."""
    words = words_at(deck, line)
    return words, [word.upper for word in words]


def spelled_nearly(token, names):
    """What is to be told of a word that is none of these."""
    found = near(token.text, names, 0.6)
    return f"{token.text}: did you mean {listed(found[:2])}?" if found else f"{token.text} stands where {listed(names)} is wanted"


def bad_command(deck, line):
    """181"""
    words, upper = command_at(deck, line)
    yield from section_missing(deck, line)
    yield from pathway_form(words)
    wanted = [["SET", "ADD", "START"], list(VALUES if upper[0] == "SET" else KINDS)]
    if upper[0] == "SET" and upper[1:2] and upper[1] in VALUES:
        wanted.append(VALUES[upper[1]])
    for place, choices in enumerate(wanted):
        if place == len(words):
            yield behind(words[-1]), f"after {upper[-1]} stands {listed(choices)}"
        if upper[place] not in choices:
            yield words[place], spelled_nearly(words[place], choices)
    yield from bad_ending(words, words[len(wanted) :], upper[2] if upper[0] == "SET" else "")


def pathway_form(words):
    """A SET whose values stand in parentheses, with commas or with signs."""
    odd = next((word for word in words if re.search(r"[(),=]", word.text)), None)
    if odd:
        text = re.sub(r" *[(),=] *", " ", " ".join(word.text for word in words)).strip()
        verbs = text.split()
        each = [f"{' '.join(verbs[:2])} {verbs[at]} {verbs[at + 1]}" for at in range(2, len(verbs) - 1, 2)]
        shown = f": {listed(each, 'and')}" if verbs[0].upper() == "SET" and each else ""
        yield odd, f"values stand without parentheses, commas and signs, each in a command of its own{shown}"


def bad_ending(words, rest, value):
    """What is wrong with the last word of a command, a name or a number, or with what stands after it."""
    if not rest:
        yield behind(words[-1]), "a number is missing" if value in RANGES else "a name is missing"
    if value in RANGES and not re.fullmatch(r"\d{1,9}", rest[0].text):
        yield rest[0], f"{value} has a number, {RANGES[value]}"
    if value not in RANGES and not NAME.fullmatch(rest[0].text):
        yield rest[0], f"{rest[0].text} {NOT_A_NAME}"
    if rest[1:]:
        yield rest[1], "nothing more stands on the line: a comment is a line of its own, whose first character is *"


def added_twice(deck, line):
    """182"""
    words, upper = command_at(deck, line)
    for earlier in deck.commands_of(*upper[:2]):
        if earlier[2].upper == upper[2]:
            yield words[2], f"{words[2].text} is added in line {earlier[2].line}"


def unknown_object(deck, line):
    """183"""
    section = deck.section_at(line)
    if section.kind == "PATHCOM":
        yield from unknown_in_command(deck, line)
    elif section.kind == "ENTRIES":
        name = words_of(deck.line(line), line)[1]
        if name.upper in deck.added("TERM"):
            yield name, f"{name.text} is added, but not started: START TERM {name.text}"
        yield name, f"{name.text}: {suggestion(name.text, deck.names('TERM'), 'terminal')}"
    else:
        yield from unknown_in_line(deck, line, section.kind)


def unknown_in_command(deck, line):
    """What the ADD of a terminal or a class names that is not there."""
    words, upper = command_at(deck, line)
    name, values, added = words[2], deck.values_before(upper[1], line), deck.added("TCP")
    if upper[1] == "TERM" and "TCP" not in values:
        yield name, "its TCP is not set: SET TERM TCP name before it"
    if upper[1] == "TERM":
        tcp = values["TCP"]
        if tcp.upper not in added:
            yield name, f"SET TERM TCP in line {tcp.line}: {tcp.text}: {suggestion(tcp.text, added, 'TCP')}"
        if added[tcp.upper].line > line:
            yield name, f"{tcp.text} is added in line {added[tcp.upper].line}: ADD TCP {tcp.text} before the terminal"
    value, kind, other = PROGRAMS[upper[1]]
    if value not in values:
        yield name, f"its program is not set: SET {upper[1]} {value} name before it"
    program = values[value]
    if program.upper in deck.names(other):
        yield name, f"{program.text}, set in line {program.line}, is a program of {'servers' if kind == 'program' else 'terminals'}"
    told = f"{program.text}: {suggestion(program.text, deck.names(kind), kind)}"
    yield name, f"SET {upper[1]} {value} in line {program.line}: {told}"


def unknown_in_line(deck, line, section):
    """What a failure line or a line of the log names that is not there."""
    words = words_at(deck, line)
    kinds = [words[0].text] if section == "FAIL" else list(KINDS)
    names = {name for kind in kinds for name in deck.names(kind)}.union(() if section == "FAIL" else deck.names("file"))
    for word in words[1:]:
        name = word.upper if section == "FAIL" else word.text
        if NAME.fullmatch(name) and name not in names and name not in LOG_WORDS + ["AFTER"]:
            if word.upper in names:
                yield word, f"names of the log stand in upper case: {word.upper}"
            yield word, f"{word.text}: {suggestion(word.text, names, KINDS[kinds[0]] if len(kinds) == 1 else 'name')}"
    for word, process in zip(words, words[1:]):
        if word.upper in deck.classes and process.text.isdigit():
            value = deck.classes[word.upper].get("MAXSERVERS")
            most = int(value.text) if value else 1
            if int(process.text) > most:
                yield process, f"{word.upper} has {counted(most, 'process')}: MAXSERVERS is how many"


def out_of_range(deck, line):
    """184"""
    words, upper = command_at(deck, line)
    if upper[0] == "SET":
        yield words[3], f"{upper[2]} is from {RANGES[upper[2]]}"
    yield words[2], f"a deck has {counted(LIMITS[upper[1]], KINDS[upper[1]])} at most"


def bad_start(deck, line):
    """185"""
    words, upper = command_at(deck, line)
    kind, name = upper[1], words[2]
    added = deck.added(kind).get(name.upper)
    if not added:
        yield name, f"{name.text}: {suggestion(name.text, deck.names(kind), KINDS[kind])}"
    if added.line > line:
        yield name, f"it is added in line {added.line}: ADD it before"
    earlier = [it for it in deck.commands_of("START", kind) if it[2].upper == name.upper and added.line < it[0].line < line]
    if earlier:
        yield name, f"it is started in line {earlier[0][0].line}"
    tcp = deck.values_before(kind, added.line).get("TCP")
    if tcp:
        yield name, f"its TCP is not started before it: START TCP {tcp.upper}"


def bad_section(deck, line):
    """191"""
    text, words = deck.line(line), words_at(deck, line)
    yield from foreign_characters(deck, line)
    if not text.startswith("?"):
        told = ["the ? of a section line stands in column 1"] if text.strip().startswith("?") else []
        told += ["comments stand inside sections alone"] if text.startswith("*") else []
        yield words[0], *told, "a deck begins with a section line, as ?PATHCOM"
    kind = words[0].upper[1:]
    if not kind:
        yield behind(words[0]), "no space stands after the question mark"
    if kind not in FORMS:
        yield words[0], told_heading(deck, kind, line)
    wanted, form = len(FORMS[kind].split()), FORMS[kind]
    if len(words) != wanted:
        place = words[wanted] if len(words) > wanted else behind(words[-1])
        yield place, f"the line is {form}"
    if not NAME.fullmatch(words[1].text):
        yield words[1], f"{words[1].text} {NOT_A_NAME}"
    if not words[2].is_word("KEY"):
        yield words[2], f"the line is {form}"
    yield words[3], "the length of a key is a number from 1 to 255"


def told_heading(deck, kind, line):
    """What is to be told of a word after a question mark that begins no section."""
    named = ["?" + it for it in near(kind, FORMS, 0.6)]
    if named:
        return f"did you mean {listed(named[:2])}?"
    before = deck.section_at(line - 1)
    told = "no record begins with a question mark; " if before and before.kind == "FILE" else ""
    return f"{told}the sections are {listed(FORMS.values(), 'and')}"


def end_missing(deck, line):
    """192"""
    for number, text in enumerate(deck.lines, 1):
        if re.fullmatch(r" *[?]? *END[ .]*", text, re.I):
            yield Token("word", text, number, 1), f"line {number} is no ?END: that line is ?END alone, from column 1"
    if deck.lines:
        yield Token("end", " ", len(deck.lines), len(deck.lines[-1]) + 1), f"?END belongs after line {len(deck.lines)}"


def section_twice(deck, line):
    """193"""
    section, words = deck.section_at(line), words_at(deck, line)
    for earlier in deck.of_kind(section.kind):
        if earlier.line < line and earlier.name == section.name:
            yield words[-1 if not section.name else 1], f"the first one is in line {earlier.line}"


def bad_record(deck, line):
    """194"""
    section, text = deck.section_at(line), deck.line(line)
    yield from section_missing(deck, line)
    key, told = deck.files.get(section.name, 0), []
    if text.startswith("*"):
        told.append("a line that begins with * is a record here, and no comment")
    if len(text) < key:
        told.append(f"the key of {section.name} has {counted(key, 'character')}, and the line {len(text)}")
    if len(text) > MOST_RECORD:
        told.append(f"the record has {len(text):,} characters")
    earlier = [number for number, record in section.lines if number < line and record.strip(" ")]
    twice = next((number for number in earlier if deck.line(number)[:key] == text[:key]), None)
    if twice:
        told.append(f"the record in line {twice} has this key")
    yield Token("record", text[:key] if twice else text, line, 1), *told


def bad_entry(deck, line):
    """195"""
    text = deck.line(line)
    yield from section_missing(deck, line)
    key = re.match("[^ ]*", text)[0]
    if not KEY.fullmatch(key):
        told = "there are no comments among entries" if key.startswith("*") else "a line begins with F1 to F16 or SF1 to SF16"
        yield Token("word", key or " ", line, 1), "keys are in upper case" if KEY.fullmatch(key.upper()) else told
    at, seen = len(key), set()
    while at < len(text):
        pair, place = PAIR.match(text, at), Token("word", re.match("[^ ]*", text[at + 1 :])[0] or " ", line, at + 2)
        if not place.text.strip():
            yield place, "one space stands in front of each pair, and none at the end"
        if not pair or len(pair[1]) > 30:
            yield place, f"{place.text} is no pair name=value"
        value = VALUE.match(text, pair.end())
        if not value:
            told = "a value with spaces stands between two quotes, which end it"
            yield Token("word", text[pair.end() :], line, pair.end() + 1), told
        if pair[1].upper() in seen:
            yield place, f"{pair[1]} stands twice on the line"
        if len(seen) == MOST_PAIRS:
            yield place, f"a line has {MOST_PAIRS:,} pairs at most"
        seen.add(pair[1].upper())
        at = value.end()


def too_many(deck, line):
    """196"""
    yield words_at(deck, line)[0], f"{MOST_KEPT[deck.section_at(line).kind]} at most"


def bad_failure_line(deck, line):
    """172"""
    words, text = words_at(deck, line), deck.line(line)
    if text.startswith("*"):
        yield words[0], "there are no comments among failure lines"
    yield from loose_spaces(text, line)
    is_pair = words[0].is_word("TCP")
    yield from misspelt_words(words, {0: ["TCP", "SERVER"]})
    yield from lacking_word(words, is_pair)
    yield from misspelt_words(words, {2: ["PRIMARY", "BACKUP"], 3: ["AFTER"]} if is_pair else {3: ["AFTER"]})
    if len(words) != 5:
        yield words[5] if words[5:] else behind(words[-1]), FAILURES
    if not NAME.fullmatch(words[1].text):
        yield words[1], f"{words[1].text} {NOT_A_NAME}"
    if not is_pair:
        yield from bad_number(words[2], 1, 16)
    yield from bad_number(words[4], 0, 500000)


def lacking_word(words, is_pair):
    """A word that lacks in front of AFTER or of the number after it."""
    texts = [word.text for word in words]
    if "AFTER" in texts[2:3]:
        name, rest = texts[1], " ".join(texts[2:])
        what = "PRIMARY or BACKUP" if is_pair else "the number of the process"
        example = f"{texts[0]} {name} {'PRIMARY' if is_pair else '1'} {rest}"
        yield words[2], f"{what} is missing in front of AFTER: {example}"
    if len(texts) == 4 and "AFTER" not in texts:
        yield words[3], f"AFTER is missing in front of {texts[3]}: {' '.join(texts[:3])} AFTER {texts[3]}"
    if len(texts) == 4 and texts[3] == "AFTER":
        yield behind(words[3]), "the number of log entries is missing after AFTER"


def loose_spaces(text, line):
    """Where a line of single spaces has more, or has one at an end."""
    found = re.search("^ +|  +| +$", text)
    if found:
        yield Token("gap", found[0], line, found.start() + 1), LOOSE


def misspelt_words(words, wanted):
    """The words of a line that are not those that are wanted at their places."""
    for place, choices in wanted.items():
        if place < len(words) and words[place].text not in choices:
            word = words[place]
            yield word, f"these lines are in upper case: {word.upper}" if word.upper in choices else spelled_nearly(word, choices)


def bad_number(word, least, most):
    """Why a word is no number of a range."""
    if not (re.fullmatch("0|[1-9][0-9]*", word.text) and least <= int(word.text) <= most):
        yield word, f"a number from {least} to {most:,} stands here, without leading zeros"


def bad_log_line(deck, line):
    """171"""
    section, words, text = deck.section_at(line), words_at(deck, line), deck.line(line)
    yield from loose_spaces(text, line)
    if words[0].is_word("PATHWAY"):
        yield words[0], f"the header is {LOG_HEADER}, once, in front of all entries"
    entries = [number for number, text in section.lines if text.strip(" ") and text != LOG_HEADER]
    wanted = entries.index(line) + 1
    if words[0].text != str(wanted):
        yield words[0], f"the entries are numbered from 1: here {wanted} is wanted"
    yield from misspelt_words(words, {1: list(LOG_FORMS)})
    if len(words) == 1:
        yield behind(words[0]), "the words of the entry are missing"
    yield words[1], f"the line is {LOG_FORMS[words[1].text]}"
