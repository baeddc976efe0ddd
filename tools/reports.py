"""What the tools share: they read reports and decks, and refuse what is neither with one line and the status 2.

docs/reference/DECK.md says what a deck, a report and the entries of its log are."""
import collections, os, pathlib, re, sys

# The status of a tool that is given what it cannot read.
REFUSED = 2

NAME = "[A-Z][A-Z0-9-]{0,29}"
NUMBER = "(?:0|[1-9][0-9]*)"
CAUSE = f"(?:OLDER {NAME} {NUMBER}|TAKEOVER {NAME}|SERVER {NUMBER}|REDO)"
ENDING = f"(?:STOPPED|NOENTRIES|FAULT {NUMBER}|SUSPENDED {CAUSE}|LOST)"
REFRESH = rf"{NUMBER}\.{NUMBER}\.{NUMBER}"

# The parts that an entry may name, and how each is spelled.
PARTS = {
    "terminal": NAME, "pair": NAME, "server": NAME, "file": NAME,
    "unit": NUMBER, "restarts": NUMBER, "key": NUMBER, "process": NUMBER, "status": NUMBER, "line": NUMBER,
    "refresh": REFRESH, "cause": CAUSE, "ending": ENDING, "point": "START|END|COPY", "member": "PRIMARY|BACKUP",
    "operation": "READ|NEXT|WRITE|REWRITE|DELETE", "mode": "S|X", "answer": f"OK|FAULT {NUMBER}",
}  # fmt: skip
# The entries of a log. The kind of an entry is its words in upper case. A FILE entry has no mode in a log of version 1.
FORMS = """SHOW terminal refresh
KEY terminal key
CHECK terminal point
APPLIED terminal
BEGIN terminal unit restarts
SEND terminal unit server
TAKE server process terminal
FILE server process operation mode file status
FILE server process operation file status
REPLY server process terminal answer
AGAIN terminal unit
COMMIT terminal unit
BACK terminal unit
RESTART terminal unit cause
FAIL TCP pair member line
FAIL SERVER server process line
TAKEOVER pair
RAISE pair
END terminal ending""".split("\n")

Entry = collections.namedtuple("Entry", ["number", "words", "kind", *PARTS], defaults=[None] * len(PARTS))
Entry.__doc__ = """An entry of a log: its number, its words as they stand, its kind, and the parts that it names, numbers as int."""
Section = collections.namedtuple("Section", ["words", "lines"])
Section.__doc__ = """A section of a deck: the words of its section line in upper case, and its lines, that one first."""


class Refused(Exception):
    """A tool is given what it cannot read; the text says what and why, in one line."""


def shown(line):
    """A line as a refusal shows it: its beginning, without bytes that a terminal would not show."""
    return ascii(line[:60])


def titled(path):
    """How a refusal names a file."""
    return "standard input" if path == "-" else path


def lines_of(path):
    """The lines of a file, or of standard input where it is named `-`. Bytes that are no text are kept as they are."""
    try:
        text = sys.stdin.buffer.read() if path == "-" else pathlib.Path(path).read_bytes()
    except OSError as error:
        raise Refused(f"{titled(path)}: {error.strerror}")
    lines = text.decode(errors="surrogateescape").split("\n")
    return lines[:-1] if lines[-1] == "" else lines


def read_form(form):
    """The kind of entry that a form is of, and the pattern of its words."""
    kind = " ".join(word for word in form.split() if word.isupper())
    return kind, re.compile(" ".join(word if word.isupper() else f"(?P<{word}>{PARTS[word]})" for word in form.split()))


def patterns_by_word():
    """The kinds of entry with their patterns, by the first word."""
    patterns = collections.defaultdict(list)
    for form in FORMS:
        patterns[form.split()[0]].append(read_form(form))
    return patterns


PATTERNS = patterns_by_word()
BLOCK = re.compile(f"OUT {NAME}|UNIT ({NAME}) ({NUMBER}) (COMMIT|DROP|RESTART|LEFT)|DONE {NAME} {ENDING}")
SCREEN = re.compile(f"SCREEN ({NAME}) ({REFRESH})")
ROW = re.compile(r"([0-9]{2})\|(.*)")


def entry_of(number, line):
    """The entry of a log line, if it is one and has this number."""
    told, _, words = line.partition(" ")
    if told == str(number):
        for kind, pattern in PATTERNS.get(words.partition(" ")[0], ()):
            found = pattern.fullmatch(words)
            if found:
                parts = {name: int(text) if text.isdigit() else text for name, text in found.groupdict().items()}
                return Entry(number, words, kind, **parts)
    return None


def no_report(title, why):
    return Refused(f"{title} is no report: {why}")


def headings_in(title, lines):
    """Where the headings SCREENS, FILES and LOG of a report stand. The log is what stands after the last line LOG."""
    if not lines:
        raise no_report(title, "it is empty")
    if lines[0] != "SERIAL":
        raise no_report(title, f"its first line is {shown(lines[0])}, not SERIAL")
    if lines[-1] not in ("FINISHED", "UNFINISHED"):
        raise no_report(title, f"its last line is {shown(lines[-1])}, not FINISHED or UNFINISHED")
    at = 0
    for heading in ("SCREENS", "FILES", "LOG"):
        if heading not in lines[at:]:
            raise no_report(title, f"it lacks the line {heading}, or that stands elsewhere")
        at = lines.index(heading, at)
    screens = lines.index("SCREENS")
    return screens, lines.index("FILES", screens), len(lines) - 1 - lines[::-1].index("LOG")


def files_in(path):
    """The records of each file of a report, or of a FILES part alone, as `trial` and `trail` print it."""
    title, lines = titled(path), lines_of(path)
    if lines[:1] != ["FILES"]:
        _, files, log = headings_in(title, lines)
        lines = lines[files:log]
    found, records = {}, None
    for line in lines[1:]:
        heading = re.fullmatch(f"FILE ({NAME})", line)
        if heading:
            records = found.setdefault(heading[1], [])
        elif records is None or not line.startswith("|"):
            raise no_report(title, f"{shown(line)} is no line of FILES")
        else:
            records.append(line[1:])
    return found


class Report:
    """A report: the attempts of its serial order, each a terminal, a unit and how it ended; the message on row 24 of each screen
    that has one, by its terminal and refresh number; the lines of its log with the header; the entries; whether it is finished."""

    def __init__(self, path):
        self.title = titled(path)
        lines = lines_of(path)
        screens, files, log = headings_in(self.title, lines)
        self.units = self.units_in(lines[1:screens])
        self.messages = self.messages_in(lines[screens + 1 : files], screens + 2)
        self.log, self.finished = lines[log + 1 : -1], lines[-1] == "FINISHED"
        self.entries = self.entries_in(log + 2)

    def refuse(self, why):
        raise no_report(self.title, why)

    def units_in(self, lines):
        blocks = [BLOCK.fullmatch(line) for line in lines]
        if None in blocks:
            at = blocks.index(None)
            self.refuse(f"line {at + 2} is {shown(lines[at])}, no line of SERIAL")
        return [(block[1], int(block[2]), block[3]) for block in blocks if block[1]]

    def messages_in(self, lines, first):
        messages, screen = {}, None
        for number, line in enumerate(lines, first):
            heading, row = SCREEN.fullmatch(line), ROW.fullmatch(line)
            if heading:
                screen = heading.groups()
            elif not row or not screen:
                self.refuse(f"line {number} is {shown(line)}, no line of SCREENS")
            elif row[1] == "24":
                messages[screen] = row[2]
        return messages

    def entries_in(self, first):
        """The entries of the log, whose first line has this number in the report."""
        headers = 1 if self.log[:1] == ["PATHWAY LOG 2"] else 0
        entries = []
        for number, line in enumerate(self.log[headers:], 1):
            entry = entry_of(number, line)
            if not entry:
                self.refuse(f"line {first + headers + number - 1} is {shown(line)}, not entry {number} of a log")
            entries.append(entry)
        return entries


def words_of(line):
    """The words of a line of a deck, in upper case. A carriage return at its end is none of it."""
    return [word for word in line.removesuffix("\r").upper().split(" ") if word]


def sections_of(path):
    """The sections of a deck. What stands after `?END` belongs to that section."""
    sections = [Section([], [])]
    for line in lines_of(path):
        if line.startswith("?") and sections[-1].words != ["?END"]:
            sections.append(Section(words_of(line), []))
        elif not sections[-1].words and words_of(line):
            raise Refused(f"{titled(path)} is no deck: it begins with {shown(line)}, not with a section")
        sections[-1].lines.append(line)
    if len(sections) == 1:
        raise Refused(f"{titled(path)} is no deck: it has no section")
    return sections


def lines_in(sections, heading):
    """The lines of the sections with this section line that have a word, without a carriage return at the end."""
    found = [line.removesuffix("\r") for it in sections if it.words == [heading] for line in it.lines[1:]]
    return [line for line in found if words_of(line)]


def usage_of(page):
    """The usage line of a tool: the first line of its page of help that is set in."""
    return next(line.strip() for line in page.splitlines() if line.startswith("    "))


def read_words(words, page, fewest, most, flags):
    """The words of a call without its flags, and which of these stand there."""
    plain = [word for word in words if word == "-" or not word.startswith("-")]
    given = [word for word in words if word not in plain]
    unknown = [word for word in given if word not in flags]
    if unknown:
        raise Refused(f"there is no option {shown(unknown[0])}; usage: {usage_of(page)}")
    if not fewest <= len(plain) <= most:
        raise Refused(f"usage: {usage_of(page)}")
    if plain.count("-") > 1:
        raise Refused("only one file can be standard input")
    return plain, {flag.removeprefix("--"): True for flag in given}


def print_lines(lines):
    sys.stdout.write("".join(f"{line}\n" for line in lines))
    sys.stdout.flush()


def serve(tool, page):
    """Runs a tool on the words of a call, and prints the lines that it gives; or its page of help. What it refuses is told on
    standard error, and nothing is printed then."""
    words = sys.argv[1:]
    sys.stdout.reconfigure(encoding="utf-8", errors="surrogateescape", newline="\n")
    try:
        print_lines(page.splitlines() if {"--help", "-h"} & set(words) else list(tool(words)))
    except Refused as refused:
        print(f"{os.path.basename(sys.argv[0])}: {refused}", file=sys.stderr)
        sys.exit(REFUSED)
    except BrokenPipeError:
        # Whoever reads has enough; the interpreter shall not try once more at its end.
        os.dup2(os.open(os.devnull, os.O_WRONLY), sys.stdout.fileno())


def run(tool, page, fewest, most, flags=()):
    """Runs a tool on as many words as it takes, and on its flags."""

    def on_words(words):
        plain, given = read_words(words, page, fewest, most, flags)
        return tool(*plain, **given)

    serve(on_words, page)
