"""The section line that is missing in front of what belongs to another section."""
import re

from explaining.tokens import Token


def section_missing(deck, line):
    """The section line that is missing in front of a program, an entry or a failure line."""
    text, section = deck.line(line), deck.section_at(line)
    if re.match(" *IDENTIFICATION +DIVISION", text, re.I):
        named = re.match(r" *PROGRAM-ID *\. *([A-Za-z][A-Za-z0-9-]*)", deck.line(line + 1), re.I)
        name = named[1].upper() if named else "name"
        kinds = {"PROGRAM": "?SERVER", "INITIAL": "?SCREEN-COBOL"}
        kind = next((kinds[words[2].upper] for words in deck.commands_of("SET") if len(words) > 3 and words[3].upper == name
                     and words[2].upper in kinds), "?SERVER or ?SCREEN-COBOL")
        token = Token("line", text.strip(" "), line, len(text) - len(text.lstrip(" ")) + 1)
        yield token, f"a program begins here, and the line of its section is missing before it: {kind} {name}"
    if re.match(r"S?F([1-9]|1[0-6])( [A-Za-z][A-Za-z0-9-]*=|$)", text) and section and section.kind != "ENTRIES":
        yield Token("line", text, line, 1), "this is an entry, and the line of its section is missing before it: ?ENTRIES name"
    if re.match(r"(TCP|SERVER) \S+ (\S+ )?AFTER \d+$", text):
        yield Token("line", text, line, 1), "this is a failure line, and the line of its section is missing before it: ?FAIL"
    if section and section.kind == "SERVER" and re.match(r"[A-Z0-9]+[ 0-9]", text):
        used = {tokens[0].upper for program in deck.programs for _, tokens in program.uses("file")}
        for name in sorted(used - set(deck.files)):
            yield Token("line", text, line, 1), f"if this is a record, the line of its section is missing before it: ?FILE {name} KEY n"
