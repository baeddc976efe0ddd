"""Why the characters and the statements of a source are refused (101 to 104, 131 to 133, 152). Each function goes over what may
be wrong on a line: it gives the token, and what is to be told of it."""
import re
import unicodedata

from explaining.branches import Branches, MOST_OPEN
from explaining.forms import END, forms_of, match, shown_form
from explaining.missing import section_missing
from explaining.tokens import Token, behind
from explaining.words import ADVICE, TABLE, VERBS, listed, near

ARITHMETIC = ("ADD", "SUBTRACT", "MULTIPLY", "DIVIDE")
INLINE = ADVICE["END-PERFORM"]
ONE_OPERAND = "{0} takes one operand on each side: write {0} for each"
BOTH_SIDES = "each comparison names both its sides: A = 1 OR A = 2"
NO_PERIOD = "no period closes the statement before the paragraph {} in line {}"
# The words between the parts of a statement: where one stands too early, a part is missing.
STRUCTURE = ("TO", "FROM", "BY", "INTO", "GIVING", "UNTIL", "TIMES", "USING", "YIELDS", "REPLY", "DEPENDING", "ELSE", "AND", "OR",
             "IS", "NOT", "THAN", "THEN", "EQUAL", "GREATER", "LESS", "NUMERIC", "END-IF")
MOST_NAMED = 9999
PLAIN = "a deck has the characters from space to ~ alone"
QUOTE = 'a typographic quote: write "'
CHARACTERS = {
    "\t": "a tab: put spaces in its place",
    "\r": "a carriage return inside the line: lines end with LF, or CR and LF",
    "\0": "a byte that is 0: save the deck as plain text, not as UTF-16",
    "\ufeff": "a byte order mark: save the deck without it, as plain ASCII",
    "\u00a0": "a no-break space: put a plain space in its place",
    **dict.fromkeys("\u2018\u2019\u201c\u201d\u201e", QUOTE),
    **dict.fromkeys("\u2010\u2011\u2012\u2013\u2014\u2212", "a dash: write -"),
}
MARKS = {
    "'": 'a text stands between two "',
    "_": "a name has hyphens, not underscores",
    "+": "+ stands directly in front of digits alone: write ADD",
    "-": "- stands inside a name, or directly in front of digits: write SUBTRACT",
    "*": "a comment has its * in column 1; write MULTIPLY for a product",
    "/": "write DIVIDE",
    ":": "there are no parts of a text: MOVE it to a group whose items are the parts",
    "?": "a section line has its ? in column 1",
    "$": "a name begins with a letter; only $RECEIVE has this sign",
}


def character_name(text, at):
    """What stands at a place of a line whose bytes are characters, in words."""
    character = text[at:].encode("latin-1").decode("utf-8", "replace")[0]
    if character in CHARACTERS:
        return CHARACTERS[character]
    if character == "\ufffd":
        return f"the byte 0x{ord(text[at]):02X}: {PLAIN}"
    return f"{unicodedata.name(character, 'a control character').lower()} (U+{ord(character):04X}): {PLAIN}"


def foreign_characters(deck, line):
    """The first character of a line that no deck has, if there is one."""
    text = deck.line(line)
    found = re.search(r"[^\x20-\x7e]", text)
    if found:
        is_wide = deck.raw[:2] in (b"\xff\xfe", b"\xfe\xff")
        told = CHARACTERS["\0"] if is_wide else character_name(text, found.start())
        yield Token("bad", found[0], line, found.start() + 1), f"column {found.start() + 1} has {told}"


def bad_character(deck, line):
    """101"""
    yield from foreign_characters(deck, line)
    for token in tokens_at(deck, line, "bad"):
        program = deck.program_at(line)
        verb = next((it for it in tokens_at(deck, line, "word") if it.is_word("COMPUTE")), None)
        if verb and not program.declares("COMPUTE"):
            yield token, f"COMPUTE: {ADVICE['COMPUTE']}", *([MARKS[token.text]] if token.text in MARKS else [])
        yield token, MARKS.get(token.text, f"no word, number or mark begins with {token.text}")


def tokens_at(deck, line, *kinds):
    """The tokens of these kinds on a line of a source."""
    program = deck.program_at(line)
    return [token for token in program.tokens if token.line == line and token.kind in kinds] if program else []


def unclosed_literal(deck, line):
    """102"""
    for token in tokens_at(deck, line, "unclosed"):
        yield token._replace(text='"'), f"the quote in column {token.column} opens a text that no quote closes on this line"


def word_too_long(deck, line):
    """103"""
    for token in tokens_at(deck, line, "word"):
        if len(token.text) > 30:
            yield token, f"the word has {len(token.text)} characters"


def number_too_long(deck, line):
    """104"""
    for token in tokens_at(deck, line, "number"):
        digits = len(token.text.lstrip("+-").replace(".", ""))
        if digits > 18:
            yield token, f"the number has {digits} digits"


def pieces_at(deck, line, *kinds):
    """The pieces of these kinds that begin on a line of a procedure, and their program."""
    program = deck.program_at(line)
    return [(program, piece) for piece in program.pieces if piece.first.line == line and piece.kind in kinds] if program else []


def advised(program, tokens):
    """The first word that COBOL has and this language lacks, with what to write in its place."""
    for token in tokens:
        if token.kind == "word" and token.upper in ADVICE and not program.declares(token.upper):
            return token, f"{token.upper}: {ADVICE[token.upper]}"
    return None


def misspelt_verb(program, tokens):
    """The first word that is no name and may be a verb, with that verb."""
    for token in tokens:
        verbs = near(token.text, VERBS + ["ELSE", "END-IF"], 0.75)
        if token.kind == "word" and verbs and not program.declares(token.upper):
            return token, f"{token.text}: did you mean {verbs[0]}?"
    return None


def no_such_form(deck, line):
    """131"""
    for program, piece in pieces_at(deck, line, "statement", "else", "end", "run", "period", "paragraph"):
        yield from section_missing(deck, line)
        if program.is_before_paragraphs(piece):
            yield piece.first, "the procedure begins with a paragraph: a name and a period"
        elif piece.kind == "run" or piece.kind == "paragraph" and piece.first.is_word("$RECEIVE"):
            yield no_verb(program, piece)
        elif piece.kind in ("statement", "else", "end") and piece.form.wanted and not is_other_side(program, piece):
            yield no_form(program, piece)
        elif piece.kind == "statement" and piece.opens and program.depth_before(piece) >= MOST_OPEN:
            yield piece.first, "64 branches are open here: close some with END-IF or a period, or PERFORM a paragraph"
        elif piece.kind == "statement" and len(piece.uses("key", "code")) > MOST_NAMED:
            yield piece.first, f"an ACCEPT has {MOST_NAMED:,} keys at most, and a SEND as many codes"


def is_other_side(program, piece):
    """Whether a server has a statement of requesters, which is another refusal."""
    return program.side == "server" and piece.verb not in forms_of("server")


def own_verbs(side):
    return listed(sorted(set(forms_of(side)) - {"ELSE", "END-IF"}), "and")


def no_verb(program, piece):
    """What is to be told of a run of tokens that begins with no verb."""
    first, last = piece.first, piece.tokens[-1]
    joined = "-".join(token.upper for token in piece.tokens[:2])
    if joined in VERBS:
        return first, f"write {joined}, one word"
    foreign = advised(program, [first]) or misspelt_verb(program, [first])
    if foreign:
        return foreign
    if last.is_word("SECTION"):
        return first, "a procedure has no sections: it has paragraphs alone"
    if last.is_word("DIVISION"):
        return first, "the divisions stand in the order IDENTIFICATION, ENVIRONMENT, DATA, PROCEDURE, each once"
    if last.is_word("$RECEIVE"):
        return first, "$RECEIVE is for servers alone"
    if len(piece.tokens) == 1 and program.may_name(first):
        return first, f"if {first.text} is a paragraph, a period stands after its name"
    if all(program.may_name(token) for token in piece.tokens):
        return first, "the name of a paragraph is one word and a period; a statement begins with a verb"
    return first, f"{first.text} is no verb; the verbs are {own_verbs(program.side)}"


def no_form(program, piece):
    """What is to be told of a statement whose verb has no such form."""
    if piece.verb not in forms_of(program.side):
        return piece.first, f"{piece.verb} is for servers alone: SEND a message to a class, whose server works on files"
    at, last = piece.form.at, piece.tokens[-1]
    forms = [shown_form(form) for form in forms_of(program.side)[piece.verb]]
    form = f"the form{'s' * (len(forms) > 1)} of {piece.verb}: {'; '.join(forms)}"
    if takes_heading(program, piece):
        return behind(piece.tokens[-2]), NO_PERIOD.format(last.text, last.line), form
    stop, told = piece.tokens[at] if at < len(piece.tokens) else behind(last), special(program, piece, at)
    if told:
        return stop, told, form
    around = piece.tokens[max(1, at - 1) : at + 1]
    parted = comma_number(program, piece.tokens, at)
    if parted:
        return *parted, form
    foreign = advised(program, piece.tokens[1 : at + 1]) or taken_word(program, piece, at) or misspelt_verb(program, around)
    if foreign:
        return *foreign, form
    here = f"{stop.text} stands" if at < len(piece.tokens) else "the statement ends"
    return stop, f"{here} where {piece.form.wanted} is wanted", form


def comma_number(program, tokens, at):
    """A number that a comma cuts in two, in front of a place."""
    texts = dict(program.section.lines)
    for before, token in zip(tokens[: at + 1], tokens[1 : at + 1]):
        is_pair = before.kind == token.kind == "number" and before.line == token.line and token.column == before.end + 1
        if is_pair and texts[token.line][before.end - 1] == "," and len(token.text.split(".")[0]) == 3:
            return before, f"a number has no commas: write {before.text}{token.text}"
    return None


def taken_word(program, piece, at):
    """A word of the language that stands where a name is wanted."""
    for token in piece.tokens[max(1, at - 1) : at + 1]:
        is_name = token.is_word("ONE") or any(it in piece.form.wanted for it in ("an item", "a paragraph", "a screen", "a number"))
        if token.kind == "word" and token.upper in TABLE[program.side] and is_name and token.upper not in (*VERBS, *STRUCTURE):
            return token, f"{token.upper} is a word of the language, so no item, paragraph or screen has this name: take another"
    return None


def takes_heading(program, piece):
    """Whether a statement is one without its last word, which stands like the name of a paragraph: its period is missing."""
    return piece.tokens[1:] and program.is_heading(piece.tokens[-1]) and match(piece.tokens[:-1], piece.side).wanted is None


def special(program, piece, at):
    """What is often written otherwise, where that is so here."""
    words, verb = [token.upper for token in piece.tokens], piece.verb
    stop, spelled = words[at] if at < len(words) else "", f" {' '.join(words)} "
    is_literal = at < len(words) and piece.tokens[at].kind in ("number", "text")
    wanted, is_operand = piece.form.wanted, is_literal or program.declares(stop, "item")
    rows = [
        (verb == "IF" and stop == "(", "a condition has no parentheses: AND binds more than OR; else write an IF inside an IF"),
        (stop == ">" and words[at - 1] == "<", "write NOT = in place of <>"),
        (stop == "=" and words[at - 1] == "=", "write = in place of =="),
        (" NOT ON SIZE " in spelled or " NOT SIZE " in spelled, "write ELSE in place of NOT ON SIZE ERROR"),
        (stop == "OR" and words[at - 1] in ("THAN", "LESS", "GREATER"), "write >= or <="),
        (wanted.startswith("a comparison") and {"AND", "OR"} & set(words[:at]), BOTH_SIDES),
        (verb == "IF" and stop == "NOT" and at == 1, "NOT stands after the first operand: A NOT = B"),
        (verb == "DIVIDE" and stop == "BY", "write DIVIDE divisor INTO item"),
        (verb in ARITHMETIC and is_operand and (wanted == END or wanted in words[at:]), ONE_OPERAND.format(verb)),
        (verb == "DISPLAY" and is_operand and wanted == END, "DISPLAY shows one operand: MOVE all to a group, and show that"),
        (verb == "PERFORM" and at == 1 and (stop in ("UNTIL", "TIMES", "") or is_literal), INLINE),
        (" AT END " in spelled, "AT END: look at FILE-STATUS after the statement"),
        (stop == "END", "END-IF is one word"),
        (stop == "OF" and verb != "PERFORM", "names are not qualified by OF: give each item a name of its own"),
        (verb == "STOP" and at == 1, "write STOP RUN"),
        (verb == "EXIT" and stop in ("PARAGRAPH", "SECTION", "PERFORM"), "put what is to be left out into an ELSE"),
    ]
    return next((told for holds, told in rows if holds), None)


def no_if(deck, line):
    """132"""
    program, branches = deck.program_at(line), Branches()
    for piece in program.pieces if program else ():
        if piece.kind == "paragraph":
            branches.closed = None
        if not branches.take(piece) and piece.first.line == line:
            yield piece.first, told_closing(*branches.closed) if branches.closed else "no IF and no ON SIZE ERROR is open here"


def told_closing(opener, period):
    at = f"line {period.first.line}, column {period.first.column}"
    return f"the {opener.verb} of line {opener.first.line} was closed by the period in {at}"


def paragraph_twice(deck, line):
    """133"""
    first = {}
    program = deck.program_at(line)
    for name, _ in program.paragraphs if program else ():
        if name.line == line and name.upper in first:
            yield name, f"the first one is in line {first[name.upper].line}"
        first.setdefault(name.upper, name)


def not_for_servers(deck, line):
    """152"""
    for program, piece in pieces_at(deck, line, "statement"):
        if is_other_side(program, piece):
            yield piece.first, f"the verbs of a server are {own_verbs('server')}"
