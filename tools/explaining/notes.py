"""What a deck without a fault has that is most likely a mistake. Each note is a token and what is to be told of it."""
import re

from explaining.branches import Branches, depths
from explaining.commanding import command_notes, restart_notes
from explaining.comparing import condition_notes
from explaining.entries import entry_notes, value_notes
from explaining.failing import failure_notes
from explaining.filing import absent_notes, record_notes
from explaining.messages import message_notes, reply_notes
from explaining.nesting import nesting_notes
from explaining.operations import operation_notes
from explaining.registers import register_notes
from explaining.sizes import field_notes, size_notes, unused_notes
from explaining.tokens import Token
from explaining.ways import dead_notes, no_reply_notes, unit_notes
from explaining.words import ADVICE, LONE_WORDS, ONE_WORD_STATEMENTS, near

UNREAD = "what stands after ?END is not read, but by the command disc as its script: DISC PRIMARY AFTER n"
DISC_LINE = re.compile(r"DISC (PRIMARY (AFTER|HELD)|BACKUP AFTER) \d+")


def ends_the_run(pieces):
    """Whether a paragraph ends by a statement after which nothing runs, whatever the conditions before it are."""
    statements = [(piece, depth) for piece, depth in zip(pieces, depths(pieces)) if piece.kind != "period"]
    if not statements:
        return False
    last, depth = statements[-1]
    words = [token.upper for token in last.tokens[:2]]
    return depth == 0 and words in (["STOP", "RUN"], ["EXIT", "PROGRAM"], ["WRITE", "$RECEIVE"])


def paragraph_notes(program):
    """Paragraphs that nothing performs, and that are a statement spelled wrong, or never run."""
    performed = {tokens[0].upper for _, tokens in program.uses("paragraph")}
    runs_on = True
    yield from run_on_notes(program)
    for place, (name, pieces) in enumerate(program.paragraphs):
        if place and name.upper not in performed:
            meant = near(name.text, ONE_WORD_STATEMENTS, 0.8)
            if name.upper in LONE_WORDS:
                yield name, f"{name.text} is a paragraph that nothing performs; {ADVICE[name.upper]}"
            elif meant:
                yield name, f"{name.text} is a paragraph that nothing performs; did you mean {meant[0]}?"
            elif not runs_on:
                yield name, f"{name.text} is a paragraph that nothing performs, and the one before it ends the run: it never runs"
        runs_on = runs_on and not ends_the_run(pieces)


def run_on_notes(program):
    """A first paragraph that runs on into one that it performs."""
    if len(program.paragraphs) > 1 and program.side == "requester":
        (_, pieces), (following, _) = program.paragraphs[:2]
        statements = [piece for piece in pieces if piece.kind == "statement"]
        here = {tokens[0].upper for piece in statements for tokens in piece.uses("paragraph")}
        goes_back = statements and statements[-1].verb == "RESTART-TRANSACTION"
        if statements and following.upper in here and not ends_the_run(pieces) and not goes_back:
            told = f"the program runs on into {following.text} after this, which it has performed already: end it with STOP RUN"
            yield statements[-1].first, told


def branch_notes(program):
    """Statements that still belong to an IF though they stand no deeper, and an ELSE of another IF than it stands below."""
    indents = {number: len(text) - len(text.lstrip(" ")) for number, text in program.section.lines}
    if len({indents[piece.first.line] for piece in program.pieces}) == 1:
        return
    # The beginnings of branches that have a statement on the same line or deeper: what stands no deeper seems not to be theirs.
    branches, filled, line_before = Branches(), set(), 0
    for piece in program.pieces:
        line, indent = piece.first.line, indents[piece.first.line]
        if line != line_before and piece.kind == "statement":
            shallow = [it for it in branches.open if it.begin in filled and it.line != line and indent <= indents[it.line]]
            if shallow:
                told = f"this belongs to the {told_branch(shallow[-1])}, since no period and no END-IF closes it before"
                yield piece.first, told
                filled.difference_update(it.begin for it in branches.open)
        if line != line_before and piece.kind == "else":
            yield from else_notes(piece, branches, indents)
        if piece.kind == "statement":
            filled.update(it.begin for it in branches.open if it.line == line or indent > indents[it.line])
        branches.take(piece)
        line_before = piece.tokens[-1].line


def told_branch(branch):
    return f"{'ELSE' if branch.turned else branch.opener.verb} of line {branch.line}"


def else_notes(piece, branches, indents):
    """An ELSE that stands below an outer IF and belongs to an inner one."""
    waiting = [branch.opener for branch in branches.open if not branch.turned]
    indent = indents[piece.first.line]
    if waiting and indent < indents[waiting[-1].first.line] and any(indents[it.first.line] == indent for it in waiting[:-1]):
        inner = waiting[-1]
        yield piece.first, f"this ELSE belongs to the {inner.verb} of line {inner.first.line}: close that with END-IF before it"


def display_notes(program):
    """A message that the next statement wipes."""
    statements = [piece for piece in program.pieces if piece.kind not in ("period", "end")]
    for message, following in zip(statements, statements[1:]):
        shown = message.uses("shown") if message.verb == following.verb == "DISPLAY" else []
        if shown and shown[0][0].upper not in program.names("screen") and following.uses("screen"):
            line = following.first.line
            yield message.first, f"DISPLAY BASE in line {line} clears this message at once: DISPLAY it after that"


def base_notes(program):
    """Screens with texts that are shown, but never with BASE."""
    shown, based = {}, set()
    for piece in program.pieces:
        if piece.kind == "statement" and piece.verb == "DISPLAY":
            based |= {tokens[0].upper for tokens in piece.uses("screen")}
            for tokens in piece.uses("shown"):
                shown.setdefault(tokens[0].upper, tokens[0])
    for screen in program.screens:
        if screen.name in shown and screen.name not in based and any(not field.clauses for field in screen.fields):
            told = f"no DISPLAY BASE {screen.name} shows the texts of this screen"
            yield shown[screen.name], f"{told}: write DISPLAY BASE {screen.name} first"


def end_notes(deck):
    """Lines after the end that are no disc script."""
    for number in range((deck.end or len(deck.lines)) + 1, len(deck.lines) + 1):
        text = deck.line(number)
        if text.strip(" ") and not DISC_LINE.fullmatch(text):
            yield Token("line", text, number, 1), UNREAD
            return


OF_PROGRAM = (paragraph_notes, branch_notes, display_notes, base_notes, dead_notes, no_reply_notes, size_notes, field_notes)
OF_DECK = (unit_notes, nesting_notes, operation_notes, absent_notes, condition_notes, register_notes, command_notes, entry_notes, message_notes, reply_notes, record_notes,
           end_notes)
# These are not given where a deck has a log, which tells of a run that was.
OF_PROGRAM_TO_RUN = (unused_notes,)
OF_DECK_TO_RUN = (restart_notes, value_notes)


def notes_of(deck, report=""):
    """The notes on a deck, by their lines; with the report of a run, where there is one, those on its failure lines."""
    is_to_run = not deck.of_kind("LOG")
    found = list(failure_notes(deck, report)) if report else []
    for program in deck.programs:
        for notes in OF_PROGRAM + OF_PROGRAM_TO_RUN * is_to_run:
            found += notes(program)
    for notes in OF_DECK + OF_DECK_TO_RUN * is_to_run:
        found += notes(deck)
    return sorted(without_doubles(found), key=lambda note: (note[0].line, note[0].column))


def without_doubles(notes):
    """The notes, and of several on one comparison the first."""
    found, places = [], set()
    for token, told in dict.fromkeys(notes):
        place = (token.line, token.column, told.split(":")[0])
        if not told.startswith("this comparison") or place not in places:
            found.append((token, told))
        places.add(place)
    return found
