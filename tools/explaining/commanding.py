"""Notes on the commands of a deck: SET in the wrong place, terminals that are not started, and units that may not restart."""
from explaining.words import counted, listed

DEFAULTS = {"MAXTMFRESTARTS": "5", "MAXSERVERS": "1"}


def command_notes(deck):
    """The notes on SET, ADD and START."""
    yield from unused_set_notes(deck)
    yield from late_set_notes(deck)
    yield from terminal_notes(deck)


def kind_commands(deck, kind):
    """The SET and ADD commands of a kind, in order."""
    return [words for words in deck.commands if len(words) > 2 and words[1].upper == kind and words[0].is_word("SET", "ADD")]


def unused_set_notes(deck):
    """SETs that no ADD takes over, since another SET or the end comes before it."""
    for kind in ("TERM", "SERVER"):
        waiting = {}
        for words in kind_commands(deck, kind):
            if words[0].is_word("ADD"):
                waiting = {}
                continue
            value = words[2].upper
            if value in waiting:
                yield waiting[value][0], f"no ADD {kind} takes this over: line {words[0].line} sets {value} anew before one comes"
            waiting[value] = words
        for words in waiting.values():
            before = [it for it in kind_commands(deck, kind) if it[0].is_word("ADD")]
            told = f": the last one is in line {before[-1][0].line}" if before else ""
            yield words[0], f"no ADD {kind} after this SET takes it over{told}"


def late_set_notes(deck):
    """The first SET of a number that stands after an ADD of its kind: what was added before has the default."""
    for kind in ("TERM", "SERVER"):
        commands = kind_commands(deck, kind)
        for place, words in enumerate(commands):
            value = words[2].upper
            is_first = words[0].is_word("SET") and value in DEFAULTS and not any(
                it[0].is_word("SET") and it[2].upper == value for it in commands[:place])
            before = [it[2].text for it in commands[:place] if it[0].is_word("ADD")]
            behind = [it for it in commands[place:] if it[0].is_word("ADD")]
            if is_first and before and behind and kind == "TERM":
                was, has = ("was", "has") if len(before) == 1 else ("were", "have")
                told = f"{listed(before, 'and')} {was} added before this SET, and {has} the default, {DEFAULTS[value]}"
                yield words[0], told


def terminal_notes(deck):
    """Terminals that are not started."""
    started = started_terminals(deck)
    for name, token in deck.added("TERM").items():
        if name not in started:
            yield token, f"{token.text} is not started, so it does nothing: START TERM {token.text}"


def started_terminals(deck):
    return {words[2].upper for words in deck.commands_of("START", "TERM")}


def restart_notes(deck):
    """A MAXTMFRESTARTS that is set too low for the terminals that may meet and for the failures."""
    terminals = [name for name in deck.added("TERM") if name in started_terminals(deck)]
    failures = [text for section in deck.of_kind("FAIL") for _, text in section.lines if text.strip(" ")]
    wanted, told = max(0, len(terminals) - 1) + len(failures), set()
    has_units = any(piece.verb == "SEND" for program in deck.programs for piece in program.pieces)
    for name in terminals if has_units else ():
        value = deck.values_before("TERM", deck.added("TERM")[name].line).get("MAXTMFRESTARTS")
        if value and int(value.text) < wanted and value not in told:
            told.add(value)
            meeting = [f"{counted(len(terminals), 'terminal')} may meet"] if len(terminals) > 1 else []
            why = " and ".join(meeting + ([f"{counted(len(failures), 'failure line')} may strike"] if failures else []))
            cost = f"a unit that has to restart more often suspends its terminal; {wanted} is enough"
            yield value, f"{value.text} is too low where {why}: {cost}"
