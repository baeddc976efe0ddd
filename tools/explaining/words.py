"""The words of the language (docs/reference/LANGUAGE.md), those of COBOL that it lacks with what to write in their place, and near
names."""
import difflib

VERBS = """ACCEPT ABORT-TRANSACTION ADD BEGIN-TRANSACTION CALL DELETE DISPLAY DIVIDE END-TRANSACTION EXIT IF MOVE MULTIPLY
    PERFORM READ RESTART-TRANSACTION REWRITE SEND STOP SUBTRACT WRITE""".split()
COMMON = """ELSE END-IF THEN AND OR NOT IS NUMERIC EQUAL GREATER LESS THAN TO FROM BY INTO GIVING ON SIZE ERROR TIMES UNTIL ONE
    OF DEPENDING PROGRAM RUN SPACE SPACES ZERO ZEROS ZEROES FILLER PIC PICTURE VALUE OCCURS DIVISION SECTION""".split()
OWN = {
    "requester": "BASE AT USING REPLY CODE YIELDS TERMINATION-STATUS RESTART-COUNTER".split(),
    "server": "$RECEIVE NEXT KEY AFTER FILE-STATUS WITH LOCK".split(),
}
TABLE = {side: frozenset(VERBS + COMMON + own) for side, own in OWN.items()}
REGISTERS = {"requester": {"TERMINATION-STATUS": 4, "RESTART-COUNTER": 5}, "server": {"FILE-STATUS": 4}}
FIGURATIVE = {"SPACE", "SPACES", "ZERO", "ZEROS", "ZEROES"}
# The most names that are listed where none is near.
MOST_LISTED = 8
# The statements that are one word: a paragraph that nothing performs may be one of these that is spelled wrong, or one of the
# others, which this language lacks.
ONE_WORD_STATEMENTS = ["BEGIN-TRANSACTION", "END-TRANSACTION", "ABORT-TRANSACTION", "RESTART-TRANSACTION"]
LONE_WORDS = frozenset("""CONTINUE GOBACK STOP-RUN STOPRUN EXIT-PROGRAM ENDIF COMMIT COMMIT-TRANSACTION COMMIT-WORK ROLLBACK
    ROLLBACK-TRANSACTION BACKOUT BACKOUT-TRANSACTION END-PERFORM END-EVALUATE END-READ END-WRITE END-REWRITE END-DELETE END-ADD
    END-SUBTRACT END-MULTIPLY END-DIVIDE END-CALL END-SEND END-ACCEPT END-DISPLAY""".split())

NO_PHRASE = "statements have no phrases for this: look at FILE-STATUS after the statement"
NO_INLINE = "statements cannot stand inside a PERFORM: make them a paragraph, and PERFORM that"
NO_TEXTS = "there is none: MOVE the text to a group whose items are the parts, or the parts to such a group"
NO_USAGE = "leave it out: a number is kept as its digits"
NO_LOOKS = "a field has a VALUE alone, or a PIC and one of FROM, TO and USING"
NO_PAGE = "fields stand AT row, column"
NO_COMMENT = "leave it out; a line that begins with * is a comment"
NO_HANDLING = "files are open from the start, and belong to servers: leave it out"
ONE_FIGURE = "there is none: write a text in quotes"
# What to write in place of words that the language lacks.
LACKING = {
    "COMPUTE": "write ADD, SUBTRACT, MULTIPLY or DIVIDE, one operation a statement, with GIVING where it is wanted",
    "EVALUATE WHEN END-EVALUATE": "write IF .. ELSE IF .., or PERFORM ONE OF p, q DEPENDING ON item",
    "VARYING": "write MOVE 1 TO I, PERFORM p UNTIL I > n, and ADD 1 TO I in p",
    "THRU THROUGH": "PERFORM runs one paragraph: PERFORM each, or one paragraph that performs them",
    "END-PERFORM": NO_INLINE,
    "GO GOTO": "write PERFORM, which comes back, or IF around what is to be left out",
    "GOBACK": "write EXIT PROGRAM, which acts as STOP RUN in a program that nothing has called",
    "STOP-RUN STOPRUN": "write STOP RUN",
    "EXIT-PROGRAM": "write EXIT PROGRAM",
    "ENDIF": "write END-IF",
    "ELSEIF ELSIF ELIF ELSE-IF": "write ELSE IF, two words",
    "CONTINUE SENTENCE": "leave it out, or write EXIT, which does nothing",
    "INITIALIZE": "MOVE SPACES to a text, and ZEROS to each number",
    "INSPECT STRING UNSTRING DELIMITED TALLYING REPLACING POINTER": NO_TEXTS,
    "SET": "write MOVE",
    "SEARCH": "write PERFORM p UNTIL, with ADD 1 to the subscript in p",
    "SORT MERGE RELEASE RETURN": "there is none: READ NEXT gives the records of a file in the order of their keys",
    "OPEN CLOSE UNLOCK": NO_HANDLING,
    "SELECT ASSIGN FD": "a file is a section of the deck, ?FILE name KEY n, and its records are items of the server",
    "START": "write READ NEXT file AFTER item INTO item",
    "INVALID END-READ END-WRITE END-REWRITE END-DELETE": NO_PHRASE,
    "END-ADD END-SUBTRACT END-MULTIPLY END-DIVIDE": "write END-IF, which closes ON SIZE ERROR too",
    "END-CALL END-SEND END-ACCEPT END-DISPLAY": "leave it out: the period or the next verb ends the statement",
    "ROUNDED": "decimals are cut: ADD half of the last place before",
    "REMAINDER": "MULTIPLY the quotient by the divisor, and SUBTRACT that",
    "COPY REPLACE INCLUDE": "there is none: write the text itself in each program",
    "EXEC ENTRY CANCEL ALTER RECONNECT": "there is none in this language",
    "HIGH-VALUE HIGH-VALUES LOW-VALUE LOW-VALUES QUOTE QUOTES NULL NULLS TRUE FALSE": ONE_FIGURE,
    "FUNCTION": "there are no functions",
    "LENGTH": "lengths are known from the pictures: write the number",
    "POSITIVE": "write > 0",
    "NEGATIVE": "write < 0",
    "ALPHABETIC": "only NUMERIC can be asked for",
    "UNEQUAL": "write NOT =",
    "OTHERWISE": "write ELSE",
    "COMMIT COMMIT-TRANSACTION COMMIT-WORK": "write END-TRANSACTION",
    "ROLLBACK ROLLBACK-TRANSACTION BACKOUT BACKOUT-TRANSACTION": "write ABORT-TRANSACTION",
    "BEGIN": "write BEGIN-TRANSACTION",
    "CORRESPONDING CORR": "MOVE each item, or the whole group where both are built the same way",
    "IN": "names are not qualified: give each item a name of its own",
    "UPON ADVANCING": "leave it out: DISPLAY shows on row 24 of the terminal",
    "ESCAPE": "name the key after UNTIL, and look at TERMINATION-STATUS",
    "CLEAR ERASE": "write DISPLAY BASE screen, which clears the terminal first",
    "RECOVERY TURN RESET SCROLL DELAY PRINT TEMP": "there is none: DISPLAY BASE screen, DISPLAY screen and DISPLAY item are all",
    "REDEFINES": "there is none: MOVE the item to another group of the same length",
    "RENAMES": "there is none: make a group of the items",
    """COMP COMP-1 COMP-2 COMP-3 COMP-4 COMP-5 COMPUTATIONAL COMPUTATIONAL-3 BINARY PACKED-DECIMAL NATIVE-2 NATIVE-4
    USAGE""": NO_USAGE,
    "SIGN LEADING TRAILING SEPARATE": "leave it out: S in front of the picture keeps a sign, as a character in front",
    "JUSTIFIED JUST SYNC SYNCHRONIZED EXTERNAL GLOBAL ASCENDING DESCENDING": "leave it out: there is none",
    "INDEXED INDEX": "leave it out: a subscript is a number, or an item that is a number without a sign",
    "BLANK": "leave it out: a Z in the picture of a field shows a leading zero as a space",
    "VALUES": "write VALUE, with one text or one number after it",
    "ALL": "there is none: write the whole text in quotes",
    "LINE COLUMN COL PLUS": NO_PAGE,
    """HIGHLIGHT LOWLIGHT REVERSE-VIDEO REVERSED UNDERLINE BLINK BLINKING SECURE HIDDEN REQUIRED AUTO FULL PROTECTED UNPROTECTED
    NORMAL DIM BRIGHT UPSHIFT FILL ADVISORY SHADOWED MUST BELL BEEP FOREGROUND-COLOR BACKGROUND-COLOR""": NO_LOOKS,
    """AUTHOR INSTALLATION DATE-WRITTEN DATE-COMPILED SECURITY REMARKS""": NO_COMMENT,
    "ID": "write IDENTIFICATION DIVISION",
}
ADVICE = {word: advice for words, advice in LACKING.items() for word in words.split()}
# Those of them that may stand where an item is wanted.
LIKE_ITEMS = LONE_WORDS.union(*(words.split() for words, advice in LACKING.items() if advice == ONE_FIGURE))


def near(name, names, cutoff=0.7):
    """The names that are spelled nearly so: the nearest one, and those that are about as near."""
    name = name.upper()
    found = difflib.get_close_matches(name, sorted(set(names) - {name}), 3, cutoff)
    likeness = [difflib.SequenceMatcher(None, other, name).ratio() for other in found]
    return [other for other, like in zip(found, likeness) if like > likeness[0] - 0.05]


def listed(names, joint="or"):
    """Names in a row: A, B or C."""
    names = list(names)
    return names[0] if len(names) == 1 else f"{', '.join(names[:-1])} {joint} {names[-1]}"


def plural(what):
    return f"{what}{'es' if what.endswith('s') else 's'}"


def counted(number, what):
    """A number of things: 1 key, 2 keys, 2 classes."""
    return f"{number:,} {what if number == 1 else plural(what)}"


def suggestion(name, names, what):
    """What may have been meant by a name that is not there: near ones, or all where they are few."""
    found, others = near(name, names), sorted(set(names))
    if found:
        return f"did you mean {listed(found)}?"
    if not others:
        return f"there is no {what} at all"
    if len(others) == 1:
        return f"the only {what} is {others[0]}"
    return f"the {plural(what)} are {listed(others, 'and')}" if len(others) <= MOST_LISTED else f"no {what} has such a name"
