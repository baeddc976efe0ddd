"""Counts the instructions that the program takes: see bench/counts.sh."""
import concurrent.futures, os, pathlib, re, shutil, subprocess, sys, tempfile

TOP = pathlib.Path(__file__).resolve().parent.parent.parent
PAGE = TOP / "docs/design/SPEED.md"
# How much above the page a count may be.
MOST = 1.1

SENDS = """?SCREEN-COBOL SENDS
IDENTIFICATION DIVISION.
PROGRAM-ID. SENDS.
DATA DIVISION.
WORKING-STORAGE SECTION.
01 K PIC 9 VALUE 0.
01 MSG PIC X(4) VALUE "HITS".
01 ANSWER.
  02 A-CODE PIC 9(4).
  02 A-TEXT PIC X(4).
PROCEDURE DIVISION.
MAIN.
  PERFORM ROUND-1 UNTIL K = 1.
  STOP RUN.
ROUND-1.
  DISPLAY MSG.
  BEGIN-TRANSACTION.
  SEND MSG TO SERVES REPLY CODE 0 YIELDS ANSWER.
  END-TRANSACTION.
?SERVER SERVE-P
IDENTIFICATION DIVISION.
PROGRAM-ID. SERVE-P.
DATA DIVISION.
WORKING-STORAGE SECTION.
01 MSG PIC X(4).
01 ANSWER.
  02 A-CODE PIC 9(4) VALUE 0.
  02 A-TEXT PIC X(4).
PROCEDURE DIVISION.
MAIN.
  READ $RECEIVE INTO MSG.
  MOVE MSG TO A-TEXT.
  WRITE $RECEIVE FROM ANSWER.
"""
SHOWS = """?SCREEN-COBOL SHOWS
IDENTIFICATION DIVISION.
PROGRAM-ID. SHOWS.
DATA DIVISION.
WORKING-STORAGE SECTION.
01 K PIC 9 VALUE 0.
PROCEDURE DIVISION.
MAIN.
  PERFORM ROUND-1 UNTIL K = 1.
  STOP RUN.
ROUND-1.
  DISPLAY "ONE ROW".
"""
COMPUTES = """?SCREEN-COBOL COMPUTES
IDENTIFICATION DIVISION.
PROGRAM-ID. COMPUTES.
DATA DIVISION.
WORKING-STORAGE SECTION.
01 N PIC 9(9).
01 M PIC 9(9) VALUE 7.
01 I PIC 9(2) VALUE 3.
01 PRICE PIC 9(7)V99 VALUE 12.5.
01 SUM-1 PIC 9(7)V99.
01 TEXT-1 PIC X(20) VALUE "TWENTY CHARACTERS..".
01 TEXT-2 PIC X(20).
01 TABLE-1.
  02 CELL PIC 9(5) OCCURS 20.
PROCEDURE DIVISION.
MAIN.
  PERFORM ROUND-1 %d TIMES.
  STOP RUN.
ROUND-1.
%s"""
# A statement of each kind.
STATEMENTS = {
    "ADD 1 TO N": "a sum of two whole numbers",
    "MULTIPLY 1.19 BY PRICE GIVING SUM-1": "a product with decimals",
    "MOVE TEXT-1 TO TEXT-2": "a move of 20 characters",
    "IF N = M MOVE M TO N": "a comparison of two numbers",
    "ADD 1 TO CELL (I)": "a sum in an element of a table",
}
TURNS, MORE = 2000, 8


def commands(terminals, name):
    """The commands of so many terminals of a program, 16 to a pair."""
    lines = []
    for pair in range(1, (terminals + 15) // 16 + 1):
        lines += [f"ADD TCP TCP-{pair}", f"START TCP TCP-{pair}"]
    for number in range(terminals):
        lines += [f"SET TERM TCP TCP-{number // 16 + 1}", f"SET TERM INITIAL {name}", f"ADD TERM T{number + 1}", f"START TERM T{number + 1}"]
    return "?PATHCOM\nSET SERVER PROGRAM SERVE-P\nSET SERVER MAXSERVERS 16\n" + ("ADD SERVER SERVES\n" if name == "SENDS" else "") + "\n".join(lines) + "\n"


def computing(statements, turns=TURNS):
    """The deck of one terminal that does these statements so many times."""
    body = "".join(f"  {it}.\n" for it in statements)
    return commands(1, "COMPUTES").replace("SET SERVER PROGRAM SERVE-P\nSET SERVER MAXSERVERS 16\n", "") + COMPUTES % (turns, body) + "?END\n"


def large(size):
    """A deck of about so many bytes that only `check` reads: MOVEs, ADDs and IFs in paragraphs of 100."""
    items = "".join(f"    02 A-{n} PIC X(20).\n    02 B-{n} PIC X(20).\n    02 N-{n} PIC 9(9).\n" for n in range(10))
    text = "?SCREEN-COBOL BIG\nIDENTIFICATION DIVISION.\nPROGRAM-ID. BIG.\nDATA DIVISION.\nWORKING-STORAGE SECTION.\n01 ALL-ITEMS.\n" + items + "PROCEDURE DIVISION.\n"
    parts, held, n = [text], len(text), 0
    while held < size:
        part = f"P{n // 100}.\n" if n % 100 == 0 else ""
        part += f"    MOVE A-{n % 10} TO B-{(n + 3) % 10}.\n    ADD 1 TO N-{n % 7}.\n"
        part += f"    IF A-{n % 10} = B-{n % 9} MOVE N-{n % 7} TO N-{(n + 1) % 7} ELSE ADD 2 TO N-{n % 5}.\n"
        parts.append(part)
        held += len(part)
        n += 1
    return "".join(parts) + "    STOP RUN.\n?END\n"


class Counter:
    """Counts what calls of a program take, in a folder of its own."""

    def __init__(self, program, room):
        self.program, self.room = program, room

    def taken(self, deck, *words):
        """The instructions of a call, and what it printed."""
        words = ["valgrind", "--tool=callgrind", "--callgrind-out-file=/dev/null", self.program, *words]
        ran = subprocess.run(words, input=deck.encode(), capture_output=True, cwd=self.room)
        found = re.search(rb"Collected : (\d+)", ran.stderr)
        if not found:
            sys.exit(f"counts: {ran.stderr.decode(errors='replace')[-600:]}")
        return int(found[1]), ran.stdout.decode()

    def entries(self, front, few, many):
        """What an entry takes in a run, and in the replay of its log."""
        sides = []
        for entries in (few, many):
            ran, report = self.taken(front + "?END\n", "run", "--workers", "1", "--events", str(entries))
            log = report.partition("\nLOG\n")[2].rpartition("UNFINISHED")[0]
            if log.count("\n") != entries + 1:
                sys.exit(f"counts: a run ended before {entries} entries")
            sides.append((ran, self.taken(front + "?LOG\n" + log + "?END\n", "verify")[0]))
        return [(more - less) / (many - few) for less, more in zip(*sides)]

    def statement(self, kind):
        """What a statement takes: of a loop with several of them beside one with one."""
        few, many = (self.taken(computing([kind] * count), "run", "--workers", "1")[0] for count in (1, 1 + MORE))
        return (many - few) / MORE / TURNS

    def turn(self):
        """What a turn of a loop of one sum takes."""
        few, many = (self.taken(computing(["ADD 1 TO N"], turns), "run", "--workers", "1")[0] for turns in (TURNS, 5 * TURNS))
        return (many - few) / 4 / TURNS

    def byte(self):
        """What a byte takes in `check`."""
        small, big = large(100_000), large(400_000)
        return (self.taken(big, "check")[0] - self.taken(small, "check")[0]) / (len(big) - len(small))


def rows(counter):
    """The counts, each with its name, by as many calls side by side as there are processors."""
    jobs = {}
    for terminals in (1, 8, 64, 128):
        jobs[terminals] = lambda count=terminals: counter.entries(commands(count, "SENDS") + SENDS, 2000, 6000)
    jobs["shows"] = lambda: counter.entries(commands(1, "SHOWS").replace("SET SERVER PROGRAM SERVE-P\nSET SERVER MAXSERVERS 16\n", "") + SHOWS, 2000, 6000)
    for kind in STATEMENTS:
        jobs[kind] = lambda kind=kind: counter.statement(kind)
    jobs["turn"], jobs["byte"] = counter.turn, counter.byte
    with concurrent.futures.ThreadPoolExecutor(len(os.sched_getaffinity(0))) as pool:
        found = dict(zip(jobs, pool.map(lambda job: job(), jobs.values())))
    for terminals in (1, 8, 64, 128):
        many, do = ("terminal", "shows and sends") if terminals == 1 else ("terminals", "show and send")
        yield f"an entry of a run with {terminals} {many} that {do}", found[terminals][0]
        yield f"an entry of `verify` with {terminals} {many}", found[terminals][1]
    yield "an entry of a terminal that only shows one row", found["shows"][0]
    yield "an entry of `verify` of such a log", found["shows"][1]
    for kind, what in STATEMENTS.items():
        yield f"{what}, `{kind}`", found[kind]
    yield "a turn of a loop of one sum", found["turn"]
    yield "a byte of `check`", found["byte"]


def counts_of_page():
    """The counts that the page has, by their names."""
    found = re.findall(r"^\| (.+?) \| ([\d,]+) \|", PAGE.read_text(), re.M)
    return {name: int(count.replace(",", "")) for name, count in found}


def behind_launcher(program):
    """The program that `./pathway` runs, where that is named: the instructions of a launcher are none of its own."""
    if program != TOP / "pathway":
        return program
    told = subprocess.run(["bash", "-c", '. release/state.sh; is_built && echo "$built" || echo "$released"'], cwd=TOP,
        env={**os.environ, "here": str(TOP)}, stdout=subprocess.PIPE, text=True, check=True)
    return pathlib.Path(told.stdout.strip())


def main(words):
    compares = "--compare" in words
    words = [it for it in words if it != "--compare"]
    program = behind_launcher(pathlib.Path(words[0] if words else TOP / "pathway").resolve())
    if not shutil.which("valgrind"):
        print("valgrind is not installed here")
        return 77
    page, passed, failed = counts_of_page() if compares else {}, 0, 0
    with tempfile.TemporaryDirectory() as room:
        for name, count in rows(Counter(str(program), room)):
            if not compares:
                print(f"| {name} | {count:,.0f} |", flush=True)
            elif count <= MOST * page.get(name, 0):
                passed += 1
            else:
                failed += 1
                print(f"{name}: {count:,.0f}, more than a tenth above {page.get(name, 0):,} of docs/design/SPEED.md")
    if compares:
        print(f"{passed} passed, {failed} failed")
    return 1 if failed else 0


if __name__ == "__main__":
    sys.exit(main(sys.argv[1:]))
