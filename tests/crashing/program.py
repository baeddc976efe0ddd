"""The program that is tried, and all that changes with its name: its path, its words, the names of its files, its statuses.

Everything else in this folder takes these from here."""
import os, pathlib, re, subprocess, typing

TOP = pathlib.Path(__file__).resolve().parents[2]

# ---- the table ------------------------------------------------------------------------------------------------------------------
# The path of the program; PATHWAY_STORE or the first word of a test names another one.
PROGRAM = os.environ.get("PATHWAY_STORE", f"{TOP}/crates/pathway_store/out/pathway_store")
# The words in front of the folder, and those for a run whose units are told while it goes on.
WORDS, FOLLOW = (), ("--follow",)
# The files of a folder: all of them, the one with the units, and what a temporary file's name ends with.
FILES, TRAIL, TEMPORARY = ("deck", "trail"), "trail", ".new"
# How many units are put on the disk together at most.
GROUP = 32
# The statuses of a call that did not run its deck, each with the beginning of its line.
IN_USE, NOT_OPENED, OTHER_FILES, DAMAGED, DISK_FAILED = 10, 11, 12, 13, 9
REFUSALS = {IN_USE: "STORE IN USE", NOT_OPENED: "STORE FAILED", OTHER_FILES: "STORE HAS OTHER FILES", DAMAGED: "STORE DAMAGED"}
# The line of a unit that was told, in front of the report; and of one in the serial order of a report.
TOLD, SERIAL = re.compile(r"^COMMIT (\S+) (\d+)\n", re.M), re.compile(r"^UNIT (\S+) \d+ COMMIT$", re.M)
# ---------------------------------------------------------------------------------------------------------------------------------

# What a call that hangs is cut off at, in seconds.
LIMIT = 60


class Ran(typing.NamedTuple):
    """How a call ended: its status, and what it wrote on both streams. A call that hangs has the status None."""

    status: typing.Optional[int]
    output: str
    error: str


def use(path):
    """Names another program."""
    global PROGRAM
    PROGRAM = os.path.abspath(path)


def is_there():
    return os.access(PROGRAM, os.X_OK)


def words_of(folder, *options):
    """The words of a run over a folder."""
    return [PROGRAM, *WORDS, str(folder), *options]


def call(folder, deck, *options, under=(), limit=LIMIT, **how):
    """Runs a deck over the store in a folder, under another program where one is named."""
    given = dict(input=deck, stdout=subprocess.PIPE, stderr=subprocess.PIPE, timeout=limit) | how
    try:
        ran = subprocess.run([*under, *words_of(folder, *options)], **given)
    except subprocess.TimeoutExpired as hangs:
        return Ran(None, (hangs.stdout or b"").decode(errors="replace"), "it hangs")
    return Ran(ran.returncode, *((it or b"").decode(errors="replace") for it in (ran.stdout, ran.stderr)))


def is_refused(ran):
    """Whether a call was refused with a status of the table and its line."""
    return ran.status in REFUSALS and ran.output.startswith(REFUSALS[ran.status])


def told_in(output):
    """The terminals of the units that an output tells, in order: by lines in front of its report, and else by its serial order."""
    told = []
    at = 0
    while line := TOLD.match(output, at):
        told.append(line[1])
        at = line.end()
    if told or not output.startswith("SERIAL\n"):
        return told
    return SERIAL.findall(output.partition("\nSCREENS\n")[0])
