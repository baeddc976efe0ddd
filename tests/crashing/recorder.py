"""Records by strace what a run does to the files of a folder, and when it tells its units."""
import os, re, shutil, subprocess, tempfile, typing

from crashing import program

# The calls on a folder's files that change nothing which the model has. `Recorder.event` knows all others, or refuses them.
HARMLESS = set(
    "read pread64 readv preadv close fstat newfstatat stat lstat statx lseek flock fcntl access faccessat faccessat2 readlink readlinkat "
    "getdents64 getdents ioctl mmap munmap fadvise64 dup dup2 dup3 statfs fstatfs execve chdir getcwd chmod fchmod fchown".split()
)
# How the names of the calls begin whose texts are paths.
WITH_PATHS = ("open", "creat", "rename", "unlink", "mkdir", "truncate", "stat", "lstat", "newfstatat", "access", "readlink")
LINE = re.compile(r"^(\d+) +(\w+)\((.*)\) += (-?\d+|\?)(.*)$")
UNFINISHED, RESUMED = re.compile(r"^(\d+) +(\w+)\((.*) <unfinished \.\.\.>$"), re.compile(r"^(\d+) +<\.\.\. (\w+) resumed>(.*)$")
HEX = r"(?:\\x[0-9a-f]{2})*"
WORD = re.compile(rf'(?:(?P<fd>-?\d+|AT_FDCWD)<(?P<at>{HEX})>(?:\(deleted\))?|"(?P<text>{HEX})"|(?P<other>[^,"<>]+))(?:, |$)')


class Event(typing.NamedTuple):
    """One thing that a run did. A name is relative to the folder above the store's; that of the store's folder itself is `store`.

    make: a file of this name is made. folder: a folder is made. write: `data` at `at`. cut: to the length `at`. sync: of a file or of a
    folder. rename: to `other`. unlink. told: `data` is the output that was written."""

    kind: str
    name: str = ""
    at: int = 0
    data: bytes = b""
    other: str = ""


class Call(typing.NamedTuple):
    """A call on a file of the folder: the thread that made it, its name, the file, and its answer."""

    thread: str
    name: str
    file: str
    answer: int


def bytes_of(text):
    return bytes.fromhex(text.replace("\\x", ""))


class Recorder:
    """Reads the lines of strace, and keeps the events of one folder."""

    def __init__(self, folder):
        self.folder = os.path.realpath(folder)
        self.above = os.path.dirname(self.folder)
        self.events, self.calls, self.output = [], [], None
        self.there = {self.name(os.path.join(at, it)) for at, _, names in os.walk(self.folder) for it in names}

    def name(self, path):
        """The name of a path below the folder, or of the folder; None for all others."""
        path = os.path.normpath(path)
        if path == self.above:
            return ""
        return "store" + path[len(self.folder) :] if path == self.folder or path.startswith(self.folder + "/") else None

    def line(self, thread, name, words, answer):
        """One call that ended: its thread, its name, its words and its answer."""
        found = [it.groupdict() for it in WORD.finditer(words)]
        texts = [bytes_of(it["text"]) for it in found if it["text"] is not None]
        ats = [(it["fd"], os.fsdecode(bytes_of(it["at"]))) for it in found if it["fd"]]
        numbers = [int(it["other"]) for it in found if it["other"] and re.fullmatch(r"\d+", it["other"])]
        if name == "write" and ats and ats[0][0] == "1":
            # What a program that this one has started writes goes elsewhere.
            self.output = self.output or ats[0][1]
            if answer > 0 and ats[0][1] == self.output:
                self.events.append(Event("told", data=texts[0][:answer]))
            return
        if texts and name.startswith(WITH_PATHS):
            bases = [at for _, at in ats] or [os.getcwd()]
            names = [self.name(os.path.join(bases[min(i, len(bases) - 1)], os.fsdecode(it))) for i, it in enumerate(texts)]
        else:
            names = [self.name(at) for _, at in ats]
        names = [it for it in names if it or (it == "" and name in ("fsync", "fdatasync"))]
        if names:
            self.calls.append(Call(thread, name, names[0], answer))
            if answer >= 0:
                self.event(name, names, words, texts, numbers)

    def event(self, name, names, words, texts, numbers):
        first = names[0]
        add = self.events.append
        if name in ("open", "openat", "creat"):
            if ("O_CREAT" in words or name == "creat") and first not in self.there:
                self.there.add(first)
                add(Event("make", first))
            elif "O_TRUNC" in words or name == "creat":
                add(Event("cut", first))
        elif name == "pwrite64":
            add(Event("write", first, numbers[-1], texts[0][: numbers[-2]]))
        elif name in ("ftruncate", "truncate"):
            add(Event("cut", first, numbers[-1]))
        elif name in ("fsync", "fdatasync"):
            add(Event("sync", first))
        elif name.startswith("rename"):
            self.there.discard(first)
            self.there.add(names[1])
            add(Event("rename", first, other=names[1]))
        elif name.startswith("unlink"):
            self.there.discard(first)
            add(Event("unlink", first))
        elif name.startswith("mkdir"):
            add(Event("folder", first))
        elif name not in HARMLESS or (name == "mmap" and "MAP_SHARED" in words and "PROT_WRITE" in words):
            raise ValueError(f"a call that no model knows: {name} of {first}")

    def read(self, lines):
        """All lines of a record."""
        begun = {}
        for line in lines:
            if found := UNFINISHED.match(line):
                begun[found[1], found[2]] = found[3]
                continue
            if found := RESUMED.match(line):
                line = f"{found[1]} {found[2]}({begun.pop((found[1], found[2]), '')}{found[3]}"
            if (found := LINE.match(line)) and found[4] != "?":
                self.line(found[1], found[2], found[3], int(found[4]))
        return self


class Record(typing.NamedTuple):
    """The events of one run, how it ended, and all its calls on the files of the folder, in order."""

    events: list
    ran: program.Ran
    calls: list


def is_installed():
    return shutil.which("strace") is not None


def record(folder, deck, *options):
    """Runs a deck over the store in a folder, and records it."""
    recorder = Recorder(folder)
    with tempfile.NamedTemporaryFile("r", prefix="record") as out:
        under = ["strace", "-f", "-y", "-xx", "-s", "16777216", "-e", "signal=none", "-e", "trace=%file,%desc", "-o", out.name, "--"]
        ran = program.call(folder, deck, *options, under=under)
        recorder.read(out.read().splitlines())
    return Record(recorder.events, ran, recorder.calls)
