#!/usr/bin/env bash
# Whether the pages name what is there, and are written as pages are. The pages are README.md, CHANGELOG.md, CONTRIBUTING.md and
# those of the folders of docs/.
# - Each file that is named exists, and each link leads to a file and, where it names one, to a heading there.
# - Each name that has a file beside it (`Name` in `file.rt`, or `Name`, `file.rt`, or a link [`Name`](file.rt)) stands in that
#   file, and each other name of code is one of the sources. A row of a table that begins with crates is about these.
# - Each word of docs/proof/GLOSSARY.md has a name with its file, and the words are in order.
# - The first line under the title names the page's reader: it has the word "for". README.md is for everybody.
# - "behind" is said of places, and not for "after": only in the phrases of PLACES.
# - The tables of docs/design/ARCHITECTURE.md are those of crates.txt (bench/map), and docs/proof/PROVED.md is what
#   bench/proved.py makes.
#
# And whether each name with a capital is that of one crate alone: no two crates define a proposition, a record or a type of one
# name, but for those that are listed here. It prints what is not so, and then fails.
#
#     bench/pages.sh
set -eu
cd "$(dirname "$0")/.."
exec python3 - << 'END'
import collections, os, re, subprocess, sys

FILES = subprocess.run(["git", "ls-files"], capture_output=True, text=True, check=True).stdout.split()
ENDS = {}
for file in FILES:
    parts = file.split("/")
    for i in range(len(parts)):
        ENDS.setdefault("/".join(parts[i:]), []).append(file)
SOURCES = {file: open(file).read() for file in FILES if file.endswith((".rt", ".antt"))}
WORDS = {word for text in SOURCES.values() for word in re.findall(r"\w+", text)}
KNOWN = WORDS | {os.path.splitext(part)[0] for file in FILES for part in file.split("/")}
CRATES = {file.split("/")[1] for file in FILES if file.startswith("crates/")}
# What defines a name with a capital: propositions, records and types in specs, types in code.
DEFINITIONS = {
    "specs": r"^ *(?:unfoldable |abbrev )*pub (?:record |data )?([A-Z]\w*)",
    "src": r"^(?:pub(?:\(\w+\))? )?(?:struct|enum|trait|type) ([A-Z]\w*)",
}
# The names with a capital that two crates rightly have, each with its reason in a comment beside it; there is none today.
SHARED = set()
# Names that stand for any name, and words that are no names of code.
FREE = {"CRATE", "FILE", "LegalKIND", "do_kind", "ISX", "perf", "ENTERED"}
PATH = r"[\w/-]*\w\.(?:rt|antt|md|deck|out|sh|py|edit|html|schedule)\b"
# One name or several, and the file that they stand in.
BESIDE = re.compile(r"((?:`[\w:]+`, )*`[\w:]+`)(?:,? in|,) `?((?:[\w-]+/)*\w+\.(?:rt|antt))\b")
# Crates, or modules of them, side by side.
HEADED = r"((?:`\w+(?:::\w+)*`(?:, )?)+)"
# What a page may say with "behind".
PLACES = r"behind (?:a|the) (?:door|lock|scenes?)\b"
# The page that a script makes of the comments in the sources, whose words are theirs.


def candidates(path, crates=()):
    """The files that a path may mean: from the root, or below any folder, of these crates where they have it."""
    found = ENDS.get(os.path.normpath(path).lstrip("./"), [])
    return [it for it in found if it.split("/")[1:2] and it.split("/")[1] in crates] or found


def lines_of(page):
    """Each line with its number and the crates that its row of a table is about."""
    for number, line in enumerate(open(page).read().split("\n"), 1):
        row = re.match(rf"\| {HEADED} \|", line)
        yield number, line, CRATES.intersection(re.findall(r"`(\w+)", row[1] if row else ""))


def stands(name, files):
    """Whether a name stands in one of the files."""
    return any(re.search(rf"\b{name.split('::')[-1]}\b", SOURCES.get(file, "")) for file in files)


def faults(page):
    whole = open(page).read()
    named = set(re.findall(r"\b(?:pw_\w+|pathway)\b", whole))
    for number, line, crates in lines_of(page):
        for path in re.findall(PATH, line):
            if not FREE & set(re.split(r"[/.]", path)) and path != "src/M.rt" and not candidates(path):
                yield number, f"no file {path}"
            if crates and path.startswith(("src/", "specs/")) and not any(it.split("/")[1] in crates for it in candidates(path, crates)):
                yield number, f"no file {path} in {' and '.join(sorted(crates))}"
        row = re.match(r"\| `([\w/]+\.(?:rt|antt))` \| (.*) \|$", line)
        for name in re.findall(r"`([\w:]+)`", row[2]) if row else ():
            if not stands(name, [row[1]]):
                yield number, f"no {name} in {row[1]}"
        for link, heading in re.findall(r"\]\(([^)#:]*)(#[^)]*)?\)", line):
            target = os.path.normpath(os.path.join(os.path.dirname(page), link)) if link else page
            if not os.path.exists(target):
                yield number, f"no page {link}"
            elif heading and heading[1:] not in headings(target):
                yield number, f"no heading {heading[1:]} in {target}"
        for name, link in re.findall(r"\[`([\w:]+)`\]\(([^)#:]+\.(?:rt|antt))\)", line):
            if not stands(name, [os.path.normpath(os.path.join(os.path.dirname(page), link))]):
                yield number, f"no {name} in {link}"
        for names, path in BESIDE.findall(line):
            files = candidates(path, crates or named)
            for name in re.findall(r"[\w:]+", names):
                last = name.split("::")[-1]
                if files and last not in FREE | CRATES and not stands(last, files):
                    yield number, f"no {name} in {path}"
    # A name and its file may stand on two lines.
    for found in BESIDE.finditer(re.sub(r"\n", " ", whole)):
        files = candidates(found[2], named)
        for name in re.findall(r"[\w:]+", found[1]):
            last = name.split("::")[-1]
            if files and last not in FREE | CRATES and not stands(last, candidates(found[2])):
                yield whole[: found.start()].count("\n") + 1, f"no {name} in {found[2]}"
    for found in re.finditer(r"`((?:\w+::)*[A-Za-z_]\w*)`", re.sub(r"```.*?```", lambda it: "\n" * it[0].count("\n"), whole, flags=re.S)):
        for name in found[1].split("::"):
            if name not in KNOWN and name not in FREE:
                yield whole[: found.start()].count("\n") + 1, f"no name {found[1]}"


def headings(page):
    """The headings of a page, as links name them."""
    text = re.sub(r"```.*?```", "", open(page).read(), flags=re.S)
    for heading in re.findall(r"^#+ (.*)$", text, flags=re.M):
        yield re.sub(r"[^\w -]", "", heading.strip().lower()).replace(" ", "-")


def word_faults(page):
    """Where a page does not name its reader, or says behind for after; code is not looked at."""
    lines = re.sub(r"```.*?```", lambda it: "\n" * it[0].count("\n"), open(page).read(), flags=re.S).split("\n")
    first = next((it for it in enumerate(lines[1:], 2) if it[1]), (1, ""))
    if page != "README.md" and not re.search(r"\bfor\b", first[1], flags=re.I):
        yield first[0], "the first line under the title names no reader"
    for number, line in enumerate(lines, 1):
        if re.search(r"\bbehind\b", re.sub(rf"`[^`]*`|{PLACES}", "", line), flags=re.I):
            yield number, "behind stands for after"


def glossary_faults(page):
    """The words of the glossary that have no name with its file, or are not in their order."""
    rows = [(number, line) for number, line in enumerate(open(page).read().split("\n"), 1) if line.startswith("| ")][1:]
    before = ""
    for number, line in rows:
        word = line[2:].split(" | ")[0]
        if not BESIDE.search(line):
            yield number, f"no name with its file for {word}"
        if before.lower() >= word.lower():
            yield number, f"{word} stands after {before}"
        before = word


def shared_names():
    """Each definition of a name with a capital that another crate has too, but for those that are listed."""
    found = collections.defaultdict(list)
    for file, text in SOURCES.items():
        if file.startswith("crates/") and (form := DEFINITIONS.get(file.split("/")[2])):
            for it in re.finditer(form, text, flags=re.M):
                found[it[1]].append((file, text[: it.start()].count("\n") + 1))
    for name, places in found.items():
        crates = sorted({file.split("/")[1] for file, _ in places})
        if len(crates) > 1 and name not in SHARED:
            yield from ((*place, f"{name} is defined in {' and '.join(crates)}") for place in places)


PAGES = [it for it in FILES if re.fullmatch(r"(?:README|CHANGELOG|CONTRIBUTING)\.md|docs/\w+/\w+\.md", it)]
GLOSSARY = "docs/proof/GLOSSARY.md"
told = sorted({(page, *fault) for page in PAGES for look in (faults, word_faults) for fault in look(page)})
told += [(GLOSSARY, *fault) for fault in glossary_faults(GLOSSARY)] + sorted(shared_names())
for page, number, fault in told:
    print(f"{page}:{number}: {fault}", flush=True)
# And whether the pages that scripts write are those that they would write.
others = [subprocess.run([script, "--check"]).returncode for script in ("bench/map", "bench/proved.py")]
sys.exit(bool(told or any(others)))
END
