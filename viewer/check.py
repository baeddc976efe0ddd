#!/usr/bin/env python3
"""Shows runs in a headless browser, and fails where the page says another thing than the report, or cannot be used as it says.

    viewer/check.py [--screenshots FOLDER] [REPORT ..]

A report is a file with the text of one; the deck of the same name beside it, NAME.deck, is given to the page too. Without words
these are the stored ones, and then a made-up run of 64 terminals and one of 500,000 entries are shown besides. It installs
nothing: where no browser is found, or the one that is there does not run, it says so and ends with status 77. It prints what is
not as it should be, and last how many checks passed and failed.
"""
import pathlib
import re
import sys
import tempfile
import time

sys.dont_write_bytecode = True

import check_looking as looking
import check_use as use
import sample
from browser import Browser, NoBrowser
from check_report import HELPERS, Checks, Wanted, check_report

HERE = pathlib.Path(__file__).resolve().parent
SKIPPED = 77
MOST_LINES = 500
NETWORK = r"https?:|fetch\(|XMLHttpRequest|WebSocket|@import|sendBeacon"
LARGE, MANY, MANY_ENTRIES = 500_000, 64, 20_000
WIDE, HIGH, NARROW = 1400, 1000, 390
# What a picture and a step may cost. It is processor time that counts: by the clock other work of the machine holds them up.
PICTURE_SECONDS, STEP_SECONDS = 15, 5
# A takeover repeats the first entry of a terminal, and then the second is taken: the first KEY T1 1 gave the block.
REPEATED = ["SERIAL", "OUT T1", "OUT T1", "OUT T1", "DONE T1 STOPPED", "SCREENS", "SCREEN T1 0.0.1", "24|HELLO", "FILES", "LOG",
            "PATHWAY LOG 2", "1 RAISE TCP-1", "2 CHECK T1 COPY", "3 APPLIED T1", "4 KEY T1 1", "5 FAIL TCP TCP-1 PRIMARY 1",
            "6 TAKEOVER TCP-1", "7 RAISE TCP-1", "8 CHECK T1 COPY", "9 APPLIED T1", "10 KEY T1 1", "11 KEY T1 2",
            "12 SHOW T1 0.0.1", "13 END T1 STOPPED", "FINISHED"]
DRAWN = "/^(Finished|Not finished|No report)/.test(get('verdict').textContent)"


class Session:
    """The checks of one browser."""

    def __init__(self, browser, pictures):
        self.browser, self.pictures, self.checks, self.has_shown = browser, pictures, Checks(), False

    def show(self, report, deck=None, anew=True):
        """Gives the page, opened anew or as it is, a report and perhaps a deck, and keeps how many seconds it took to draw it."""
        self.checks.about = report.stem
        if anew:
            self.browser.open()
            self.browser.run(HELPERS)
        self.browser.run("get('verdict').textContent = ''")
        clock, used = time.monotonic(), self.browser.processor_seconds()
        self.browser.give_files("#file", [report] + ([deck] if deck else []))
        self.browser.until(DRAWN)
        self.has_shown = True
        self.clock, self.used = time.monotonic() - clock, self.browser.processor_seconds() - used
        if self.pictures:
            self.browser.picture((self.pictures / f"{report.stem}.png").resolve())

    def user(self, report, deck=None, anew=True):
        """A user before a page that shows a report."""
        self.show(report, deck, anew)
        return use.User(self.browser, self.checks, Wanted(report.read_text(), deck.read_text() if deck else ""))

    def compare(self, report, anew):
        """Whether the page says what a report says; it may have shown another one before."""
        deck = report.with_suffix(".deck")
        user = self.user(report, deck if deck.exists() else None, anew)
        check_report(self.checks, self.browser, user.wanted)
        use.check_jumps(user)
        use.check_tile(user)
        use.check_out(user)

    def compare_small(self, folder):
        """Small made-up runs, in which a takeover repeats screens and entries, as in none of the stored ones."""
        report = folder / "made up.report"
        report.write_text(sample.report(120, 2))
        self.compare(report, True)
        report.write_text("".join(f"{line}\n" for line in REPEATED))
        self.compare(report, True)
        self.checks.same("entries that gave the blocks", self.browser.run("[...page.report.serial.entry]"), [4, 11, 12, 13])

    def refuse(self, report, folder):
        """Texts that are no report: the page says in which line."""
        lines = report.read_text().splitlines()
        log = lines.index("LOG")
        entry = next(i for i in range(log, len(lines)) if lines[i].startswith("1 "))
        ill = lines[:entry] + ["1 NOTHING T1"] + lines[entry + 1:]
        for what, broken, at in (
            ("nothing", [], 1),
            ("another first line", ["HELLO", *lines[1:]], 1),
            ("an entry that is none", ill, entry + 1),
            ("a missing last line", lines[:-1], len(lines)),
            ("a line too many", [*lines, "MORE"], len(lines) + 1),
        ):
            path = folder / "ill.report"
            path.write_text("".join(f"{line}\n" for line in broken))
            self.show(path)
            verdict = self.browser.run("get('verdict').textContent")
            self.checks.same(f"{what}: where it is refused", re.findall(r"^No report: line (\d+):", verdict), [str(at)])
            self.checks.same(f"{what}: the picture is hidden", self.browser.run("get('picture').hidden"), True)

    def take(self, report):
        """A report may be pasted and dropped too, and its lines may end as on Windows."""
        self.checks.about = report.stem
        text = report.read_text()
        ways = {
            "pasted": f"get('text').value = {text!r}; get('draw').click()",
            "with CR": f"get('text').value = ''; input.take([new File([{text!r}.replaceAll('\\n', '\\r\\n')], 'report')])",
            "dropped": f"""(() => {{ const data = new DataTransfer(); data.items.add(new File([{text!r}], 'report'));
                document.body.dispatchEvent(new DragEvent('drop', {{ dataTransfer: data, bubbles: true, cancelable: true }})); }})()""",
        }
        for what, script in ways.items():
            self.browser.open()
            self.browser.run(f"{script}; 0")
            self.browser.until(DRAWN)
            self.checks.same(f"a report that is {what}", self.browser.run("page.report.log.count"), len(Wanted(text).entries))

    def features(self):
        """What a user does with a small run."""
        takeover = HERE.parent / "decks/takeover.out"
        user = self.user(takeover, takeover.with_suffix(".deck"))
        use.check_looks(user)
        use.check_zoom(user)
        use.check_keys(user)
        use.check_typed(user, {5: "F1 S-NUMBER=1 S-ITEM=BOLT S-QTY=30", 69: "SF16"})
        looking.check_search(user, {"S-QTY=30": [5], "SF16": [69]})
        user = self.user(takeover)
        use.check_typed(user, {5: "The next screen, T1 2.0.1, shows 24|ENTERED", 69: "no screen was shown after it"})
        self.looking()

    def looking(self):
        """What one looks for in a run in which units wait for each other."""
        orders = HERE / "reports/orders.report"
        user = self.user(orders, orders.with_suffix(".deck"))
        use.check_arrows(user)
        looking.check_side(user)
        looking.check_waits(user, {30: "STOCK", 35: "STOCK", 55: "STOCK"})
        looking.check_may_wait(user, "STOCK-SRV 2", 26, 30, "From 26 on the process STOCK-SRV 2 may have waited for it.", 30)
        looking.check_several(user, ["T1", "T3"])
        looking.check_nothing(user)
        looking.check_reach(user, ["TCP-1", "ORDER-SRV", "STOCK-SRV"], ("process", "STOCK-SRV 2"))
        looking.check_link(user, orders, 30)
        self.cut_off(orders)
        self.narrow(orders, 30)

    def cut_off(self, orders):
        """Where the log ends before an older unit does, who waits for it waits still."""
        lines = orders.read_text().splitlines()
        text = "".join(f"{line}\n" for line in [*lines[:next(i for i, line in enumerate(lines) if line.startswith("37 REPLY"))], "UNFINISHED"])
        self.browser.open()
        self.browser.run(f"input.draw({text!r}, '')")
        self.checks.same("a log that ends in a wait", self.browser.run("page.teller.waitEnd(page.teller.waitsAt(30)[0])"), "It still waits where the log ends.")

    def narrow(self, report, at):
        """The same page in a narrow window, as on a telephone."""
        self.browser.size(NARROW, 844)
        deck = report.with_suffix(".deck")
        looking.check_narrow(self.user(report, deck if deck.exists() else None), NARROW, at)
        if self.pictures:
            self.browser.picture((self.pictures / f"{report.stem} {NARROW}.png").resolve())
        self.browser.size(WIDE, HIGH)

    def many(self, folder):
        """A run of many terminals."""
        report = folder / f"{MANY} terminals.report"
        report.write_text(sample.report(MANY_ENTRIES, MANY))
        self.show(report)
        self.is_in_time(f"{MANY} terminals, {MANY_ENTRIES} entries")
        user = use.User(self.browser, self.checks, Wanted(report.read_text()))
        pairs = {f"TCP-{pair}": [f"T{number}" for number in range(pair, MANY + 1, sample.PAIRS)] for pair in range(1, sample.PAIRS + 1)}
        for check in (use.check_labels, use.check_zoom, use.check_tile, use.check_jumps, use.check_arrows):
            check(user)
        use.check_groups(user, pairs)
        use.check_filter(user, "T7", "3")
        looking.check_reach(user, [*pairs, "ORDER-SRV", "PRICE-SRV", "STOCK-SRV"], ("process", f"STOCK-SRV {sample.PROCESSES}"))
        looking.check_several(user, ["T7", "T64"])
        self.checks.same("tiles", self.browser.run("aid.tiles()"), user.wanted.tiles())
        order = self.browser.run("[...page.report.serial.entry]")
        self.checks.holds("each block has its entry, in order", 0 not in order and order == sorted(order))
        self.narrow(report, len(user.wanted.entries) // 2)

    def large(self, folder):
        """The longest log that there may be."""
        report = folder / f"{LARGE} entries.report"
        report.write_text(sample.report(LARGE, MANY))
        self.show(report)
        self.is_in_time(f"{MANY} terminals, {LARGE} entries")
        use.check_size(use.User(self.browser, self.checks, Wanted(report.read_text())), STEP_SECONDS)

    def is_in_time(self, what):
        print(f"viewer: {what}: {self.clock:.1f} s until the picture stands, {self.used:.1f} s of them of processors")
        self.checks.holds(f"the picture stands within {PICTURE_SECONDS} s", self.used < PICTURE_SECONDS, self.used)

    def sources(self):
        """The page needs no library and no network, and each of its files is short."""
        self.checks.about = "sources"
        for path in sorted(HERE.iterdir()):
            if path.suffix not in (".html", ".js", ".css", ".py", ""):
                continue
            if path.is_file():
                text = path.read_text()
                self.checks.holds(f"{path.name} is short", len(text.splitlines()) <= MOST_LINES)
                if path.suffix in (".html", ".js", ".css"):
                    self.checks.same(f"what {path.name} asks of a network", re.findall(NETWORK, text), [])


def stored_reports():
    """The reports beside the viewer, and of those of the sample decks each other one in which something fails or goes back."""
    paths = sorted((HERE / "reports").glob("*.report")) + sorted((HERE.parent / "decks").glob("*.out"))
    texts = {path: path.read_text() for path in reversed(paths)}
    first = {text: path for path, text in texts.items()}
    is_told = lambda text: text.startswith("SERIAL\n") and re.search(r"FAIL|LEFT|RESTART|SUSPENDED|UNFINISHED| FAULT ", text)
    return [path for path in paths if first[texts[path]] == path and (path.suffix == ".report" or is_told(texts[path]))]


def check(session, named):
    reports = named or stored_reports()
    session.sources()
    for report in reports:
        session.compare(report, report == reports[0])
    if named:
        return
    with tempfile.TemporaryDirectory() as name:
        folder = pathlib.Path(name)
        session.compare_small(folder)
        session.refuse(reports[0], folder)
        session.take(reports[0])
        session.features()
        session.many(folder)
        session.large(folder)


def main():
    words = sys.argv[1:]
    pictures = None
    if "--screenshots" in words:
        place = words.index("--screenshots")
        pictures = pathlib.Path(words[place + 1])
        pictures.mkdir(parents=True, exist_ok=True)
        del words[place:place + 2]
    session = None
    try:
        with Browser(WIDE, HIGH) as browser:
            session = Session(browser, pictures)
            check(session, [pathlib.Path(word).resolve() for word in words])
    except NoBrowser as error:
        print(f"viewer: the page was not shown: {error}")
        # A browser that has shown a report runs: it is the page that has held it up.
        return 1 if session and session.has_shown else SKIPPED
    print(f"{session.checks.count - session.checks.failed} passed, {session.checks.failed} failed")
    return 1 if session.checks.failed else 0


if __name__ == "__main__":
    sys.exit(main())
