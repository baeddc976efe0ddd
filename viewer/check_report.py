"""What a report says, read line by line by none of the page's code, and whether the page shows it."""
import json
import re

# The colour of each kind of entry, and of each outcome's bar.
COLOURS = {
    "SHOW": "#0072b2", "KEY": "#56b4e9", "CHECK": "#97a3b0", "APPLIED": "#97a3b0", "BEGIN": "#009e73", "SEND": "#009e73",
    "AGAIN": "#009e73", "COMMIT": "#009e73", "BACK": "#1d2733", "RESTART": "#e69f00", "END": "#1d2733", "TAKE": "#5b6b7c",
    "FILE": "#5b6b7c", "REPLY": "#5b6b7c", "FAIL": "#d55e00", "TAKEOVER": "#b65a92", "RAISE": "#5b6b7c",
}
BARS = {"COMMIT": "#009e73", "DROP": "#5b6b7c", "RESTART": "#e69f00", "LEFT": "#d55e00"}
SAYS = {"COMMIT": "unit committed", "DROP": "unit backed out", "RESTART": "attempt restarted", "LEFT": "unit left open"}
# Which entries give which block of the serial order. A unit may be left by the end of the log, whatever stands there.
GIVES = {"OUT": ("SHOW", "KEY"), "COMMIT": ("COMMIT", "REPLY"), "DROP": ("BACK",), "RESTART": ("RESTART",), "DONE": ("END",)}

# In the page: where an entry stands, by the name of its lane and its number, and what is painted and chosen there.
HELPERS = """
window.aid = {
  frame: () => new Promise(done => requestAnimationFrame(() => setTimeout(done))),
  settled: async () => {
    await aid.frame();
    await new Promise(done => setTimeout(done, SETTLE + 20));
    await aid.frame();
  },
  tiles: () => Object.fromEntries([...document.querySelectorAll('.tile')].map(tile => [tile.dataset.name, tile.querySelector('b').textContent])),
  label: (place, lane) => [...document.querySelectorAll('#names [data-lane]')].find(one => one.dataset.lane === lane && one.dataset.place === place),
  at: (place, lane, at, down) => {
    const name = aid.label(place, lane), box = get('scroller').getBoundingClientRect(), row = name.getBoundingClientRect();
    const high = down ?? (name.classList.contains('lane') ? 0.65 : 0.5) * row.height;
    return { x: box.left + (at - 0.5) * page.timeline.pixels - get('scroller').scrollLeft, y: row.top + high };
  },
  colour: ({ x, y }) => {
    const box = get('canvas').getBoundingClientRect(), [red, green, blue] = get('canvas').getContext('2d').getImageData(x - box.left, y - box.top, 1, 1).data;
    return '#' + [red, green, blue].map(part => part.toString(16).padStart(2, '0')).join('');
  },
  // The texts that are written on the canvas, with their places.
  written: () => {
    const pen = CanvasRenderingContext2D.prototype, write = pen.fillText, found = [];
    pen.fillText = function (text, x, y) { found.push([text, x]); write.call(this, text, x, y); };
    page.timeline.draw();
    pen.fillText = write;
    return found;
  },
  click: ({ x, y }) => get('scroller').dispatchEvent(new MouseEvent('click', { clientX: x, clientY: y, bubbles: true })),
  lines: async id => {
    const list = get(id), found = [];
    for (let top = 0; ; top += list.clientHeight) {
      list.scrollTop = top;
      await aid.frame();
      for (const line of list.querySelectorAll('.line')) found[line.dataset.place] = line;
      if (top + list.clientHeight >= list.scrollHeight) return found;
    }
  },
  texts: async id => (await aid.lines(id)).map(line => line.firstChild ? line.firstChild.textContent : ''),
};0"""


class Checks:
    """Counts what is as it should be, and prints what is not."""

    def __init__(self):
        self.about, self.count, self.failed = "", 0, 0

    def same(self, what, got, want):
        self.count += 1
        if got != want:
            self.failed += 1
            got, want = short(got, want), short(want, got)
            print(f"{self.about}: {what}: the page has {got}, and wanted is {want}")

    def holds(self, what, holds, told=""):
        self.count += 1
        if not holds:
            self.failed += 1
            print(f"{self.about}: {what} {told}")


def short(value, other):
    """A value for a message; of two lists only where they begin to differ."""
    if isinstance(value, list) and isinstance(other, list):
        place = next((i for i, (one, two) in enumerate(zip(value, other)) if one != two), min(len(value), len(other)))
        return f"{len(value)} items, and from {place} on {value[place:place + 3]!r}"
    return repr(value)


class Wanted:
    """What a report says."""

    def __init__(self, text, deck=""):
        found, name = {}, None
        for line in text.splitlines():
            if line in ("SERIAL", "SCREENS", "FILES", "LOG") and (name is None or line != "SERIAL"):
                name = line
                found[name] = []
            else:
                found[name].append(line)
        self.serial, self.last = found["SERIAL"], found["LOG"][-1]
        self.lines = [line for line in found["LOG"] if line[:1].isdigit()]
        self.entries = [line.split(" ", 1)[1] for line in self.lines]
        self.screens, self.files = screens_of(found["SCREENS"]), files_of(found["FILES"])
        self.before = deck_files(deck)
        self.shown = {}            # the entries that show each screen
        for at, entry in enumerate(self.entries, 1):
            if entry.startswith("SHOW "):
                self.shown.setdefault(entry[5:], []).append(at)

    def marked(self):
        """The failures, takeovers and endings that are no good ones."""
        return [line for line, entry in zip(self.lines, self.entries) if re.match(r"FAIL |TAKEOVER |END \S+ (?!STOPPED|NOENTRIES)", entry)]

    def places(self):
        """Each entry's kind of lane, lane and number."""
        return [[*lane(entry.split()), at] for at, entry in enumerate(self.entries, 1)]

    def tiles(self):
        blocks = lambda how: str(sum(line.endswith(f" {how}") for line in self.serial if line.startswith("UNIT ")))
        begins = lambda word: str(sum(entry.startswith(f"{word} ") for entry in self.entries))
        odd = sum(bool(re.match(r"DONE \S+ (?!STOPPED|NOENTRIES)", line)) for line in self.serial)
        return {
            "entries": str(len(self.entries)), "screens shown": str(len(self.screens)), "units committed": blocks("COMMIT"),
            "units backed out": blocks("DROP"), "attempts restarted": blocks("RESTART"), "units left open": blocks("LEFT"),
            "failures": begins("FAIL"), "takeovers": begins("TAKEOVER"), "ended otherwise": str(odd),
        }


def lane(words):
    if words[:2] == ["FAIL", "SERVER"]:
        return "process", " ".join(words[2:4])
    if words[:2] == ["FAIL", "TCP"]:
        return "pair", words[2]
    if words[0] in ("TAKE", "FILE", "REPLY"):
        return "process", " ".join(words[1:3])
    return ("pair" if words[0] in ("TAKEOVER", "RAISE") else "terminal"), words[1]


def screens_of(lines):
    screens = []
    for line in lines:
        if line.startswith("SCREEN "):
            screens.append((line.removeprefix("SCREEN "), [""] * 24))
        else:
            screens[-1][1][int(line[:2]) - 1] = line[3:]
    return screens


def files_of(lines):
    files = {}
    for line in lines:
        if line.startswith("FILE "):
            files[name := line.split()[1]] = []
        else:
            files[name].append(line[1:])
    return files


def deck_files(text):
    files, name = {}, None
    for line in text.splitlines():
        words = line.upper().split()
        if line.startswith("?"):
            name = words[1] if words[0] == "?FILE" else None
            if name:
                files[name] = []
            if words[0] == "?END":
                break
        elif name and line.strip():
            files[name].append(line)
    return {name: sorted(records) for name, records in files.items()}


def colour_of(entry):
    words = entry.split()
    return "#d55e00" if words[0] == "END" and words[2] not in ("STOPPED", "NOENTRIES") else COLOURS[words[0]]


def check_report(checks, browser, wanted):
    """Whether each part of the page says what the report says."""
    says = "Finished" if wanted.last == "FINISHED" else "Not finished"
    checks.same("verdict", browser.run("get('verdict').textContent"), f"{says} after {len(wanted.entries)} entries")
    checks.same("tiles", browser.run("aid.tiles()"), wanted.tiles())
    check_entries(checks, browser, wanted)
    check_bars(checks, browser, wanted)
    check_lists(checks, browser, wanted)
    check_screens(checks, browser, wanted)
    check_files(checks, browser, wanted)


def check_entries(checks, browser, wanted):
    """Each entry is painted in its lane and its column, and a click there chooses it."""
    browser.run("page.choose(0), page.timeline.showWhole(), aid.frame()")
    places = json.dumps(wanted.places())
    colours = browser.run(f"{places}.map(place => aid.colour(aid.at(...place)))")
    checks.same("colours of the entries", colours, [colour_of(entry) for entry in wanted.entries])
    told = browser.run(f"{places}.map(place => {{ aid.click(aid.at(...place)); return [get('said').textContent, get('meaning').textContent]; }})")
    checks.same("entries that are chosen by a click", [said for said, _ in told], wanted.lines)
    checks.holds("each entry is told in words", all(len(text) > 10 and "undefined" not in text for _, text in told), told)
    browser.run("page.choose(0), aid.frame()")


def check_bars(checks, browser, wanted):
    """One bar for each BEGIN; the outcomes of a unit are those of the serial order's blocks, in their order."""
    blocks = {}
    for line in wanted.serial:
        words = line.split()
        if words[0] == "UNIT":
            blocks.setdefault((words[1], words[2]), []).append(words[3])
    begins = [at for at, entry in enumerate(wanted.entries, 1) if entry.startswith("BEGIN ")]
    bars = []
    for at, told in zip(begins, browser.run(f"{begins}.map(at => page.teller.place(at))")):
        _, name, unit, _ = wanted.entries[at - 1].split()
        how = blocks[name, unit].pop(0)
        found = re.fullmatch(r"In unit (\d+) of (\S+), entries (\d+) to (\d+): (.*)\.", told)
        checks.same(f"the attempt that begins at {at}", found and found.group(1, 2, 3, 5), (unit, name, str(at), SAYS[how]))
        if found:
            bars.append((name, at, int(found[4]), how))
    checks.same("attempts that no BEGIN begins", {unit: rest for unit, rest in blocks.items() if rest}, {})
    edges = browser.run(f"""{json.dumps(bars)}.map(([name, first, last]) =>
        Array.from({{ length: last - first + 2 }}, (_, i) => aid.colour(aid.at('terminal', name, first + i, 3.5))))""")
    for bar, colours in zip(bars, edges):
        check_bar(checks, wanted, colours, *bar)
    check_units(checks, browser, wanted, bars)


def check_bar(checks, wanted, colours, terminal, first, last, how):
    """The edge of a bar is painted from the column of its first entry to that of its last one."""
    words = wanted.entries[last - 1].split()
    ends = {"COMMIT": ("COMMIT", "REPLY"), "DROP": ("BACK",), "RESTART": ("RESTART",), "LEFT": ("END", "FAIL")}[how]
    is_end = words[0] in ends and (terminal in words or words[0] == "FAIL")
    checks.holds(f"the bar from {first} to {last} ends with the unit", is_end or (how == "LEFT" and last == len(wanted.entries)))
    # Lines and arrows are painted over bars; an arrow swings to the right.
    lined = {at - first for at, entry in enumerate(wanted.entries, 1) if entry.startswith(("FAIL ", "TAKEOVER "))}
    lined |= {at - first + right for at, entry in enumerate(wanted.entries, 1) if entry.startswith("RESTART ") for right in range(5)}
    own = [colour for i, colour in enumerate(colours[:-1]) if i not in lined]
    checks.same(f"colours of the bar from {first} to {last}", own, [BARS[how]] * len(own))
    if last < len(wanted.entries) and not wanted.entries[last].startswith("BEGIN "):
        checks.holds(f"the bar from {first} ends at {last}", colours[-1] != BARS[how])


def check_units(checks, browser, wanted, bars):
    """The number of its unit is written at the beginning of each bar that has room for it."""
    written = browser.run("aid.written()")
    pixels = browser.run("page.timeline.pixels")
    for name, first, last, _ in bars:
        _, _, unit, restarts = wanted.entries[first - 1].split()
        texts = {unit, f"unit {unit}", f"unit {unit}, try {int(restarts) + 1}"}
        found = [text for text, x in written if abs(x - (first - 1) * pixels - 4) < 1]
        checks.holds(f"the bar of unit {unit} of {name} at {first} has its number", (last - first + 1) * pixels < 25 or texts & set(found), found)


def check_lists(checks, browser, wanted):
    checks.same("log", browser.run("aid.texts('log')"), wanted.lines)
    checks.same("serial order", browser.run("aid.texts('serial')"), wanted.serial)
    found = browser.run("[...page.report.serial.entry]")
    checks.same("order of the entries that gave the blocks", found, sorted(found))
    for line, at in zip(wanted.serial, found):
        words = line.split()
        how = words[3] if words[0] == "UNIT" else words[0]
        entry = wanted.entries[at - 1].split() if at else [""]
        if how == "LEFT":
            checks.holds(f"{line} has an entry", entry[0] in ("END", "FAIL") or at == len(wanted.entries), entry)
        else:
            checks.holds(f"{line} has an entry", entry[0] in GIVES[how] and words[1] in entry, entry)


def check_screens(checks, browser, wanted):
    """The list of screens, each on the glass, from each to its entry, and from each entry that shows it to the screen."""
    checks.same("list of screens", browser.run("aid.texts('screens').then(texts => texts.map(text => text.trim()))"), [name for name, _ in wanted.screens])
    glass = browser.run(f"Array.from({{ length: {len(wanted.screens)} }}, (_, i) => {{ page.side.choose(i); return get('glass').textContent; }})")
    checks.same("screens", [[row.rstrip() for row in text.split("\n")] for text in glass], [rows for _, rows in wanted.screens])
    entries = browser.run(f"""Array.from({{ length: {len(wanted.screens)} }}, (_, i) => {{
        page.side.choose(i);
        get('to-entry').click();
        return get('said').textContent;
    }})""")
    checks.same("from a screen to its entry", entries, [wanted.lines[wanted.shown[name][0] - 1] for name, _ in wanted.screens])
    shows = [at for at, entry in enumerate(wanted.entries, 1) if entry.startswith("SHOW ")]
    back = browser.run(f"{shows}.map(at => {{ page.choose(0); page.side.choose(0); page.choose(at); return page.report.screenName(page.side.shown); }})")
    checks.same("from an entry to its screen", back, [wanted.entries[at - 1][5:] for at in shows])


def check_files(checks, browser, wanted):
    for name, records in wanted.files.items():
        for half, want in (("before", wanted.before.get(name)), ("after", records)):
            there = browser.run(f"!!get('file-{name}-{half}')")
            checks.same(f"file {name} {half} is shown", there, want is not None)
            if there and want:
                got = browser.run(f"aid.lines('file-{name}-{half}').then(lines => lines.map(line => [line.textContent, line.dataset.sign]))")
                others = records if half == "before" else wanted.before.get(name)
                sign = lambda text: " " if others is None or text in others else "+" if half == "after" else "-"
                checks.same(f"file {name} {half}", got, [[text, sign(text)] for text in want])
