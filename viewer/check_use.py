"""Whether the page can be used as it says: each feature by the keys, the wheel and the mouse of a user."""
import json
import re

from browser import CONTROL, SHIFT
from check_report import lane

RED, PURPLE, ARROW = "#d55e00", "#b65a92", "#8a5a00"
RULER = 12                 # a height inside the ruler


class User:
    """Leads a page, and reads what stands in it."""

    def __init__(self, browser, checks, wanted):
        self.browser, self.checks, self.wanted = browser, checks, wanted
        self.run, self.press = browser.run, browser.press

    def said(self):
        return self.run("get('said').textContent")

    def keys(self, *keys, modifiers=0):
        for key in keys:
            self.press(key, modifiers)

    def focus(self, name):
        self.run(f"get('{name}').focus()")

    def focused(self):
        return self.run("document.activeElement.id || document.activeElement.className || document.activeElement.tagName")

    def click_on(self, selector):
        """A press of the mouse in the middle of an element."""
        place = self.run(f"""(() => {{ const one = document.querySelector({json.dumps(selector)}); one.scrollIntoView({{ block: 'center' }});
            const box = one.getBoundingClientRect(); return [box.left + box.width / 2, box.top + box.height / 2]; }})()""")
        self.browser.click(*place)

    def in_view(self):
        """The first and the last entry in view, and the pixels of one."""
        text, pixels = self.run("aid.frame().then(() => [get('zoom').textContent, page.timeline.pixels])")
        return *map(int, re.match(r"(\d+) to (\d+) of (\d+)", text).groups()), pixels

    def stage(self):
        """The place of the timeline in the window, scrolled into it."""
        return self.run("""(() => {
            get('box').scrollIntoView();
            const box = get('scroller').getBoundingClientRect();
            return [box.left, box.top, box.width, box.height];
        })()""")

    def names(self):
        """The names of the rows from above, with what they are."""
        return self.run("""[...document.querySelectorAll('#names .name')].map(name =>
            [['head', 'idle', 'lane'].find(kind => name.classList.contains(kind)), name.firstChild.textContent.replace(/^[▾▸ ]+/, '')])""")

    def settled(self):
        """After a scroll idle lanes are folded when it has come to rest."""
        self.run("aid.settled()")


def check_labels(user):
    """The names stay where they are when one scrolls and zooms, and beside their lanes."""
    user.focus("scroller")
    user.keys("1")
    place = "(() => { const box = document.querySelector('#names .name').getBoundingClientRect(); return [box.left, box.width]; })()"
    before = user.run(place)
    user.run("get('scroller').scrollLeft = 4000, aid.frame()")
    user.settled()
    user.checks.holds("one scrolls to the right", user.in_view()[0] > 200, user.in_view())
    user.checks.same("place of the names after a scroll", user.run(place), before)
    user.keys("0")
    user.checks.same("place of the names after a zoom", user.run(place), before)
    box = user.run("(() => { const box = document.querySelector('#names .name').getBoundingClientRect(); return [box.left + 20, box.top + 8]; })()")
    user.checks.holds("nothing covers a name", user.run(f"!!document.elementFromPoint({box[0]}, {box[1]}).closest('.name')"))
    user.run("get('scroller').scrollTop = 150, aid.frame()")
    user.settled()
    moved = user.run("get('names').firstElementChild.getBoundingClientRect().top - get('canvas').getBoundingClientRect().top")
    user.checks.same("names scroll down with their lanes", moved, 24 - user.run("get('scroller').scrollTop"))
    user.checks.holds("no name covers the corner", user.run(f"!document.elementFromPoint({box[0]}, {box[1] - 20}).closest('.name')"))
    user.run("get('scroller').scrollTop = 0, aid.frame()")


def check_zoom(user):
    """From the whole run to 16 pixels an entry, by buttons, keys and wheel."""
    checks, count = user.checks, len(user.wanted.entries)
    left, top, wide, high = user.stage()
    user.click_on("#zoom-whole")
    checks.same("the whole run is in view", user.in_view()[:3], (1, count, count))
    least = user.in_view()[3]
    user.click_on("#zoom-near")
    checks.same("the nearest zoom", user.in_view()[3], min(16, max(least, 16)))
    user.click_on("#zoom-out")
    checks.same("a step out", user.in_view()[3], max(least, 8))
    user.click_on("#zoom-in")
    checks.same("a step in", user.in_view()[3], 16)
    user.focus("scroller")
    for key, wanted in (("0", least), ("1", 16), ("-", max(least, 8)), ("+", 16)):
        user.keys(key)
        checks.same(f"zoom after the key {key}", user.in_view()[3], wanted)
    user.keys("0")
    left, top, wide, high = user.stage()
    under = lambda x: user.run(f"({x} - {left} + get('scroller').scrollLeft) / page.timeline.pixels")
    for what, y, modifiers in (("over the ruler", top + RULER, 0), ("with Ctrl", top + high / 2, CONTROL)):
        x, pixels = left + wide * 0.75, user.in_view()[3]
        before = under(x)
        user.browser.wheel(x, y, -200, modifiers)
        checks.holds(f"the wheel zooms {what}", abs(user.in_view()[3] / pixels - 2) < 0.01 or user.in_view()[3] == 16, (pixels, user.in_view()))
        checks.holds(f"the wheel {what} keeps the entry under it", abs(under(x) - before) * user.in_view()[3] < 3, (before, under(x)))
    pixels = user.in_view()[3]
    user.browser.wheel(left + 50, top + high / 2, 60)
    checks.same("the wheel alone does not zoom", user.in_view()[3], pixels)
    user.run("get('scroller').scrollTop = 0")
    user.keys("0")
    user.settled()


def check_jumps(user):
    """A button for each failure, takeover and odd ending; lines of failures and takeovers through all lanes."""
    checks, marked = user.checks, user.wanted.marked()
    checks.same("buttons", user.run("[...document.querySelectorAll('#jumps button')].map(button => button.textContent)"), marked)
    for line in marked:
        check_jump(user, int(line.split()[0]), line)
    user.focus("scroller")
    user.keys("Home")
    for line in marked[:4]:
        user.keys("n")
        checks.same("the key n", user.said(), line)
    if len(marked) > 1:
        user.keys("p")
        checks.same("the key p", user.said(), marked[min(4, len(marked)) - 2])
        user.run("document.querySelector('#jumps button').focus()")
        user.keys("ArrowRight", "Enter")
        checks.same("arrow keys and Enter in the row of buttons", user.said(), marked[1])


def check_jump(user, at, line):
    """A button leads to its entry. A failure's line is drawn at each lane in view, and a takeover's dashes at half of its length."""
    said, zoom, pixels, colours = user.run(f"""(async () => {{
        document.querySelector('#jumps button[data-at="{at}"]').click();
        await aid.frame();
        const told = [get('said').textContent, get('zoom').textContent, page.timeline.pixels];
        page.choose(0);
        await aid.frame();
        const box = get('canvas').getBoundingClientRect(), colours = [];
        const x = box.left + 0.25 + Math.floor(({at} - 0.5) * page.timeline.pixels - get('scroller').scrollLeft);
        for (const name of document.querySelectorAll('#names .name')) {{
            const row = name.getBoundingClientRect();
            for (const y of [row.bottom - 2, row.top + 0.5]) if (y > box.top + 26 && y < box.bottom - 1) colours.push(aid.colour({{ x, y }}));
        }}
        return [...told, colours];
    }})()""")
    first, last = map(int, re.match(r"(\d+) to (\d+)", zoom).groups())
    user.checks.holds(f"the button of {line} leads to it", said == line and first <= at <= last and pixels > 4, (said, zoom))
    if " END " not in line:
        share = colours.count(PURPLE if "TAKEOVER" in line else RED) / max(1, len(colours))
        user.checks.holds(f"the line at {at} goes through all lanes", share > (0.35 if "TAKEOVER" in line else 0.95), (share, colours))


def check_groups(user, pairs):
    """Lanes stand by pair and by class, close and open, and idle ones are folded. `pairs` has the terminals of each pair."""
    checks = user.checks
    user.focus("scroller")
    user.keys("0")
    user.settled()
    names = user.names()
    for pair, terminals in pairs.items():
        place = names.index(["head", pair])
        checks.same(f"lanes of {pair}", names[place + 1:place + 1 + len(terminals)], [["lane", name] for name in terminals])
    first = next(iter(pairs))
    user.run("document.querySelector('#names button.head').click(), aid.frame()")
    closed = user.names()
    checks.same("lanes after the closing of a pair", closed, [row for row in names if row[1] not in pairs[first]])
    checks.same("the closed pair says so", user.run("document.activeElement.getAttribute('aria-expanded')"), "false")
    user.keys("Enter")
    checks.same("lanes after the opening by Enter", user.names(), names)
    last = len(user.wanted.entries)
    user.run(f"page.goTo({last})")
    user.settled()
    count = sum(len(terminals) for terminals in pairs.values())
    busy = user.run("page.timeline.rows.list.filter(row => row.kind === 'lane').length")
    checks.holds("idle lanes are folded", any(kind == "idle" for kind, _ in user.names()) and busy < count / 2, busy)
    user.click_on("#fold")
    user.settled()
    checks.same("no lane is folded where that is not wanted", [name for kind, name in user.names() if kind == "idle"], [])
    user.click_on("#fold")
    user.keys("0")


def check_filter(user, terminal, unit):
    """The filter by a terminal, and by a unit of it."""
    checks, wanted = user.checks, user.wanted
    user.focus("scroller")
    user.keys("/")
    checks.same("the key / leads to the filter", user.focused(), "filter")
    user.keys(*terminal.lower())
    user.settled()
    lanes = [name for kind, name in user.names() if kind == "lane" and re.match(r"T\d", name)]
    checks.same("terminals after the filter", lanes, [terminal])
    blocks = [line for line in wanted.serial if line.split()[1] == terminal]
    checks.same("serial order after the filter", user.run("page.serial.count"), len(blocks))
    checks.same("screens after the filter", user.run("page.side.list.count"), sum(name.split()[0] == terminal for name, _ in wanted.screens))
    own = user.run("Array.from(page.log.items, item => page.report.entryLine(item + 1))")
    named = [line for line, entry in zip(wanted.lines, wanted.entries) if terminal in entry.split() and not re.match("RESTART|END", entry)]
    missing = sorted(set(named) - set(own))
    checks.same("entries of the terminal that the filter drops", missing, [])
    others = [line for line in own if re.search(r" T\d+\b", line) and terminal not in line.split()]
    checks.same("entries of others that the filter keeps", others, [])
    user.keys(" ", *unit)
    user.settled()
    units = user.run("Array.from(page.log.items, item => page.report.entryLine(item + 1))")
    begins = [line for line in wanted.lines if re.match(rf"\d+ BEGIN {terminal} {unit} ", line)]
    checks.same("beginnings of the unit after the filter", [line for line in units if " BEGIN " in line], begins)
    first, last, _, _ = user.in_view()
    checks.holds("the unit is in view", first <= int(units[0].split()[0]) and int(units[-1].split()[0]) <= last, (first, last))
    user.keys("9")
    checks.holds("a unit that is not there keeps nothing", user.run("page.log.count") == 0)
    user.keys(*" X")
    checks.holds("a filter of no terminal is told", "no terminal" in user.run("get('filter-fault').textContent"))
    user.keys("Escape")
    checks.same("Esc gives all again", user.run("[page.log.count, page.serial.count, page.side.list.count, get('filter').value]"),
                [len(wanted.entries), len(wanted.serial), len(wanted.screens), ""])
    user.run(f"aid.label('terminal', '{terminal}').click()")
    checks.same("the name of a terminal filters by it", user.run("get('filter').value"), terminal)
    user.run("page.filterBy('')")
    user.settled()


def check_arrows(user):
    """From a restart an arrow goes to its older unit, and a button and Enter lead to where that begins."""
    checks, wanted = user.checks, user.wanted
    found = [(at, entry.split()) for at, entry in enumerate(wanted.entries, 1) if re.match(r"RESTART \S+ \d+ OLDER", entry)]
    checks.holds("there are restarts for an older unit", bool(found))
    user.focus("scroller")
    for at, (_, name, _, _, older, unit) in found[:5]:
        near = user.run(f"""(async () => {{
            page.goTo({at});
            page.choose(0);
            get('scroller').scrollTop = aid.label('terminal', '{older}').offsetTop - 99;
            await aid.frame();
            const {{ x, y }} = aid.at('terminal', '{older}', {at}), high = aid.label('terminal', '{older}').getBoundingClientRect().height, colours = [];
            for (let right = 0; right < 9; right += 1) {{
                for (let down = -8; down <= 8; down += 1) colours.push(aid.colour({{ x: x + right, y: y - 0.15 * high + down }}));
            }}
            return colours;
        }})()""")
        checks.holds(f"the arrow of {wanted.lines[at - 1]} ends at its older unit", near.count(ARROW) >= 8, near.count(ARROW))
        ways = user.run(f"page.choose({at}), get('ways').textContent")
        begin = max(i for i, entry in enumerate(wanted.entries[:at], 1) if entry.startswith(f"BEGIN {older} {unit} "))
        checks.holds("its button", f"the older unit {unit} of {older} ({begin})" in ways, ways)
        user.keys("Enter")
        checks.same("Enter at a restart", user.said(), wanted.lines[begin - 1])


def check_typed(user, typed):
    """What was typed at the KEY entries: the line of the deck, or else what the next screen shows of it."""
    for at, says in typed.items():
        user.run(f"page.choose({at})")
        found = user.run("get('typed').textContent")
        user.checks.holds(f"what was typed at {at}", says in found, found)


def check_out(user):
    """OUT lines are hidden on request."""
    user.click_on("#hide-out")
    user.checks.same("serial order without OUT", user.run("aid.texts('serial')"), [line for line in user.wanted.serial if not line.startswith("OUT ")])
    user.click_on("#hide-out")
    user.checks.same("serial order with OUT", user.run("page.serial.count"), len(user.wanted.serial))


def check_tile(user):
    """The tile of terminals that ended otherwise leads to the first of them."""
    odd = [line for line in user.wanted.marked() if " END " in line]
    alarm = user.run("!!document.querySelector('.tile.alarm')")
    user.checks.same("the tile stands out", alarm, bool(odd))
    if odd:
        user.click_on(".tile.alarm")
        user.checks.same("the tile leads to the first", user.said(), odd[0])


def check_keys(user):
    """The keys of the timeline and of the lists, and Tab to every part."""
    checks, wanted = user.checks, user.wanted
    lines, count = wanted.lines, len(wanted.lines)
    user.run("page.choose(0), document.querySelector('#give summary').focus()")
    path = []
    for _ in range(36):
        user.keys("Tab")
        path.append(user.focused())
    parts = ["zoom-out", "zoom-in", "zoom-whole", "zoom-near", "search", "filter", "fold", "name head", "name lane", "scroller", "to-entry",
             "screens", "log", "hide-out", "serial"]
    places = [path.index(part) if part in path else -1 for part in parts]
    checks.holds("Tab leads to each part in order", -1 not in places and places == sorted(places), dict(zip(parts, places)))
    user.focus("scroller")
    for keys, modifiers, at in ((["Home"], 0, 1), (["ArrowRight", "ArrowRight"], 0, 3), (["ArrowLeft"], 0, 2), (["End"], 0, count), (["ArrowRight"], 0, count)):
        user.keys(*keys, modifiers=modifiers)
        checks.same(f"the keys {keys}", user.said(), lines[at - 1])
    places = wanted.places()
    last = places[-1][:2]
    same_lane = [at for *where, at in places if where == last]
    user.press("ArrowLeft", SHIFT)
    checks.same("Shift with an arrow stays in the lane", user.said(), lines[same_lane[-2] - 1])
    user.keys("ArrowUp")
    checks.holds("the arrow up goes to another lane", places[int(user.said().split()[0]) - 1][:2] != last)
    show = wanted.shown[wanted.screens[0][0]][0]
    user.run(f"page.choose({show})")
    user.keys("Enter")
    checks.same("Enter at a SHOW leads to its screen", user.focused(), "screens")
    user.keys("End", "Enter")
    last_shown = wanted.shown[wanted.screens[-1][0]][0]
    checks.same("Enter in the list of screens leads to the entry", (user.focused(), user.said()), ("scroller", lines[last_shown - 1]))
    user.focus("log")
    user.keys("Home", "ArrowDown", "ArrowDown")
    checks.same("arrow keys in the log", user.said(), lines[2])
    checks.same("the log tells its active line", user.run("get(get('log').getAttribute('aria-activedescendant')).textContent"), lines[2])
    user.keys("End")
    checks.same("End in the log", user.said(), lines[-1])
    user.focus("serial")
    user.keys("Home")
    first = user.said().split()
    checks.same("Home in the serial order", (first[1] in ("SHOW", "KEY", "COMMIT", "REPLY", "BACK", "RESTART", "END", "FAIL")), True)


def check_looks(user):
    """No two looks of entries have one shape, and no two outcomes one pattern; and their colours differ for the colour-blind."""
    looks = user.run("LOOKS.map(look => ({ name: look.name, colour: look.colour, shape: look.shape }))")
    outcomes = user.run("[...OUTCOMES, ...WAITS].map(outcome => ({ name: outcome.name, colour: outcome.colour, shape: outcome.pattern }))")
    for what, items in (("looks", looks), ("outcomes", outcomes)):
        user.checks.same(f"shapes of the {what}", len({item["shape"] for item in items}), len(items))
        for i, one in enumerate(items):
            for other in items[:i]:
                if one["colour"] != other["colour"]:
                    least = min(distance(seen(one["colour"], eye), seen(other["colour"], eye)) for eye in EYES)
                    user.checks.holds(f"{one['name']} and {other['name']} differ for each eye", least >= 8, round(least, 1))
    legend = user.run("[...document.querySelectorAll('#legend span')].map(span => !!span.querySelector('canvas') && span.textContent.length > 5)")
    user.checks.same("the legend has each look and outcome", legend, [True] * (len(looks) + len(outcomes)))


# What the eye sees of linear red, green and blue: all, without the red cones, without the green ones (Vienot, Brettel, Mollon).
EYES = {
    "all": ((1, 0, 0), (0, 1, 0), (0, 0, 1)),
    "protan": ((0.11238, 0.88762, 0), (0.11238, 0.88762, 0), (0.00401, -0.00401, 1)),
    "deutan": ((0.29275, 0.70725, 0), (0.29275, 0.70725, 0), (-0.02234, 0.02234, 1)),
}


def seen(colour, eye):
    """A colour as an eye sees it, in the coordinates of CIELAB."""
    linear = [((part / 255 + 0.055) / 1.055) ** 2.4 if part > 10 else part / 3295 for part in bytes.fromhex(colour[1:])]
    red, green, blue = (sum(weight * part for weight, part in zip(row, linear)) for row in EYES[eye])
    x, y, z = 0.4124 * red + 0.3576 * green + 0.1805 * blue, 0.2126 * red + 0.7152 * green + 0.0722 * blue, 0.0193 * red + 0.1192 * green + 0.9505 * blue
    fx, fy, fz = (max(part, 0) ** (1 / 3) if part > 0.008856 else 7.787 * part + 16 / 116 for part in (x / 0.9505, y, z / 1.089))
    return 116 * fy - 16, 500 * (fx - fy), 200 * (fy - fz)


def distance(one, other):
    return sum((a - b) ** 2 for a, b in zip(one, other)) ** 0.5


def check_size(user, seconds):
    """Of a large report only what is in view is in the page, and a step takes the processor a few seconds at most."""
    checks, wanted = user.checks, user.wanted
    checks.holds("lines in the page are few", user.run("document.querySelectorAll('.line').length") < 300)
    canvas = user.run("[get('canvas').width, get('canvas').height, get('scroller').clientWidth, get('scroller').clientHeight]")
    checks.same("the canvas is as large as the view", canvas[:2], canvas[2:])
    user.focus("scroller")
    for key in ("+", "1", "0", "End", "Home", "n"):
        start = user.browser.processor_seconds()
        user.keys(key)
        user.run("aid.frame()")
        took = user.browser.processor_seconds() - start
        checks.holds(f"the key {key} is followed within {seconds} s", took < seconds, took)
    user.keys("End")
    checks.same("the last entry", user.said(), wanted.lines[-1])
    user.keys("1")
    checks.same("it is in view", user.in_view()[1], len(wanted.entries))
    place, name, at = *lane(wanted.entries[-1].split()), len(wanted.entries)
    user.settled()
    checks.same("it is painted", user.run(f"page.choose(0), aid.frame().then(() => aid.colour(aid.at('{place}', '{name}', {at})))"), "#1d2733")
    user.focus("log")
    user.keys("End")
    checks.same("the end of the log list", user.run("[...document.querySelectorAll('#log .line')].pop().textContent"), wanted.lines[-1])
