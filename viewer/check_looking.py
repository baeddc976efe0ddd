"""Whether one finds what one looks for: the search, several terminals, screens, waits, the minimap, links and narrow windows."""
import json
import re

from check_report import lane

BROWN, VIOLET = "#8a5a00", "#7a3f9d"
SOON = 500                 # milliseconds after which the address tells the chosen entry


def words_of(entry):
    return re.findall(r"[A-Z0-9-]+(?:\.\d+\.\d+)?", entry)


def found(user):
    return user.run("[...page.search.found]")


def seek(user, text):
    """What is found where all of a text but its last letter was put into the box, and the last one is typed."""
    user.run(f"get('search').value = {json.dumps(text[:-1])}")
    user.focus("search")
    user.keys("End", text[-1])
    return found(user)


def check_search(user, typed):
    """A name, FAIL, an entry's number, a text on a screen, one that was typed, and what is nowhere. `typed` has KEY entries by a text."""
    checks, wanted = user.checks, user.wanted
    user.run("page.choose(0)")
    user.focus("scroller")
    user.keys("f")
    checks.same("the key f leads to the search", user.focused(), "search")
    for word in ("T1", "FAIL", "TCP-1", "RESTART"):
        want = [at for at, entry in enumerate(wanted.entries, 1) if word in words_of(entry)]
        checks.same(f"entries with {word}", seek(user, word.lower()), want or found(user))
        if want:
            user.keys("Enter")
            checks.same(f"Enter goes to the first {word}", user.said(), wanted.lines[want[0] - 1])
            user.keys("Enter")
            checks.same(f"Enter goes to the next {word}", user.said(), wanted.lines[want[1 % len(want)] - 1])
            checks.same("how many were found", user.run("get('search-count').textContent"), f"{1 + 1 % len(want)} of {len(want)}")
            user.keys("Enter", modifiers=8)
            checks.same(f"Shift and Enter go back to the first {word}", user.said(), wanted.lines[want[0] - 1])
            marked = user.run("[...document.querySelectorAll('#log .line.found')].map(line => Number(line.textContent.split(' ')[0]))")
            checks.holds("the log marks what was found", bool(marked) and set(marked) <= set(want), marked)
            user.run("page.choose(0)")
    number = len(wanted.entries) // 2
    checks.same("an entry's number", seek(user, str(number)), [number])
    user.keys("Enter")
    checks.same("Enter goes to that entry", user.said(), wanted.lines[number - 1])
    for text in {(rows[23] or next(row for row in rows if row.strip())).strip() for _, rows in wanted.screens}:
        want = sorted(at for other, others in wanted.screens if any(text in row for row in others) for at in wanted.shown.get(other, []))
        checks.same(f"entries that show {text}", seek(user, f'"{text.lower()}"'), want)
    for text, want in typed.items():
        checks.same(f"entries at which {text} was typed", seek(user, f'"{text}"'), want)
    checks.same("what is nowhere", seek(user, "QQQ"), [])
    checks.holds("it says that it is nowhere", "QQQ” is nowhere" in user.run("get('search-count').textContent"))
    checks.same("then there is no next one", user.run("[get('search-next').disabled, get('search-last').disabled]"), [True, True])
    user.keys("Escape")
    checks.same("Esc ends the search", user.run("[get('search').value, get('search-count').textContent, page.timeline.found.length]"), ["", "", 0])
    checks.same("and leads back", user.focused(), "scroller")


def terminal_of(wanted):
    """The terminal of each entry that names one, or whose process took the request of one last."""
    served, terminals = {}, []
    for entry in wanted.entries:
        place, name = lane(entry.split())
        if entry.startswith("TAKE "):
            served[name] = entry.split()[3]
        terminals.append(name if place == "terminal" else served.get(name) if entry.startswith(("TAKE", "REPLY")) else None)
    return terminals


def check_side(user):
    """Beside the timeline stands the screen that the terminal of the chosen entry shows then."""
    checks, wanted, shown, screens = user.checks, user.wanted, {}, dict(user.wanted.screens)
    told = user.run(f"Array.from({{ length: {len(wanted.entries)} }}, (_, i) => (page.choose(i + 1), [get('glass-name').textContent, get('glass').textContent]))")
    for at, (entry, terminal, (name, glass)) in enumerate(zip(wanted.entries, terminal_of(wanted), told), 1):
        if entry.startswith("SHOW "):
            shown[entry.split()[1]] = entry[5:]
        if terminal is None:
            continue
        want = shown.get(terminal, f"{terminal} has shown no screen yet")
        rows = [row.rstrip() for row in glass.split("\n")]
        checks.same(f"the screen at {wanted.lines[at - 1]}", (name, rows), (want, screens[want] if want in screens else [""]))
    boxes = user.run("['box', 'side', 'glass'].map(name => { const { left, top, right, bottom } = get(name).getBoundingClientRect(); return [left, top, right, bottom]; })")
    checks.holds("the screen is beside the timeline", boxes[1][0] >= boxes[0][2] and boxes[2][1] < boxes[0][3], boxes)
    checks.holds("a whole row of it is in view", user.run("get('glass').scrollWidth <= get('glass').clientWidth"))


def unit_end(wanted, at, terminal, unit):
    """Where a unit ends, which is open at an entry."""
    is_one_send = f"UNIT {terminal} {unit} COMMIT" in wanted.serial and f"COMMIT {terminal} {unit}" not in wanted.entries
    for number, entry in enumerate(wanted.entries[at:], at + 1):
        if entry in (f"COMMIT {terminal} {unit}", f"BACK {terminal} {unit}") or entry.startswith(f"END {terminal} "):
            return number
        if is_one_send and re.fullmatch(rf"REPLY \S+ \d+ {terminal} OK", entry):
            return number
    return len(wanted.entries)


def check_waits(user, files):
    """Each restart for an older unit is followed by a wait to its end. `files` has those on which the locks are, by entries."""
    checks, wanted = user.checks, user.wanted
    user.run("page.choose(0), page.timeline.showWhole(), aid.frame()")
    restarts = [(at, entry.split()) for at, entry in enumerate(wanted.entries, 1) if re.match(r"RESTART \S+ \d+ OLDER", entry)]
    checks.holds("there are waits", bool(restarts))
    for at, (_, name, _, _, older, unit) in restarts:
        end = unit_end(wanted, at, older, unit)
        told = user.run(f"page.teller.wait({at})")
        checks.holds(f"the wait of {wanted.lines[at - 1]} is told", f"It waits until that unit has ended, at {end}." in told, told)
        if at in files:
            checks.holds(f"its file is {files[at]}", f"The lock is on {files[at]}." in told, told)
        colours = user.run(f"Array.from({{ length: {end - at} }}, (_, i) => aid.colour(aid.at('terminal', '{name}', {at + 1} + i, 3.5)))")
        checks.holds(f"its bar goes to {end}", colours.count(BROWN) >= len(colours) * 0.8, colours)
        chosen = user.run(f"""(() => {{ page.choose(0); aid.click(aid.at('terminal', '{name}', {(at + end) // 2 + 1}, 3.5)); return page.chosen; }})()""")
        near = [one for place, lane_name, one in wanted.places() if (place, lane_name) == ("terminal", name) and abs(one - (at + end) // 2 - 1) < 3]
        checks.holds("a click on the bar chooses the restart", chosen == at or chosen in near, chosen)
    user.run("page.choose(0)")


def check_may_wait(user, lane_name, first, last, told, at):
    """A process may have waited: its bar, and what is told of it at an entry."""
    colours = user.run(f"page.timeline.showWhole(), Array.from({{ length: {last - first} }}, (_, i) => aid.colour(aid.at('process', '{lane_name}', {first + 1} + i, 3.5)))")
    user.checks.holds(f"the bar of {lane_name}", colours.count(VIOLET) >= len(colours) * 0.6, colours)
    said = user.run(f"page.teller.wait({at})")
    user.checks.holds(f"what is told at {at}", told in said, said)


def check_several(user, terminals):
    """Several terminals at once: by the filter and by ticks; and their screens."""
    checks, wanted = user.checks, user.wanted
    one, two = terminals[:2]
    user.run(f"page.filterBy('{one}, {two}')")
    user.settled()
    lanes = [name for kind, name in user.names() if kind == "lane" and re.fullmatch(r"T\d+", name)]
    checks.same("lanes of two terminals", set(lanes), {one, two})
    ticked = user.run("[...document.querySelectorAll('#chooser input:checked')].map(input => input.value)")
    checks.same("they are ticked", set(ticked), {one, two})
    last = {}
    for entry in wanted.entries:
        if entry.startswith("SHOW "):
            last[entry.split()[1]] = entry[5:]
    user.run("page.choose(0)")
    panes = user.run("Object.fromEntries([...document.querySelectorAll('.pane')].map(pane => [pane.dataset.terminal, pane.querySelector('pre')?.textContent]))")
    screens = dict(wanted.screens)
    rows = lambda name: "\n".join(f"{i:02}|{row}" for i, row in enumerate(screens[last[name]], 1) if row) or "(blank)"
    checks.same("their screens at the end", panes, {name: rows(name) for name in (one, two)})
    user.run("document.querySelector('.several').open = true")
    user.click_on(f"#chooser input[value='{two}']")
    checks.same("a tick that goes", user.run("get('filter').value"), one)
    checks.holds("one terminal has the screen of the chosen entry alone", user.run("get('others').hidden"))
    user.click_on(f"#chooser input[value='{two}']")
    checks.same("a tick that comes", sorted(user.run("get('filter').value").split(", ")), sorted([one, two]))
    user.run("page.filterBy(''), document.querySelector('.several').open = false")
    user.settled()


def check_nothing(user):
    """A filter that finds nothing says so, at the filter and in each list."""
    checks = user.checks
    user.run("page.filterBy('T1 9999')")
    checks.same("a unit that is not there", user.run("get('filter-fault').textContent"), "T1 has no unit 9999: nothing is left")
    empty = user.run("['log', 'serial', 'screens'].map(name => get(name).textContent.trim() !== '' && get(name).querySelectorAll('.line').length === 0)")
    checks.same("the lists say that nothing is left", empty, [True] * 3)
    user.run("page.filterBy('T1 9999, T2')")
    checks.same("one part of two is not there", user.run("get('filter-fault').textContent"), "T1 has no unit 9999")
    user.run("page.filterBy('NOBODY')")
    checks.holds("a name that is not there", "NOBODY" in user.run("get('filter-fault').textContent"))
    user.run("page.filterBy('')")
    checks.same("without a filter nothing is told", user.run("get('filter-fault').textContent"), "")


def is_in_box(user, place, name):
    return user.run(f"""(() => {{ const box = get('scroller').getBoundingClientRect(), row = aid.label('{place}', '{name}').getBoundingClientRect();
        return row.top >= box.top && row.bottom <= box.bottom + 1; }})()""")


def check_reach(user, groups, deepest):
    """The lanes of each pair and class are reached by a button, by the keys and by the minimap. `deepest` is the last lane."""
    checks = user.checks
    user.run("page.timeline.setFolding(false), page.timeline.showWhole(), aid.settled()")
    checks.same("buttons of pairs and classes", user.run("[...document.querySelectorAll('#groups button')].map(button => button.textContent)"), groups)
    for i, name in enumerate(groups):
        user.run(f"get('scroller').scrollTop = 0, document.querySelectorAll('#groups button')[{i}].click(), aid.frame()")
        top = user.run(f"""(() => {{ const head = [...document.querySelectorAll('#names .head')].find(one => one.firstChild.textContent.replace(/^[▾▸ ]+/, '') === '{name}');
            return [head.getBoundingClientRect().top - get('scroller').getBoundingClientRect().top, get('scroller').clientHeight]; }})()""")
        checks.holds(f"the lanes of {name} are in view", 0 <= top[0] < top[1] - 20, top)
    user.run("get('scroller').scrollTop = 0, page.choose(0)")
    user.focus("scroller")
    user.keys("Home", *["]"] * (len(groups) - 1))
    group = user.run("page.timeline.rows.of(page.report.log.lane[page.chosen - 1]).group.name")
    checks.same("the key ] comes to the last class", group, groups[-1])
    user.keys("[")
    group = user.run("page.timeline.rows.of(page.report.log.lane[page.chosen - 1]).group.name")
    checks.same("the key [ goes back", group, groups[-2])
    check_minimap(user, deepest)
    user.run("page.choose(0), page.timeline.setFolding(get('fold').checked)")
    user.keys("0")
    user.settled()


def check_minimap(user, deepest):
    """A press on the minimap brings its place into the view, in both directions."""
    checks, count = user.checks, len(user.wanted.entries)
    user.run("page.choose(0), page.timeline.zoom(WIDEST), get('scroller').scrollLeft = 0, get('scroller').scrollTop = 0")
    left, top, wide, high = user.run("""(() => { get('minimap').scrollIntoView({ block: 'center' });
        const box = get('minimap').getBoundingClientRect(); return [box.left, box.top, box.width, box.height]; })()""")
    user.browser.click(left + wide * 0.75, top + high - 1)
    user.settled()
    first, last, _, _ = user.in_view()
    checks.holds("a press on the minimap goes to its entry", first <= count * 0.75 + 2 and last >= count * 0.75 - 2, (first, last))
    checks.holds(f"and to its lane {deepest[1]}", is_in_box(user, *deepest))
    user.browser.click(left + 1, top + 1)
    user.settled()
    checks.holds("a press at its beginning", user.in_view()[0] <= 1 + count / wide, user.in_view())
    painted = user.run("""(() => { const { width, height } = get('minimap'), data = get('minimap').getContext('2d').getImageData(0, 0, width, height).data;
        const colours = new Set(); for (let i = 0; i < data.length; i += 4) colours.add(data.slice(i, i + 3).join()); return colours.size; })()""")
    checks.holds("the minimap is painted", painted > 5, painted)


def check_link(user, report, at):
    """The address tells the chosen entry, and leads to it when a report is given."""
    checks, wanted = user.checks, user.wanted
    user.run(f"page.choose({at}), new Promise(done => setTimeout(done, {SOON}))")
    checks.same("the address tells the chosen entry", user.run("[location.hash, get('link').getAttribute('href')]"), [f"#e={at}"] * 2)
    user.run(f"location.hash = '#e={at - 1}', aid.frame()")
    checks.same("a changed address leads to its entry", user.said(), wanted.lines[at - 2])
    for named, want in ((at, wanted.lines[at - 1]), (999999, f"This report has no entry 999999: its last one is {len(wanted.entries)}.")):
        user.browser.open(fragment=f"e={named}")
        checks.holds(f"without a report it tells of entry {named}", f"entry {named} of" in user.run("get('verdict').textContent"))
        user.browser.give_files("#file", [report])
        user.browser.until("get('verdict').textContent.startsWith('Finished')")
        checks.same(f"a page that is opened with #e={named}", user.said(), want)


# In a narrow window: what goes beyond its right edge and cannot be scrolled to, and what is cut off in its box.
CUT_OFF = """(() => {
  const wide = document.documentElement.clientWidth, cut = [];
  const scrolls = one => one && (/auto|scroll/.test(getComputedStyle(one).overflowX) || scrolls(one.parentElement));
  for (const one of document.querySelectorAll('body *')) {
    const box = one.getBoundingClientRect(), name = `${one.tagName} ${one.id || one.className}`;
    if (!box.width || one.closest('.tip') || one.tagName === 'OPTION') continue;
    if (box.right > wide + 0.5 && !scrolls(one.parentElement)) cut.push(`${name} ends at ${box.right}`);
    if (/hidden|clip/.test(getComputedStyle(one).overflowX) && one.scrollWidth > one.clientWidth + 1) cut.push(`${name} has ${one.scrollWidth} in ${one.clientWidth}`);
    if (one.matches('.name') && one.scrollHeight > one.clientHeight + 1) cut.push(`${name} is ${one.scrollHeight} high in ${one.clientHeight}: ${one.textContent}`);
  }
  return cut;
})()"""


def check_narrow(user, wide, at):
    """In a narrow window nothing is cut off: neither in the picture nor where an entry is told."""
    checks = user.checks
    user.run(f"document.querySelector('.help').open = document.querySelector('.several').open = true, page.choose({at}), aid.settled()")
    checks.same(f"the page is {wide} wide", user.run("document.documentElement.scrollWidth"), wide)
    checks.same("what is cut off", user.run(CUT_OFF), [])
    user.run("page.timeline.setFolding(true), page.timeline.zoom(WIDEST), aid.settled()")
    checks.same("what is cut off beside idle lanes", user.run(CUT_OFF), [])
    checks.holds("the timeline has room", user.run("get('scroller').clientWidth") > wide * 0.4)
