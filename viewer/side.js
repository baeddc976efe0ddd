'use strict';
// Beside the timeline: the screen that stands at the chosen entry, those of several terminals, and the list of all screens.

const MOST_PANES = 16;     // of more terminals at once the first ones are shown
const LEAST_COLUMNS = 40;

class Side {
  // `parts` are the elements: side, list, glass, name, button, others. `enter` is told the entry to which a screen leads.
  constructor(parts, { enter }) {
    this.parts = parts;
    this.shown = -1;
    this.at = 0;
    this.terminals = [];
    this.list = new VirtualList(parts.list, {
      fill: (item, line) => this.fill(item, line),
      choose: item => this.showScreen(item),
      open: item => enter(this.report.screens.entry[item]),
      empty: 'No screen.',
    });
    parts.button.addEventListener('click', () => enter(this.report.screens.entry[this.shown]));
  }

  show(report) {
    this.report = report;
    this.at = 0;
    this.terminals = [];
    // A screen has 80 columns; where there is little room it shows only so many as the screens of the run take.
    this.parts.side.style.setProperty('--taken', Math.max(LEAST_COLUMNS, report.screens.columns));
  }

  // The screens that a filter keeps, and the terminals that it names: several ones are shown beside each other.
  listKept(items, terminals) {
    this.list.show(this.report.screens.count, items);
    this.terminals = terminals;
    if (this.at) this.showAt(this.at);
    else this.choose(this.list.count ? this.list.itemAt(0) : -1);
    this.showOthers();
  }

  // A screen's line has its message beside the name, since most screens of a terminal differ in it.
  fill(screen, line) {
    line.textContent = `${this.report.screenName(screen)}  `;
    line.append(makeElement('small', '', this.report.screenRows(screen)[23].trim()));
  }

  // Shows what the terminal of an entry shows then.
  showAt(at) {
    const terminal = at ? this.report.log.terminal[at - 1] : NONE;
    this.at = at;
    if (at && terminal === NONE) this.showNone('the chosen entry is no terminal\'s');
    else if (at) {
      const screen = this.screenAt(terminal, at);
      if (screen < 0) this.showNone(`${this.report.laneName(terminal)} has shown no screen yet`);
      else this.choose(screen);
    }
    this.showOthers();
  }

  // The screen that a terminal shows at an entry: the one of its last SHOW, or -1.
  screenAt(terminal, at) {
    const own = this.report.entriesOf.of(terminal), { screen } = this.report.log;
    for (let place = firstNotBelow(own, at + 1) - 1; place >= 0; place -= 1) if (screen[own[place] - 1]) return screen[own[place] - 1] - 1;
    return -1;
  }

  choose(screen) {
    this.list.mark(screen);
    this.showScreen(screen);
  }

  showNone(says) {
    this.list.mark(-1);
    this.showScreen(-1);
    this.parts.name.textContent = says;
  }

  showScreen(screen) {
    const { glass, name, button } = this.parts, entry = screen < 0 ? 0 : this.report.screens.entry[screen];
    this.shown = screen;
    glass.textContent = screen < 0 ? '' : this.report.screenRows(screen).join('\n');
    name.textContent = screen < 0 ? 'no screen' : this.report.screenName(screen);
    button.hidden = !entry;
    if (entry) button.textContent = `to its entry ${entry}`;
  }

  // Where the filter names several terminals, the rows of each one's screen that are not blank, as they are at the chosen entry.
  showOthers() {
    const { others } = this.parts, { terminals, report } = this, at = this.at || report.log.count;
    others.hidden = terminals.length < 2;
    if (others.hidden) return;
    const when = this.at ? `at entry ${at}` : 'at the end';
    others.replaceChildren(makeElement('h3', '', `${terminals.length} terminals ${when}`), ...terminals.slice(0, MOST_PANES).map(terminal => {
      const screen = this.screenAt(terminal, at), box = makeElement('div', 'pane');
      const rows = screen < 0 ? [] : report.screenRows(screen).flatMap((row, i) => (row ? [`${String(i + 1).padStart(2, '0')}|${row}`] : []));
      box.dataset.terminal = report.laneName(terminal);
      box.append(makeElement('h4', '', screen < 0 ? `${report.laneName(terminal)}: no screen yet` : report.screenName(screen)));
      if (screen >= 0) box.append(makeElement('pre', '', rows.join('\n') || '(blank)'));
      return box;
    }), ...(terminals.length > MOST_PANES ? [makeElement('p', '', `and ${terminals.length - MOST_PANES} more`)] : []));
  }
}
