'use strict';
// The names of the lanes beside the timeline, a line for each of its rows. They stay in view, whatever is scrolled.

const NARROW_WINDOW = window.matchMedia('(max-width: 700px)');

class LaneNames {
  // `toggle` is told the group whose head is pressed, and `filter` the terminal whose name is pressed.
  constructor(element, { toggle, filter }) {
    this.lines = document.createElement('div');
    this.tellToggle = toggle;
    this.tellFilter = filter;
    element.append(this.lines);
  }

  draw(report, rows) {
    this.report = report;
    this.rows = rows;
    this.lines.replaceChildren(...rows.list.map(row => {
      const line = row.kind === 'head' ? this.head(row) : row.kind === 'idle' ? this.idle(row) : this.lane(row);
      line.classList.add('name', row.kind);
      line.classList.toggle('low', row.high < HEAD_HIGH);
      line.style.top = `${row.top}px`;
      line.style.height = `${row.high}px`;
      return line;
    }));
  }

  // How wide the names of some groups are: the lines that are written with most letters are measured.
  wideFor(report, groups) {
    const pen = document.createElement('canvas').getContext('2d'), wide = (font, text) => { pen.font = font; return pen.measureText(text).width; };
    const heads = groups.map(group => wide('600 13px system-ui, sans-serif', `▾ ${group.name}`) + (NARROW_WINDOW.matches ? 18 : 24 + wide('11px system-ui, sans-serif', countOf(group))));
    const lanes = groups.flatMap(group => group.lanes.map(lane => 36 + wide('13px system-ui, sans-serif', report.laneName(lane))));
    return Math.ceil(Math.max(NARROW_WINDOW.matches ? 84 : 150, ...heads, ...lanes));
  }

  scrollTo(top) { this.lines.style.transform = `translateY(${-top}px)`; }

  focusOn(group) {
    const place = this.rows.list.findIndex(row => row.kind === 'head' && row.group === group);
    this.lines.children[place].focus();
  }

  head({ group, isClosed, name }) {
    const hasLanes = group.lanes.length > 0, line = document.createElement(hasLanes ? 'button' : 'span');
    line.textContent = hasLanes ? `${isClosed ? '▸' : '▾'} ${name}` : name;
    line.append(Object.assign(document.createElement('small'), { textContent: countOf(group) }));
    if (group.head !== NONE) this.tag(line, group.head);
    if (hasLanes) {
      line.setAttribute('aria-expanded', !isClosed);
      line.title = isClosed ? `show the lanes of ${name}` : `close the lanes of ${name}`;
      line.addEventListener('click', () => this.tellToggle(group));
    }
    return line;
  }

  lane({ name, lanes, group }) {
    const isTerminal = this.report.lanes.all[lanes[0]].place === 'terminal', line = document.createElement(isTerminal ? 'button' : 'span');
    line.textContent = isTerminal ? name : `${group.name} ${name.split(' ')[1]}`;
    this.tag(line, lanes[0]);
    if (isTerminal) {
      line.title = `${name} alone, or all again`;
      line.addEventListener('click', () => this.tellFilter(name));
    }
    return line;
  }

  idle({ lanes }) {
    const line = document.createElement('span'), names = lanes.map(lane => this.report.laneName(lane)), last = names[names.length - 1];
    const range = NARROW_WINDOW.matches ? '' : `: ${names[0]} .. ${last.split(' ').pop()}`;
    line.textContent = names.length === 1 ? `${names[0]} idle` : `${names.length} idle${range}`;
    line.title = names.join(', ');
    return line;
  }

  tag(line, lane) { Object.assign(line.dataset, { lane: this.report.laneName(lane), place: this.report.lanes.all[lane].place }); }
}

function countOf(group) {
  const isClass = group.what === 'class', count = isClass ? Math.max(1, group.lanes.length) : group.lanes.length;
  const [one, more] = isClass ? ['process', 'processes'] : ['terminal', 'terminals'];
  return `${count} ${count === 1 ? one : more}`;
}
