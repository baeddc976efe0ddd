'use strict';
// The timeline: what is in view of it, how it is scrolled, zoomed and led by wheel, mouse and keys.

const WIDEST = 16;         // pixels an entry
const STEP = 2;            // how much a button or a key zooms
const SETTLE = 180;        // milliseconds after the last scroll before idle lanes are folded anew
const NEAR = 10;           // pixels between a click and the entry that it means

class Timeline {
  // `parts` are the elements: box, names, scroller, extent, canvas, tip, zoom, minimap. `choose` is told the entry that a user
  // takes, `open` the one on which Enter is pressed, and `filter` the terminal whose name is pressed.
  constructor(parts, { choose, open, filter }) {
    this.parts = parts;
    this.tellChosen = choose;
    this.tellOpened = open;
    this.drawing = new Drawing(parts.canvas);
    this.names = new LaneNames(parts.names, { toggle: group => this.toggle(group), filter });
    this.minimap = new Minimap(parts.minimap, { go: (at, lane) => this.centre(at, lane) });
    this.report = null;
    this.folds = true;
    this.found = new Uint32Array(0);
    this.listen();
  }

  listen() {
    const { scroller } = this.parts;
    scroller.addEventListener('scroll', () => { this.drawSoon(); this.settleSoon(); });
    scroller.addEventListener('wheel', event => this.onWheel(event), { passive: false });
    scroller.addEventListener('click', event => this.onClick(event));
    scroller.addEventListener('mousemove', event => this.onMove(event));
    scroller.addEventListener('mouseleave', () => { this.parts.tip.hidden = true; });
    scroller.addEventListener('keydown', event => this.onKey(event));
    new ResizeObserver(() => this.onResize()).observe(scroller);
    NARROW_WINDOW.addEventListener('change', () => this.fitNames());
  }

  // The column of names is as wide as these need.
  fitNames() { if (this.report) this.parts.box.style.setProperty('--names', `${this.names.wideFor(this.report, this.groups)}px`); }

  // Shows a report from its first to its last entry.
  show(report, groups) {
    this.report = report;
    this.groups = groups;
    this.closed = new Set();
    this.chosen = 0;
    this.keep = null;
    this.entriesOf = report.entriesOf;
    this.marked = report.entriesWith([LOOK.fail, LOOK.takeover, LOOK.odd]);
    this.lined = report.entriesWith([LOOK.fail, LOOK.takeover]);
    this.found = new Uint32Array(0);
    this.minimap.show(report, groups);
    this.fitNames();
    this.pixels = this.least();
    this.layOut();
    this.showWhole();
    this.parts.scroller.scrollTop = 0;
  }

  // ---- what is in view

  wide() { return this.parts.scroller.clientWidth; }

  // The pixels an entry at which the whole run is in view.
  least() { return Math.min(WIDEST, this.wide() / Math.max(1, this.report.log.count)); }

  firstInView() { return Math.floor(this.parts.scroller.scrollLeft / this.pixels) + 1; }

  lastInView() { return Math.min(this.report.log.count, Math.ceil((this.parts.scroller.scrollLeft + this.wide()) / this.pixels)); }

  view() {
    const { scrollLeft, scrollTop, clientWidth, clientHeight } = this.parts.scroller;
    const { report, rows, pixels, chosen, keep, lined, found } = this;
    return { report, rows, pixels, chosen, keep, lined, found, left: scrollLeft, top: scrollTop, wide: clientWidth, high: clientHeight };
  }

  draw() {
    if (!this.report) return;
    const view = this.view();
    this.drawing.draw(view);
    this.minimap.draw(view, this.found);
    this.names.scrollTo(view.top);
    this.parts.zoom.textContent = `${this.firstInView()} to ${this.lastInView()} of ${this.report.log.count}, ${tellPixels(this.pixels)}`;
  }

  drawSoon() {
    if (this.waits) return;
    this.waits = true;
    requestAnimationFrame(() => { this.waits = false; this.draw(); });
  }

  settleSoon() {
    clearTimeout(this.settling);
    this.settling = setTimeout(() => this.layOut(), SETTLE);
  }

  // A lane is idle where no entry, no bar and no wait of it is in view.
  isIdle(lane) {
    if (!this.folds && !this.keep) return false;
    const first = this.firstInView(), last = this.lastInView(), entries = this.entriesOf.of(lane);
    if (entries[firstNotBelow(entries, first)] <= last) return false;
    return [this.report.attempts, this.report.waits].every(bars => {
      const own = bars.of.of(lane), place = firstBehind(bars.to, own, first);
      if (place === own.length) return true;
      const from = bars.from[own[place] - 1];
      return from > last || (this.keep !== null && !this.keep[from - 1]);
    });
  }

  // Makes the rows anew where they are others now, and keeps the row at the top of the view where it is.
  layOut() {
    if (!this.report) return;
    const rows = new Rows(this.report, this.groups, { closed: this.closed, isIdle: lane => this.isIdle(lane) });
    if (rows.isSameAs(this.rows) && rows.report === this.rows.report) return;
    const { scroller, extent, box } = this.parts, held = this.rows && this.rows.report === this.report && this.rows.list[this.rows.at(scroller.scrollTop)];
    const lane = held ? held.lanes.find(one => one !== NONE) : undefined, offset = held ? scroller.scrollTop - held.top : 0;
    this.rows = rows;
    box.style.setProperty('--high', `${rows.height + RULER_HIGH + scroller.offsetHeight - scroller.clientHeight + 2}px`);
    extent.style.height = `${rows.height + RULER_HIGH}px`;
    if (lane !== undefined) scroller.scrollTop = rows.of(lane).top + offset;
    this.names.draw(this.report, rows);
    this.drawSoon();
  }

  onResize() {
    if (!this.report || !this.wide()) return;
    if (this.isWhole || this.pixels < this.least()) this.showWhole(); else this.draw();
  }

  toggle(group) {
    if (!this.closed.delete(group)) this.closed.add(group);
    this.layOut();
    this.names.focusOn(group);
  }

  // ---- zoom and places

  zoom(pixels, middle = this.middle()) {
    const { scroller, extent } = this.parts, least = this.least(), place = middle / this.pixels;
    // An entry at the edge of the view is whole after the zoom too.
    const offset = Math.min(this.wide() - WIDEST / 2, Math.max(WIDEST / 2, middle - scroller.scrollLeft));
    this.pixels = Math.min(WIDEST, Math.max(least, pixels));
    this.isWhole = this.pixels === least;
    extent.style.width = `${Math.max(this.wide(), this.report.log.count * this.pixels)}px`;
    scroller.scrollLeft = place * this.pixels - offset;
    this.drawSoon();
    this.settleSoon();
  }

  // What a zoom keeps in place: the chosen entry where it is in view, or else the middle of the view.
  middle() {
    const { scroller } = this.parts, chosen = (this.chosen - 0.5) * this.pixels;
    const isInView = this.chosen && chosen >= scroller.scrollLeft && chosen <= scroller.scrollLeft + this.wide();
    return isInView ? chosen : scroller.scrollLeft + this.wide() / 2;
  }

  showWhole() { this.zoom(0); this.layOut(); this.draw(); }

  // Brings some entries into view, as near as they fit.
  showRange(from, to) {
    this.zoom(this.wide() / Math.max(20, (to - from + 1) * 1.15));
    this.parts.scroller.scrollLeft = ((from + to) / 2) * this.pixels - this.wide() / 2;
    this.layOut();
    this.draw();
  }

  // Brings an entry and a lane into the middle of the view.
  centre(at, lane) {
    const { scroller } = this.parts;
    scroller.scrollLeft = (at - 0.5) * this.pixels - this.wide() / 2;
    this.scrollToRow(this.rows.of(lane), true);
    this.drawSoon();
  }

  scrollToRow(row, isMiddle) {
    const { scroller } = this.parts, high = scroller.clientHeight - RULER_HIGH;
    scroller.scrollTop = isMiddle ? row.top - (high - row.high) / 2 : row.top;
  }

  // Brings the lanes of a group to the top of the view.
  reach(group) {
    this.layOut();
    this.scrollToRow(this.rows.list.find(row => row.group === group), false);
    this.drawSoon();
  }

  setFound(found) { this.found = found; this.drawSoon(); }

  isFound(at) { return this.found[firstNotBelow(this.found, at)] === at; }

  setFolding(folds) { this.folds = folds; this.layOut(); }

  setFilter(keep) {
    this.keep = keep;
    const { log, lanes, entriesOf } = this.report;
    this.entriesOf = keep ? new Shelves(log.lane, log.count, lanes.all.length, keep) : entriesOf;
    this.layOut();
    this.drawSoon();
  }

  // Marks an entry as the chosen one and brings it into view, where it is wanted so large that it can be seen. It tells nobody.
  mark(at, isLarge = false) {
    this.chosen = at;
    if (at) this.reveal(at, isLarge);
    this.drawSoon();
  }

  reveal(at, isLarge) {
    const { scroller } = this.parts;
    if (isLarge && this.pixels < SHAPED) this.zoom(WIDEST);
    const x = (at - 0.5) * this.pixels, left = x - scroller.scrollLeft;
    if (left < 20 || left > this.wide() - 20) scroller.scrollLeft = x - this.wide() / 2;
    this.layOut();
    const row = this.rows.of(this.report.log.lane[at - 1]), top = row.top - scroller.scrollTop;
    if (top < 0 || top + row.high > scroller.clientHeight - RULER_HIGH) scroller.scrollTop = row.top - scroller.clientHeight / 2;
  }

  // ---- mouse and wheel

  // The entry that is meant by a place on the canvas: the nearest one of the lane there, or the beginning of the bar.
  entryAt(event) {
    const { left, top } = this.parts.scroller.getBoundingClientRect(), { scrollLeft, scrollTop } = this.parts.scroller;
    const y = event.clientY - top - RULER_HIGH, at = (event.clientX - left + scrollLeft) / this.pixels + 0.5;
    if (y < 0 || y + scrollTop >= this.rows.height) return 0;
    const row = this.rows.list[this.rows.at(y + scrollTop)];
    const near = row.lanes.flatMap(lane => (lane === NONE ? [] : this.nearest(lane, at)));
    const best = near.reduce((one, other) => (Math.abs(other - at) < Math.abs(one - at) ? other : one), Infinity);
    if (Math.abs(best - at) * this.pixels <= NEAR) return best;
    return row.kind === 'idle' || row.lanes[0] === NONE ? 0 : this.barAt(row.lanes[0], Math.round(at));
  }

  // The entries of a lane on both sides of a place.
  nearest(lane, at) {
    const entries = this.entriesOf.of(lane), place = firstNotBelow(entries, at);
    return [entries[place - 1], entries[place]].filter(entry => entry !== undefined);
  }

  // The entry that tells of the bar at a place: where the attempt begins, or what tells of the wait.
  barAt(lane, at) {
    const { attempts, waits } = this.report;
    const under = bars => {
      const own = bars.of.of(lane), bar = own[firstBehind(bars.to, own, at)];
      return bar && bars.from[bar - 1] <= at ? bar - 1 : -1;
    };
    const attempt = under(attempts), wait = under(waits);
    return attempt >= 0 ? attempts.from[attempt] : wait >= 0 ? waits.entry[wait] : 0;
  }

  onClick(event) {
    const at = this.report && this.entryAt(event);
    if (at) this.tellChosen(at);
  }

  onMove(event) {
    const at = this.report && this.entryAt(event), { tip, box } = this.parts;
    tip.hidden = !at;
    if (!at) return;
    const { left, top, width } = box.getBoundingClientRect();
    tip.textContent = this.report.entryLine(at);
    tip.style.top = `${event.clientY - top + 16}px`;
    tip.style.left = `${Math.min(event.clientX - left + 12, width - tip.offsetWidth - 8)}px`;
  }

  // The wheel zooms over the ruler, and everywhere with Ctrl, as two fingers do; else it scrolls.
  onWheel(event) {
    const { left, top } = this.parts.scroller.getBoundingClientRect();
    if (!this.report || !(event.ctrlKey || event.clientY - top < RULER_HIGH)) return;
    event.preventDefault();
    this.zoom(this.pixels * STEP ** (-event.deltaY / 200), event.clientX - left + this.parts.scroller.scrollLeft);
  }

  // ---- keys

  onKey(event) {
    if (!this.report || event.ctrlKey || event.altKey || event.metaKey) return;
    const act = this.keys()[event.shiftKey && event.key.startsWith('Arrow') ? `Shift ${event.key}` : event.key];
    if (!act) return;
    event.preventDefault();
    act();
  }

  keys() {
    const { scroller } = this.parts, { count } = this.report.log, page = () => Math.max(1, this.lastInView() - this.firstInView());
    return {
      ArrowRight: () => this.step(1), ArrowLeft: () => this.step(-1),
      'Shift ArrowRight': () => this.stepInLane(1), 'Shift ArrowLeft': () => this.stepInLane(-1),
      ArrowDown: () => this.stepLane(1), ArrowUp: () => this.stepLane(-1),
      Home: () => this.choose(1), End: () => this.choose(count),
      PageDown: () => { scroller.scrollLeft += page() * this.pixels; }, PageUp: () => { scroller.scrollLeft -= page() * this.pixels; },
      '+': () => this.zoom(this.pixels * STEP), '=': () => this.zoom(this.pixels * STEP), '-': () => this.zoom(this.pixels / STEP),
      0: () => this.showWhole(), 1: () => this.zoom(WIDEST),
      n: () => this.stepAmong(this.marked, 1), p: () => this.stepAmong(this.marked, -1),
      ']': () => this.stepGroup(1), '[': () => this.stepGroup(-1),
      Enter: () => { if (this.chosen) this.tellOpened(this.chosen); },
    };
  }

  choose(at) { if (at >= 1 && at <= this.report.log.count) this.tellChosen(at); }

  // The entry from which the keys go: the chosen one, or the first in view.
  here() { return this.chosen || this.firstInView(); }

  // The next entry on one side, of those that the filter keeps.
  step(side) {
    let at = this.chosen ? this.chosen + side : this.firstInView();
    while (this.keep && at >= 1 && at <= this.report.log.count && !this.keep[at - 1]) at += side;
    this.choose(at);
  }

  stepInLane(side) { this.stepAmong(this.entriesOf.of(this.report.log.lane[this.here() - 1]), side); }

  stepAmong(entries, side) {
    const place = firstNotBelow(entries, this.chosen + (side > 0 ? 1 : 0)) - (side > 0 ? 0 : 1);
    this.choose(entries[place] || 0);
  }

  // The nearest entry of the next group on one side that has entries.
  stepGroup(side) {
    const at = this.here(), own = this.rows.of(this.report.log.lane[at - 1]).group, lanesOf = group => [group.head, ...group.lanes].filter(lane => lane !== NONE);
    for (let place = this.groups.indexOf(own) + side; place >= 0 && place < this.groups.length; place += side) {
      const near = lanesOf(this.groups[place]).flatMap(lane => this.nearest(lane, at));
      if (near.length) return this.choose(nearestOf(near, at));
    }
    return undefined;
  }

  // The nearest entry of the next row on one side that has entries.
  stepLane(side) {
    const at = this.here();
    for (let row = this.rows.rowOf[this.report.log.lane[at - 1]] + side; row >= 0 && row < this.rows.list.length; row += side) {
      const near = this.rows.list[row].lanes.flatMap(lane => (lane === NONE ? [] : this.nearest(lane, at)));
      if (near.length) return this.choose(nearestOf(near, at));
    }
    return undefined;
  }
}

function nearestOf(entries, at) { return entries.reduce((one, other) => (Math.abs(other - at) < Math.abs(one - at) ? other : one)); }

function tellPixels(pixels) {
  return pixels >= 1 ? `${Math.round(pixels * 10) / 10} px an entry` : `${Math.round(10 / pixels) / 10} entries a px`;
}
