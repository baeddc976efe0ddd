'use strict';
// The page: takes a report and a deck, shows the parts, and leads from one to the other.

const get = id => document.getElementById(id);
const NOTHING_LEFT = 'The filter leaves nothing here.';
const MOST_PASTED = 200000;    // characters of a report that are put into the text box; a longer one would hold it up

function makeElement(tag, className, text = '') {
  const element = document.createElement(tag);
  element.className = className;
  element.textContent = text;
  return element;
}

// A look's shape, to stand beside its words.
function shapeOf(look) {
  const canvas = document.createElement('canvas');
  canvas.width = 16;
  canvas.height = 16;
  canvas.setAttribute('aria-hidden', 'true');
  paintShape(canvas.getContext('2d'), look, 8, 8, 5.5);
  return canvas;
}

function patternOf(outcome) {
  const canvas = document.createElement('canvas');
  canvas.width = 26;
  canvas.height = 14;
  canvas.setAttribute('aria-hidden', 'true');
  paintBar(canvas.getContext('2d'), outcome, 0, 0, 26, 14);
  return canvas;
}

class Page {
  constructor() {
    this.report = null;
    this.timeline = new Timeline(
      Object.fromEntries(['box', 'names', 'scroller', 'extent', 'canvas', 'tip', 'zoom', 'minimap'].map(name => [name, get(name)])),
      { choose: at => this.choose(at), open: at => this.follow(at), filter: name => this.filterBy(name === get('filter').value ? '' : name) },
    );
    this.log = new VirtualList(get('log'), {
      fill: (item, line) => this.fillEntry(item + 1, line),
      choose: item => this.choose(item + 1),
      open: item => this.enter(item + 1),
      empty: NOTHING_LEFT,
    });
    this.serial = new VirtualList(get('serial'), {
      fill: (item, line) => this.fillBlock(item, line),
      choose: item => this.choose(this.report.serial.entry[item]),
      open: item => this.enter(this.report.serial.entry[item]),
      empty: NOTHING_LEFT,
    });
    this.side = new Side(
      { side: get('side'), list: get('screens'), glass: get('glass'), name: get('glass-name'), button: get('to-entry'), others: get('others') },
      { enter: at => this.enter(at) },
    );
    this.search = new SearchBox(
      { input: get('search'), count: get('search-count'), last: get('search-last'), next: get('search-next') },
      { show: found => this.showFound(found), go: at => this.goTo(at) },
    );
    this.link = new EntryLink(get('link'), { go: at => this.goToNamed(at) });
    this.chooser = new Chooser(get('chooser'), { choose: names => this.filterBy(names.join(', ')) });
    this.jumps = new Toolbar(get('jumps'));
    this.groups = new Toolbar(get('groups'));
    this.drawLegend();
    this.listen();
    if (this.link.named()) get('verdict').textContent = `No report yet: this link leads to entry ${this.link.named()} of the one that is given`;
  }

  listen() {
    get('zoom-in').addEventListener('click', () => this.timeline.zoom(this.timeline.pixels * STEP));
    get('zoom-out').addEventListener('click', () => this.timeline.zoom(this.timeline.pixels / STEP));
    get('zoom-whole').addEventListener('click', () => this.timeline.showWhole());
    get('zoom-near').addEventListener('click', () => this.timeline.zoom(WIDEST));
    get('fold').addEventListener('change', event => this.timeline.setFolding(event.target.checked));
    get('hide-out').addEventListener('change', () => this.listBlocks());
    get('filter').addEventListener('input', event => this.filterBy(event.target.value));
    document.addEventListener('keydown', event => this.onKey(event));
  }

  // ---- a report

  draw(text, deckText) {
    const verdict = get('verdict'), named = this.report ? 0 : this.link.named();
    try {
      this.show(new Report(text), deckText ? new Deck(deckText) : null);
      verdict.textContent = `${this.report.finished ? 'Finished' : 'Not finished'} after ${this.report.log.count} entries`;
      verdict.className = '';
    } catch (error) {
      if (!(error instanceof NoReport)) throw error;
      verdict.textContent = error.message;
      verdict.className = 'bad';
    }
    get('picture').hidden = verdict.className === 'bad';
    get('give').open = verdict.className === 'bad';
    if (verdict.className !== '') return;
    this.timeline.onResize();
    if (named) this.goToNamed(named);
  }

  show(report, deck) {
    this.pairOf = new PairFinder(report, deck).find();
    report.attempts = new Walk(report, this.pairOf).follow();
    report.waits = new WaitFinder(report).find();
    this.report = report;
    this.teller = new Teller(report, deck);
    this.keep = null;
    this.parts = [];
    this.chosen = 0;
    this.search.clear();
    this.link.mark(0);
    get('picture').hidden = false;
    get('filter').value = '';
    get('filter-fault').textContent = '';
    this.drawTiles();
    this.drawJumps();
    this.offerNames();
    const groups = groupsOf(report, this.pairOf);
    this.chooser.show(report, groups);
    this.drawGroups(groups);
    this.timeline.folds = report.lanes.all.length > CROWDED;
    get('fold').checked = this.timeline.folds;
    this.timeline.show(report, groups);
    this.search.use(new Finder(report, deck), null);
    this.side.show(report);
    this.tell(0);
    this.list();
    showFiles(get('files'), report, deck);
  }

  drawTiles() {
    const { serial, screens, log } = this.report, blocks = how => serial.how.reduce((sum, one) => sum + (one === how), 0);
    const looks = name => this.report.entriesWith([LOOK[name]]);
    const tiles = [
      ['entries', log.count], ['screens shown', screens.count], ['units committed', blocks('COMMIT')], ['units backed out', blocks('DROP')],
      ['attempts restarted', blocks('RESTART')], ['units left open', blocks('LEFT')], ['failures', looks('fail').length],
      ['takeovers', looks('takeover').length], ['ended otherwise', looks('odd').length],
    ];
    get('tiles').replaceChildren(...tiles.map(([name, value]) => {
      const isOdd = name === 'ended otherwise' && value > 0, tile = makeElement(isOdd ? 'button' : 'div', isOdd ? 'tile alarm' : 'tile');
      tile.dataset.name = name;
      tile.append(makeElement('b', '', String(value)), makeElement('span', '', name));
      if (isOdd) tile.addEventListener('click', () => this.goTo(looks('odd')[0]));
      return tile;
    }));
  }

  drawJumps() {
    const marked = this.report.entriesWith([LOOK.fail, LOOK.takeover, LOOK.odd]);
    if (!marked.length) get('jumps').textContent = 'No failure, and each terminal that ended ended well.';
    else this.jumps.show(Array.from(marked, at => {
      const button = makeElement('button', '');
      button.append(shapeOf(LOOKS[this.report.log.look[at - 1]]), this.report.entryLine(at));
      button.dataset.at = at;
      button.addEventListener('click', () => this.goTo(at));
      return button;
    }));
  }

  // A button for each pair and class, which brings its lanes into view.
  drawGroups(groups) {
    get('groups').hidden = groups.length < 2;
    this.groups.show(groups.map(group => {
      const button = makeElement('button', '', group.name);
      button.title = `to the lanes of ${group.name}`;
      button.addEventListener('click', () => this.timeline.reach(group));
      return button;
    }));
    get('groups').prepend(makeElement('span', '', 'Lanes of'));
  }

  // The filter offers the names of the terminals, pairs and classes.
  offerNames() {
    const names = new Set(this.report.lanes.all.map(lane => lane.name.split(' ')[0]));
    get('filter-names').replaceChildren(...Array.from(names, name => Object.assign(document.createElement('option'), { value: name })));
  }

  drawLegend() {
    const item = (picture, says) => {
      const span = makeElement('span', '');
      span.append(picture, says);
      return span;
    };
    get('legend').append(...LOOKS.map(look => item(shapeOf(look), look.says)), ...[...OUTCOMES, ...WAITS].map(bar => item(patternOf(bar), bar.says)));
  }

  // ---- lists

  list() {
    const { report: { log, screens }, keep } = this;
    this.log.show(log.count, keep && keptNumbers(log.count, i => keep[i]));
    this.listBlocks();
    const terminals = new Set(this.parts.map(part => part.terminal).filter(terminal => terminal !== NONE));
    this.side.listKept(keep && keptNumbers(screens.count, i => keep[screens.entry[i] - 1]), [...terminals]);
  }

  listBlocks() {
    const { serial } = this.report, hides = get('hide-out').checked;
    const isKept = block => !(hides && serial.how[block] === 'OUT') && (!this.keep || this.keepsBlock(block));
    this.serial.show(serial.count, hides || this.keep ? keptNumbers(serial.count, isKept) : null);
  }

  keepsBlock(block) {
    const { serial } = this.report;
    return this.parts.some(({ terminal, unit }) => serial.terminal[block] === terminal && (!unit || serial.unit[block] === unit));
  }

  fillEntry(at, line) {
    line.textContent = this.report.entryLine(at);
    if (this.report.log.look[at - 1] >= LOOK.odd) line.classList.add('odd');
    if (this.timeline.isFound(at)) line.classList.add('found');
  }

  fillBlock(block, line) {
    const how = this.report.serial.how[block];
    line.textContent = this.report.blockLine(block);
    if (how in OUTCOME) line.classList.add(how);
    if (how === 'DONE' && !ENDS_WELL.test(this.report.blockLine(block).split(' ')[2])) line.classList.add('odd');
  }

  // ---- from one to the other

  // Tells an entry, and marks it everywhere. Where it may be far away the timeline zooms in, if it is too small to be seen.
  choose(at, isFar = false) {
    this.chosen = at;
    this.timeline.mark(at, isFar);
    this.log.mark(at - 1);
    this.tell(at);
    this.side.showAt(at);
    this.search.mark(at);
    this.link.mark(at);
  }

  goTo(at) { if (at) this.choose(at, true); }

  // Goes to the entry that the address names.
  goToNamed(at) {
    if (!this.report || !at) return;
    if (at <= this.report.log.count) this.goTo(at);
    else get('said').textContent = `This report has no entry ${at}: its last one is ${this.report.log.count}.`;
  }

  showFound(found) {
    this.timeline.setFound(found);
    this.log.draw();
  }

  // Goes to an entry, and from there by the keys of the timeline.
  enter(at) {
    this.goTo(at);
    get('scroller').focus();
  }

  tell(at) {
    get('said').textContent = at ? this.report.entryLine(at) : 'Choose an entry to read what it means.';
    get('meaning').textContent = at ? [this.teller.meaning(at), this.teller.wait(at), this.teller.place(at)].join(' ') : '';
    get('typed').textContent = at ? this.teller.typed(at) : '';
    get('ways').replaceChildren(...(at ? this.teller.ways(at) : []).map(way => {
      const button = makeElement('button', '', way.says);
      button.addEventListener('click', () => this.take(way));
      return button;
    }));
  }

  take({ entry, screen }) {
    if (entry) this.goTo(entry);
    else {
      this.side.choose(screen);
      get('screens').focus();
    }
  }

  // Enter on an entry takes the first way that leads from it.
  follow(at) {
    const [way] = this.teller.ways(at);
    if (way) this.take(way);
  }

  // ---- filter and keys

  filterBy(text) {
    if (get('filter').value !== text) get('filter').value = text;
    const { parts, unknown } = readFilter(text, this.report, this.pairOf);
    get('filter-fault').textContent = unknown ? `no terminal, unit, pair or class ${unknown} in this run` : this.missing(parts);
    if (unknown) return;
    this.parts = parts;
    this.keep = keptBy(parts, this.report);
    this.chooser.mark(new Set(parts.filter(part => part.terminal !== NONE).map(part => this.report.laneName(part.terminal))));
    this.timeline.setFilter(this.keep);
    this.bringKept();
    if (this.keep && this.chosen && !this.keep[this.chosen - 1]) this.choose(0);
    this.list();
    this.search.use(this.search.finder, this.keep);
    this.search.mark(this.chosen);
    this.log.mark(this.chosen - 1);
  }

  // What a filter names and the run does not have, and whether nothing is left.
  missing(parts) {
    const missing = missingParts(parts, this.report), isAll = missing.length > 0 && missing.length === parts.length;
    return missing.length ? `${missing.join(', ')}${isAll ? ': nothing is left' : ''}` : '';
  }

  // A filter by units brings these into view; one by terminals the whole run where nothing of theirs is in view.
  bringKept() {
    const { timeline, keep } = this;
    if (!keep || !keep.includes(1)) return;
    if (this.parts.some(part => part.unit)) timeline.showRange(keep.indexOf(1) + 1, keep.lastIndexOf(1) + 1);
    else if (!keep.subarray(timeline.firstInView() - 1, timeline.lastInView()).includes(1)) timeline.showWhole();
  }

  onKey(event) {
    if (!this.report || event.ctrlKey || event.altKey || event.metaKey) return;
    const isTyping = /^(?:INPUT|TEXTAREA)$/.test(event.target.tagName) && event.target.type !== 'checkbox';
    const box = isTyping ? undefined : { '/': 'filter', f: 'search' }[event.key];
    if (box) {
      event.preventDefault();
      get(box).focus();
      get(box).select();
    } else if (event.key === 'Escape' && event.target === get('search')) {
      this.search.clear();
      this.showFound(this.search.found);
      get('scroller').focus();
    } else if (event.key === 'Escape' && get('filter').value !== '') {
      this.filterBy('');
      get('scroller').focus();
    } else if (event.key === 'Enter' && event.target === get('filter')) get('scroller').focus();
  }
}

const page = new Page();
