'use strict';
// The search: an entry's number, words of the log (a name, FAIL), a text on a screen or one that was typed.

class Finder {
  constructor(report, deck) {
    this.report = report;
    this.deck = deck;
  }

  // The entries that a text finds, in order. A number of an entry finds that one. Words of the log are whole ones where any
  // are: T1 does not find T10. In quotation marks a text is sought on screens and in what was typed alone.
  find(text) {
    const words = text.trim(), { count } = this.report.log, quoted = /^"(.+)"$/.exec(words);
    if (!words) return new Uint32Array(0);
    const number = /^#?([1-9][0-9]*)$/.exec(words);
    if (number && Number(number[1]) <= count) return new Uint32Array([Number(number[1])]);
    const sought = quoted ? quoted[1] : words, found = new Uint8Array(count + 1);
    if (!quoted) this.findInLog(sought, found);
    this.findOnScreens(sought, found);
    this.findTyped(sought, found);
    return keptNumbers(count + 1, at => found[at]);
  }

  findInLog(sought, found) {
    const whole = new RegExp(`(?<![A-Z0-9-])${escaped(sought)}(?![A-Z0-9-])`, 'gi');
    if (!this.findLines(whole, found)) this.findLines(new RegExp(escaped(sought), 'gi'), found);
  }

  // Marks the entries of the log with a match after their number, and says whether there are any.
  findLines(form, found) {
    const { lines, log } = this.report, last = lines.starts[log.line + log.count];
    let any = false;
    form.lastIndex = lines.starts[log.line];
    for (let match = form.exec(lines.text); match && match.index < last; match = form.exec(lines.text)) {
      const at = this.lineOf(match.index) - log.line + 1, start = lines.starts[log.line + at - 1];
      if (match.index < start + String(at).length) continue;
      found[at] = 1;
      any = true;
      form.lastIndex = Math.max(lines.starts[log.line + at], match.index + 1);
    }
    return any;
  }

  lineOf(place) { return firstNotBelow(this.report.lines.starts, place + 1) - 1; }

  // A screen is found at each entry that shows it.
  findOnScreens(sought, found) {
    const { screens, log, lines } = this.report, form = new RegExp(escaped(sought), 'gi'), on = new Uint8Array(screens.count + 1);
    if (!screens.count) return;
    const last = lines.starts[screens.line[screens.count]];
    form.lastIndex = lines.starts[screens.line[0]];
    for (let match = form.exec(lines.text); match && match.index < last; match = form.exec(lines.text)) {
      const line = this.lineOf(match.index), screen = firstNotBelow(screens.line, line + 1);
      // The headline of a screen is no text on it, and neither is the number of a row.
      if (screens.line[screen - 1] !== line && match.index >= lines.starts[line] + 3) on[screen] = 1;
      else form.lastIndex = match.index + 1;
    }
    for (let i = 0; i < log.count; i += 1) if (on[log.screen[i]]) found[i + 1] = 1;
  }

  findTyped(sought, found) {
    const { log } = this.report;
    if (!this.deck) return;
    for (let i = 0; i < log.count; i += 1) {
      if (log.kind[i] !== KIND.KEY) continue;
      const line = this.deck.entryLine(this.report.laneName(log.lane[i]), log.number[i]);
      if (line && line.toUpperCase().includes(sought.toUpperCase())) found[i + 1] = 1;
    }
  }
}

function escaped(text) { return text.replace(/[.*+?^${}()|[\]\\]/g, '\\$&'); }

// The box of the search: it finds while one types, Enter goes to the next, with Shift to the one before.
class SearchBox {
  // `show` is told what was found, and `go` the entry to go to.
  constructor(parts, { show, go }) {
    this.parts = parts;
    this.tellFound = show;
    this.tellGo = go;
    this.clear();
    parts.input.addEventListener('input', () => this.find());
    parts.input.addEventListener('keydown', event => this.onKey(event));
    parts.last.addEventListener('click', () => this.step(-1));
    parts.next.addEventListener('click', () => this.step(1));
  }

  clear() {
    this.found = new Uint32Array(0);
    this.chosen = 0;
    this.parts.input.value = '';
    this.tell();
  }

  // The entries in which it seeks are those that the filter keeps.
  use(finder, keep) {
    this.finder = finder;
    this.keep = keep;
    this.find();
  }

  find() {
    const found = this.finder.find(this.parts.input.value);
    this.all = found.length;
    this.found = this.keep ? found.filter(at => this.keep[at - 1]) : found;
    this.chosen = 0;
    this.tell();
    this.tellFound(this.found);
  }

  // Which of the found entries is chosen, by what is chosen in the page.
  mark(at) {
    this.at = at;
    const place = firstNotBelow(this.found, at);
    this.chosen = at && this.found[place] === at ? place + 1 : 0;
    this.tell();
  }

  step(side) {
    const { found } = this, place = firstNotBelow(found, (this.at || 0) + (side > 0 ? 1 : 0)) - (side > 0 ? 0 : 1);
    if (found.length) this.tellGo(found[(place + found.length) % found.length]);
  }

  tell() {
    const { input, count, last, next } = this.parts, { found, chosen } = this, text = input.value.trim();
    const hidden = this.all && !found.length ? `, but the filter hides ${this.all}` : '';
    const says = found.length ? `${chosen || '–'} of ${found.length}` : `“${text}” is nowhere${hidden}`;
    count.textContent = text ? says : '';
    count.classList.toggle('bad', text !== '' && !found.length);
    last.disabled = next.disabled = !found.length;
  }

  onKey(event) {
    if (event.key !== 'Enter') return;
    event.preventDefault();
    this.step(event.shiftKey ? -1 : 1);
  }
}
