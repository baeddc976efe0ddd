'use strict';
// Reads the text of a report once: into its lines, and what they say into typed arrays.

const NONE = 0xffff;
const MOST_LANES = 4096;

class NoReport extends Error {
  constructor(at, why) { super(`No report: line ${at + 1}: ${why}`); }
}

// The lines of a text. Only where each begins is kept: a line is cut out when it is looked at.
class Lines {
  constructor(text) {
    this.text = text.includes('\r\n') ? text.replaceAll('\r\n', '\n') : text;
    if (!this.text.endsWith('\n')) this.text += '\n';
    const starts = [];
    for (let at = 0; at >= 0 && at < this.text.length; at = this.text.indexOf('\n', at) + 1) starts.push(at);
    this.count = starts.length;
    starts.push(this.text.length);
    this.starts = new Uint32Array(starts);
  }

  at(line) {
    return line < this.count ? this.text.slice(this.starts[line], this.starts[line + 1] - 1) : undefined;
  }
}

// The lanes by what they are and by name, since a pair, a terminal and a class may have one name.
class Lanes {
  constructor() {
    this.all = [];
    this.known = { terminal: new Map(), pair: new Map(), process: new Map() };
  }

  // The number of a lane, which is a new one where it was not named before.
  of(place, name) {
    const known = this.known[place].get(name);
    if (known !== undefined) return known;
    if (this.all.length === MOST_LANES) return NONE;
    this.known[place].set(name, this.all.length);
    return this.all.push({ place, name }) - 1;
  }

  find(place, name) {
    const known = this.known[place].get(name);
    return known === undefined ? NONE : known;
  }
}

// Reads a report part by part; each part moves `at` on. It throws NoReport where the text is none.
class ReportReader {
  constructor(text) {
    this.lines = new Lines(text);
    this.lanes = new Lanes();
    this.at = 0;
  }

  refuse(why) { throw new NoReport(this.at, why); }

  head(word) {
    if (this.lines.at(this.at) !== word) this.refuse(`${word} is wanted here`);
    this.at += 1;
  }

  laneOf(place, name) {
    const lane = this.lanes.of(place, name);
    return lane === NONE ? this.refuse('there are too many names') : lane;
  }

  // Calls `take` with each line up to the headline of the next part.
  eachLine(next, take) {
    for (; this.at < this.lines.count; this.at += 1) {
      const text = this.lines.at(this.at);
      if (text === next) return;
      take(text);
    }
  }

  read() {
    this.head('SERIAL');
    const serial = this.readSerial();
    this.head('SCREENS');
    const screens = this.readScreens();
    this.head('FILES');
    const files = this.readFiles();
    this.head('LOG');
    const log = this.readLog(screens);
    const finished = this.readEnd();
    return { lines: this.lines, lanes: this.lanes, serial, screens, files, log, finished };
  }

  readSerial() {
    const block = wholeLine(`(?:(OUT) (${NAME})|(UNIT) (${NAME}) (${NUMBER}) (COMMIT|DROP|RESTART|LEFT)|(DONE) (${NAME}) (${ENDING}))`);
    const line = this.at, terminal = [], unit = [], how = [], ending = new Map();
    this.eachLine('SCREENS', text => {
      const words = block.exec(text) || this.refuse('a block of the serial order, or SCREENS, is wanted here');
      const whose = this.laneOf('terminal', words[2] || words[4] || words[8]);
      terminal.push(whose);
      unit.push(Number(words[5] || 0));
      how.push(words[3] ? words[6] : words[1] || words[7]);
      if (words[7]) ending.set(whose, words[9]);
    });
    return { line, count: how.length, terminal, unit, how, ending, entry: new Uint32Array(how.length) };
  }

  readScreens() {
    const screen = wholeLine(`SCREEN (${NAME}) (${REFRESH})`), row = /^(?:0[1-9]|1[0-9]|2[0-4])\|.{1,80}$/;
    const line = [], terminal = [], byName = new Map();
    let columns = 0;
    this.eachLine('FILES', text => {
      const words = screen.exec(text);
      if (words) {
        byName.set(`${words[1]} ${words[2]}`, line.length);
        line.push(this.at);
        terminal.push(this.laneOf('terminal', words[1]));
      } else if (!line.length || !row.test(text)) this.refuse('a screen or a row of one, or FILES, is wanted here');
      else columns = Math.max(columns, text.length - 3);
    });
    const count = line.length;
    line.push(this.at);
    return { count, line: new Uint32Array(line), terminal, byName, entry: new Uint32Array(count), columns };
  }

  readFiles() {
    const file = wholeLine(`FILE (${NAME})`), files = [];
    this.eachLine('LOG', text => {
      const words = file.exec(text);
      if (words) files.push({ name: words[1], line: this.at + 1, count: 0 });
      else if (files.length && text.startsWith('|')) files[files.length - 1].count += 1;
      else this.refuse('a file or a record of one, or LOG, is wanted here');
    });
    return files;
  }

  readLog(screens) {
    if (this.lines.at(this.at) === 'PATHWAY LOG 2') this.at += 1;
    const log = emptyLog(this.at, this.lines.count - this.at);
    for (; this.at < this.lines.count; this.at += 1) {
      const text = this.lines.at(this.at), front = `${log.count + 1} `;
      if (text === 'FINISHED' || text === 'UNFINISHED') break;
      if (!text.startsWith(front)) this.refuse(`entry ${log.count + 1} of the log, FINISHED or UNFINISHED is wanted here`);
      const entry = readEntry(text.slice(front.length)) || this.refuse('this is no entry of a log');
      this.keepEntry(log, entry, screens);
    }
    return log;
  }

  keepEntry(log, { kind, words }, screens) {
    const { place, terminal, number, look } = KINDS[kind], at = log.count;
    log.kind[at] = kind;
    log.lane[at] = this.laneOf(place, place === 'process' ? `${words[1]} ${words[2]}` : words[1]);
    log.terminal[at] = terminal ? this.laneOf('terminal', words[terminal]) : NONE;
    log.number[at] = number ? Number(words[number]) : 0;
    log.look[at] = kind === KIND.END && !ENDS_WELL.test(words[2]) ? LOOK.odd : look;
    if (kind === KIND.SHOW) this.keepShown(log, `${words[1]} ${words[2]}`, screens);
    log.count += 1;
  }

  // A screen knows the first entry that showed it, and each entry the screen that it shows, both counted from 1.
  keepShown(log, name, screens) {
    const screen = screens.byName.get(name);
    if (screen === undefined) return;
    log.screen[log.count] = screen + 1;
    if (!screens.entry[screen]) screens.entry[screen] = log.count + 1;
  }

  readEnd() {
    if (this.at >= this.lines.count) this.refuse('FINISHED or UNFINISHED is wanted here');
    const finished = this.lines.at(this.at) === 'FINISHED';
    this.at += 1;
    if (this.at < this.lines.count) this.refuse('nothing stands after the last line of a report');
    return finished;
  }
}

// A log without entries, with room for some. Its arrays have the entry n at n - 1. What `units.js` finds is here too: the
// attempt in which an entry stands and the entry that caused it, both from 1, and 0 where there is none.
function emptyLog(line, room) {
  return {
    line, count: 0,
    kind: new Uint8Array(room), look: new Uint8Array(room), lane: new Uint16Array(room), terminal: new Uint16Array(room),
    number: new Uint32Array(room), screen: new Uint32Array(room), attempt: new Uint32Array(room), cause: new Uint32Array(room),
  };
}

// What a report says, with the attempts of units. The words of an entry, a block or a screen are cut out of the text.
class Report {
  constructor(text) {
    Object.assign(this, new ReportReader(text).read());
    this.entriesOf = new Shelves(this.log.lane, this.log.count, this.lanes.all.length);
  }

  entryLine(at) { return this.lines.at(this.log.line + at - 1); }

  entryWords(at) { return readEntry(this.entryLine(at).slice(String(at).length + 1)).words; }

  // The entries with one of some looks.
  entriesWith(looks) {
    const found = [];
    for (let i = 0; i < this.log.count; i += 1) if (looks.includes(this.log.look[i])) found.push(i + 1);
    return new Uint32Array(found);
  }

  kindOf(at) { return this.log.kind[at - 1]; }

  laneName(lane) { return this.lanes.all[lane].name; }

  blockLine(block) { return this.lines.at(this.serial.line + block); }

  screenName(screen) { return this.lines.at(this.screens.line[screen]).slice('SCREEN '.length); }

  // The 24 rows of a screen.
  screenRows(screen) {
    const rows = Array(24).fill('');
    for (let line = this.screens.line[screen] + 1; line < this.screens.line[screen + 1]; line += 1) {
      const text = this.lines.at(line);
      rows[Number(text.slice(0, 2)) - 1] = text.slice(3);
    }
    return rows;
  }

  recordsOf(file) { return Array.from({ length: file.count }, (_, i) => this.lines.at(file.line + i).slice(1)); }
}

// For each of some owners the numbers, from 1, of what it owns, in order; of those alone that are kept, where `kept` says it.
class Shelves {
  constructor(owners, count, shelves, kept = null) {
    this.starts = new Uint32Array(shelves + 1);
    for (let i = 0; i < count; i += 1) if (!kept || kept[i]) this.starts[owners[i] + 1] += 1;
    for (let shelf = 0; shelf < shelves; shelf += 1) this.starts[shelf + 1] += this.starts[shelf];
    const next = this.starts.slice();
    this.numbers = new Uint32Array(this.starts[shelves]);
    for (let i = 0; i < count; i += 1) {
      if (kept && !kept[i]) continue;
      this.numbers[next[owners[i]]] = i + 1;
      next[owners[i]] += 1;
    }
  }

  of(owner) { return this.numbers.subarray(this.starts[owner], this.starts[owner + 1]); }
}

// The place of the first of some rising numbers that is not below a number.
function firstNotBelow(numbers, number) {
  let low = 0, high = numbers.length;
  while (low < high) {
    const middle = (low + high) >>> 1;
    if (numbers[middle] < number) low = middle + 1; else high = middle;
  }
  return low;
}
