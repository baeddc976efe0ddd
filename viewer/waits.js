'use strict';
// The waits for a lock. A unit that goes back for an older one begins again only after that has ended: this wait the log tells,
// with its holder, and of the file as much as follows from what both had locked. That a process has waited before an operation
// no entry tells: it may have, where a lock of another unit on the file went in between, since the log has no keys.

// Of each wait: its lane, the entries between which it is, the entry that tells of it, its look, the holder's terminal and unit,
// and the files on which the lock may be.
class WaitFinder {
  constructor(report) {
    const lanes = report.lanes.all.length;
    this.report = report;
    this.log = report.log;
    this.waits = { lane: [], from: [], to: [], entry: [], look: [], holder: [], unit: [], files: [] };
    this.held = Array.from({ length: lanes }, () => new Map());        // the files that a terminal's unit has locked
    this.processOf = new Uint16Array(lanes).fill(NONE);                // the process at work for a terminal
    this.lastStep = new Uint32Array(lanes);                            // the last entry of a process
    this.released = new Map();                                         // of each file the locks that went, in order
    this.asked = new Map();                                            // of a terminal the waits that its next operation tells of
    this.lastOf = this.lastEntries();
  }

  // The END of each terminal, or the end of the log.
  lastEntries() {
    const last = new Uint32Array(this.report.lanes.all.length).fill(this.log.count);
    for (let i = 0; i < this.log.count; i += 1) if (this.log.kind[i] === KIND.END) last[this.log.lane[i]] = i + 1;
    return last;
  }

  find() {
    const { to, terminal, unit } = this.report.attempts, ends = Array.from(to, (_, i) => i).sort((one, other) => to[one] - to[other]);
    let next = 0;
    for (let at = 1; at <= this.log.count; at += 1) {
      this.follow(at);
      for (; next < ends.length && to[ends[next]] === at; next += 1) this.release(at, terminal[ends[next]], unit[ends[next]]);
    }
    const { waits } = this;
    return {
      ...waits, count: waits.from.length, from: new Uint32Array(waits.from), to: new Uint32Array(waits.to),
      of: new Shelves(waits.lane, waits.from.length, this.report.lanes.all.length),
    };
  }

  follow(at) {
    const kind = this.log.kind[at - 1], lane = this.log.lane[at - 1], terminal = this.log.terminal[at - 1];
    if (kind === KIND.FILE && terminal !== NONE) this.operate(at, lane, terminal);
    else if (kind === KIND.RESTART && this.log.cause[at - 1] && this.report.kindOf(this.log.cause[at - 1]) === KIND.BEGIN) this.restart(at, terminal);
    else if (kind === KIND.TAKE) this.processOf[terminal] = lane;
    else if ((kind === KIND.REPLY || kind === KIND.FAIL_SERVER) && terminal !== NONE) {
      if (kind === KIND.REPLY) this.narrow(terminal, null, '');
      this.processOf[terminal] = NONE;
    }
    if (KINDS[kind].place === 'process') this.lastStep[lane] = at;
  }

  operate(at, process, terminal) {
    const words = this.report.entryWords(at), mode = (words[4] || ' X').trim(), file = words[5], from = this.lastStep[process];
    this.narrow(terminal, file, mode);
    const gone = this.released.get(file) || [];
    for (let i = gone.length - 1; i >= 0 && gone[i].at > from; i -= 1) {
      if (gone[i].terminal === terminal || !excludes(mode, gone[i].mode)) continue;
      if (from) this.add(process, from, gone[i].at, at, WAIT.MAYBE, gone[i].terminal, gone[i].unit, [file]);
      break;
    }
    const held = this.held[terminal];
    if (held.get(file) !== 'X') held.set(file, mode);
  }

  release(at, terminal, unit) {
    for (const [file, mode] of this.held[terminal]) {
      if (!this.released.has(file)) this.released.set(file, []);
      this.released.get(file).push({ at, terminal, unit, mode });
    }
    this.held[terminal].clear();
    this.processOf[terminal] = NONE;
    this.asked.delete(terminal);
  }

  // A unit goes back for an older one: the next operation of the one meets a lock of the other, and which is which the log tells
  // only where one of them has no process at work. What the older one's operation is its next FILE entry tells.
  restart(at, terminal) {
    const { attempts } = this.report, attempt = this.log.attempt[this.log.cause[at - 1] - 1], older = attempts.terminal[attempt - 1];
    const own = [...this.held[terminal]], process = this.processOf[terminal];
    const files = process === NONE ? [] : [...this.held[older].keys()];
    const mayAsk = this.processOf[older] !== NONE;
    const wait = this.add(terminal, at, Math.min(this.endOf(attempt), this.lastOf[terminal]), at, WAIT.WAIT, older, attempts.unit[attempt - 1],
      [...new Set([...files, ...(mayAsk ? own.map(([file]) => file) : [])])]);
    if (mayAsk) this.asked.set(older, [...(this.asked.get(older) || []), { wait, files, own }]);
    if (process !== NONE && files.length) this.add(process, this.lastStep[process], at, at, WAIT.MAYBE, older, attempts.unit[attempt - 1], files);
  }

  // The next operation of an older unit is known now, or that there is none: so on which files it can have met a younger one.
  narrow(older, file, mode) {
    for (const { wait, files, own } of this.asked.get(older) || []) {
      const met = own.filter(([name, held]) => name === file && excludes(mode, held)).map(([name]) => name);
      this.waits.files[wait] = [...new Set([...files, ...met])];
    }
    this.asked.delete(older);
  }

  // The entry at which the unit of an attempt ends: with its last attempt, or with its terminal, or with the log.
  endOf(attempt) {
    const { attempts } = this.report, own = attempts.of.of(attempts.terminal[attempt - 1]);
    let place = firstNotBelow(own, attempt);
    while (place + 1 < own.length && attempts.unit[own[place + 1] - 1] === attempts.unit[attempt - 1]) place += 1;
    const last = own[place] - 1;
    return attempts.how[last] === OUTCOME.RESTART ? this.lastOf[attempts.terminal[last]] : attempts.to[last];
  }

  add(lane, from, to, entry, look, holder, unit, files) {
    const { waits } = this;
    waits.lane.push(lane);
    waits.to.push(to);
    waits.entry.push(entry);
    waits.look.push(look);
    waits.holder.push(holder);
    waits.unit.push(unit);
    waits.files.push(files);
    return waits.from.push(from) - 1;
  }
}

function excludes(one, other) { return one !== 'S' || other !== 'S'; }

// Who holds the lock of a wait, and on what, as it is written in its bar.
function waitLabel(report, wait) {
  const { holder, unit, files } = report.waits;
  return `${report.laneName(holder[wait])} ${unit[wait]}${files[wait].length ? `: ${files[wait].join(' or ')}` : ''}`;
}
