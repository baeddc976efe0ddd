'use strict';
// Follows the log once, and finds what no single line tells: the attempts of units and what became of them, for whom a
// process works, which entry gave a block of the serial order, and what made a unit go back to its start.

class Walk {
  constructor(report, pairOf) {
    const lanes = report.lanes.all.length;
    this.report = report;
    this.log = report.log;
    this.pairOf = pairOf;
    this.attempts = { terminal: [], unit: [], restarts: [], from: [], to: [], how: [] };
    this.running = new Uint32Array(lanes);                 // the attempt that a terminal is in, or 0
    this.served = new Uint16Array(lanes).fill(NONE);       // the terminal that a process works for
    this.lastKey = new Uint32Array(lanes);                 // the last entry line that a terminal took outside units
    this.lastTakeover = new Uint32Array(lanes);
    this.failedServer = new Map();                         // the entry of a failure line
    this.block = 0;
    this.committed = this.committedUnits();
    this.lastFailure = this.lastFailures();
  }

  // The units that have a COMMIT entry. One that is committed without one is a single SEND.
  committedUnits() {
    const units = new Set();
    for (let i = 0; i < this.log.count; i += 1) {
      if (this.log.kind[i] === KIND.COMMIT) units.add(unitKey(this.log.terminal[i], this.log.number[i]));
    }
    return units;
  }

  // The last FAIL TCP entry of each pair: the one that lost the pair, where it was lost.
  lastFailures() {
    const last = new Uint32Array(this.report.lanes.all.length);
    for (let i = 0; i < this.log.count; i += 1) if (this.log.kind[i] === KIND.FAIL_TCP) last[this.log.lane[i]] = i + 1;
    return last;
  }

  follow() {
    for (let at = 1; at <= this.log.count; at += 1) this.followEntry(at);
    this.leaveAll();
    const { terminal, unit, restarts, from, to, how } = this.attempts;
    return {
      count: from.length, terminal: new Uint16Array(terminal), unit: new Uint32Array(unit), restarts: new Uint32Array(restarts),
      from: new Uint32Array(from), to: new Uint32Array(to), how: new Uint8Array(how),
      of: new Shelves(terminal, from.length, this.report.lanes.all.length),
    };
  }

  followEntry(at) {
    const kind = this.log.kind[at - 1];
    if (KINDS[kind].place === 'process') this.serve(at, kind);
    if (kind === KIND.BEGIN) this.begin(at);
    const terminal = this.log.terminal[at - 1];
    const attempt = terminal === NONE ? 0 : this.running[terminal];
    this.log.attempt[at - 1] = attempt;
    if (kind === KIND.RESTART || this.log.look[at - 1] === LOOK.odd) this.log.cause[at - 1] = this.causeOf(at);
    this.giveBlocks(at, kind, terminal, attempt);
    if (kind === KIND.TAKEOVER) this.lastTakeover[this.log.lane[at - 1]] = at;
  }

  // FILE and FAIL SERVER do not name a terminal: it is the one whose request the process took last.
  serve(at, kind) {
    const lane = this.log.lane[at - 1];
    if (kind === KIND.TAKE) this.served[lane] = this.log.terminal[at - 1];
    if (kind === KIND.FILE || kind === KIND.FAIL_SERVER) this.log.terminal[at - 1] = this.served[lane];
    if (kind === KIND.FAIL_SERVER) this.failedServer.set(this.log.number[at - 1], at);
    if (kind === KIND.REPLY || kind === KIND.FAIL_SERVER) this.served[lane] = NONE;
  }

  begin(at) {
    const terminal = this.log.terminal[at - 1], { attempts } = this;
    attempts.terminal.push(terminal);
    attempts.unit.push(this.log.number[at - 1]);
    attempts.restarts.push(Number(this.report.entryWords(at)[3]));
    attempts.how.push(OUTCOME.RUNS);
    attempts.to.push(this.log.count);
    this.running[terminal] = attempts.from.push(at);
  }

  // Ends an attempt, and gives its block. An outcome that the serial order tells in another place gives none.
  end(at, attempt, how) {
    const terminal = this.attempts.terminal[attempt - 1];
    this.attempts.how[attempt - 1] = OUTCOME[how];
    this.attempts.to[attempt - 1] = at;
    this.running[terminal] = 0;
    this.take(at, terminal, this.attempts.unit[attempt - 1], how);
    // Where a unit goes back or is left, its request is taken from the process that was at work for it.
    if (how === 'RESTART' || how === 'LEFT') this.served.forEach((served, lane) => { if (served === terminal) this.served[lane] = NONE; });
  }

  // The entry gave the next block of the serial order, where that is this one.
  take(at, terminal, unit, how) {
    const { serial } = this.report, next = this.block;
    if (serial.terminal[next] !== terminal || serial.unit[next] !== unit || serial.how[next] !== how) return;
    serial.entry[next] = at;
    this.block += 1;
  }

  giveBlocks(at, kind, terminal, attempt) {
    if (kind === KIND.FAIL_TCP) this.leavePair(at);
    else if (kind === KIND.END) {
      if (attempt) this.end(at, attempt, 'LEFT');
      this.take(at, terminal, 0, 'DONE');
    } else if (attempt) {
      if (kind === KIND.COMMIT) this.end(at, attempt, 'COMMIT');
      else if (kind === KIND.BACK) this.end(at, attempt, 'DROP');
      else if (kind === KIND.RESTART) this.end(at, attempt, 'RESTART');
      else if (kind === KIND.REPLY && this.isOneSend(at, attempt)) this.end(at, attempt, 'COMMIT');
    } else if (this.isNewOutside(at, kind, terminal)) this.take(at, terminal, 0, 'OUT');
  }

  // A unit that is one SEND is committed by its reply.
  isOneSend(at, attempt) {
    const unit = this.attempts.unit[attempt - 1], terminal = this.attempts.terminal[attempt - 1], { serial } = this.report;
    return this.report.entryLine(at).endsWith(' OK') && !this.committed.has(unitKey(terminal, unit)) &&
      serial.terminal[this.block] === terminal && serial.unit[this.block] === unit && serial.how[this.block] === 'COMMIT';
  }

  // Behind a takeover screens are shown and entries are taken again; only the first time gives a block.
  isNewOutside(at, kind, terminal) {
    const screen = this.log.screen[at - 1], number = this.log.number[at - 1];
    if (kind === KIND.SHOW) return screen === 0 || this.report.screens.entry[screen - 1] === at;
    if (kind !== KIND.KEY || number <= this.lastKey[terminal]) return false;
    this.lastKey[terminal] = number;
    return true;
  }

  // The failure that loses a pair leaves the units of its terminals, whose END LOST follows.
  leavePair(at) {
    const { serial } = this.report, pair = this.log.lane[at - 1];
    if (this.lastFailure[pair] !== at) return;
    while (serial.how[this.block] === 'LEFT') {
      const terminal = serial.terminal[this.block], attempt = this.running[terminal];
      const isLost = serial.ending.get(terminal) === 'LOST' && (this.pairOf[terminal] === pair || this.pairOf[terminal] === NONE);
      if (!isLost || !attempt || this.attempts.unit[attempt - 1] !== serial.unit[this.block]) return;
      this.end(at, attempt, 'LEFT');
    }
  }

  // What still runs at the end of the log is left, in the order of the serial order's last blocks.
  leaveAll() {
    const { serial } = this.report;
    while (serial.how[this.block] === 'LEFT') {
      const attempt = this.running[serial.terminal[this.block]];
      if (!attempt) return;
      this.end(this.log.count, attempt, 'LEFT');
    }
  }

  // The entry to which the cause of a RESTART or of a suspension leads: the BEGIN of the older unit's attempt, the takeover,
  // or the failure of the process.
  causeOf(at) {
    const parts = CAUSE_PARTS.exec(this.report.entryLine(at));
    if (!parts) return 0;
    if (parts[1]) return this.beginningOf(this.report.lanes.find('terminal', parts[1]), Number(parts[2]));
    if (parts[3]) return this.takeoverOf(this.report.lanes.find('pair', parts[3]));
    return this.failedServer.get(Number(parts[4])) || 0;
  }

  beginningOf(terminal, unit) {
    const attempt = terminal === NONE ? 0 : this.running[terminal];
    return attempt && this.attempts.unit[attempt - 1] === unit ? this.attempts.from[attempt - 1] : 0;
  }

  takeoverOf(pair) { return pair === NONE ? 0 : this.lastTakeover[pair]; }
}

function unitKey(terminal, unit) { return terminal * 2 ** 32 + unit; }

// Of a lane's attempts or waits, whose ends rise, the first that ends at an entry or after it, as a place among them.
function firstBehind(ends, own, at) {
  let low = 0, high = own.length;
  while (low < high) {
    const middle = (low + high) >>> 1;
    if (ends[own[middle] - 1] < at) low = middle + 1; else high = middle;
  }
  return low;
}
