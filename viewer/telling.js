'use strict';
// Tells an entry in words, and where one can go from it.

const CHECKPOINTS = {
  START: name => `the backup is sent ${name} as it is before a unit`,
  END: name => `the backup is sent ${name} as it is after a unit`,
  COPY: name => `the new backup is sent all of ${name}`,
};
const STATUSES = { 0: 'done', 1: 'no record after the key', 10: 'there is a record of this key already', 11: 'there is no such record' };
const LOCKS = { S: ', under a shared lock', X: ', under an exclusive lock' };

// What an entry means, by its kind and the groups of its form.
const MEANINGS = {
  SHOW: ([, name, number]) => `${name} shows a screen, its refresh ${number}`,
  KEY: ([, name, number]) => `${name} takes its entry line ${number}`,
  CHECK: ([, name, what]) => CHECKPOINTS[what](name),
  APPLIED: ([, name]) => `the backup has the checkpoint of ${name}`,
  BEGIN: ([, name, unit, restarts]) => `the unit ${unit} of ${name} begins${tellRestarts(Number(restarts))}`,
  SEND: ([, name, unit, to]) => `the unit ${unit} of ${name} sends a request to the class ${to}`,
  AGAIN: ([, name, unit]) => `${name} gets the kept reply of its unit ${unit} again: the unit had ended before the takeover`,
  COMMIT: ([, name, unit]) => `the unit ${unit} of ${name} ends with its changes`,
  BACK: ([, name, unit]) => `the unit ${unit} of ${name} ends without its changes`,
  RESTART: ([, name, unit, cause]) => `the unit ${unit} of ${name} goes back to its start: ${tellCause(cause)}`,
  TAKE: ([, to, process, name]) => `process ${process} of ${to} takes the request of ${name}`,
  FILE: ([, to, process, does, mode = '', file, status]) =>
    `process ${process} of ${to} does ${does} on ${file}${LOCKS[mode.trim()] || ''}: status ${status}${STATUSES[status] ? `, ${STATUSES[status]}` : ''}`,
  REPLY: ([, to, process, name, how]) => `process ${process} of ${to} ${how === 'OK' ? 'replies to' : `has a run ${how.toLowerCase()} at the request of`} ${name}`,
  'FAIL SERVER': ([, to, process, line]) => `process ${process} of ${to} fails, by the failure line ${line}`,
  'FAIL TCP': ([, name, member, line]) => `the ${member.toLowerCase()} of the pair ${name} fails, by the failure line ${line}`,
  TAKEOVER: ([, name]) => `the backup of ${name} goes on in place of its primary`,
  RAISE: ([, name]) => `the pair ${name} gets a new backup`,
  END: ([, name, ending]) => `${name} ends: ${tellEnding(ending)}`,
};

function tellRestarts(restarts) {
  return restarts ? `, again after ${restarts} restart${restarts === 1 ? '' : 's'}` : '';
}

function tellCause(cause) {
  const [what, name, unit] = cause.split(' ');
  if (what === 'OLDER') return `a lock stands against the older unit ${unit} of ${name}`;
  if (what === 'TAKEOVER') return `the backup of ${name} took over`;
  return what === 'SERVER' ? `its process failed, by the failure line ${name}` : 'its program asks for it';
}

function tellEnding(ending) {
  const [what, ...rest] = ending.split(' ');
  if (what === 'SUSPENDED') return `suspended, since it may restart no more, and ${tellCause(rest.join(' '))}`;
  return { STOPPED: 'its program stopped', NOENTRIES: 'no entry line is left', LOST: 'its pair has lost both members' }[what] || `run fault ${rest[0]}`;
}

class Teller {
  constructor(report, deck) {
    this.report = report;
    this.deck = deck;
  }

  meaning(at) {
    const kind = KINDS[this.report.kindOf(at)], words = this.report.entryWords(at);
    const shown = this.report.log.screen[at - 1], isAgain = shown && this.report.screens.entry[shown - 1] !== at;
    const says = MEANINGS[kind.name](words);
    return `${says[0].toUpperCase()}${says.slice(1)}${isAgain ? ', which it had shown before' : ''}.`;
  }

  // What was typed at a KEY entry: the deck has the line. Without it the report tells only what the next screen shows of it.
  typed(at) {
    const { log } = this.report;
    if (this.report.kindOf(at) !== KIND.KEY) return '';
    const name = this.report.laneName(log.terminal[at - 1]), line = this.deck && this.deck.entryLine(name, log.number[at - 1]);
    if (line !== undefined && line !== null) return `typed: ${line}`;
    const next = this.shownBeside(at, 1), last = this.shownBeside(at, -1);
    if (!next) return 'The line itself stands in the deck, and no screen was shown after it.';
    const changed = this.changedRows(last, next);
    const says = changed.length ? changed.join('   ') : 'the same as before';
    return `The line itself stands in the deck. The next screen, ${this.report.screenName(next - 1)}, shows ${says}`;
  }

  // The screen, from 1, that the terminal of an entry showed next to it on one side, or 0.
  shownBeside(at, side) {
    const { log, entriesOf } = this.report, own = entriesOf.of(log.lane[at - 1]);
    for (let place = firstNotBelow(own, at) + side; place >= 0 && place < own.length; place += side) {
      const screen = log.screen[own[place] - 1];
      if (screen) return screen;
    }
    return 0;
  }

  changedRows(last, next) {
    const before = last ? this.report.screenRows(last - 1) : [];
    return this.report.screenRows(next - 1).flatMap((row, i) => (row === (before[i] || '') ? [] : [`${String(i + 1).padStart(2, '0')}|${row}`]));
  }

  // The waits of which an entry tells: for whom, to where, and on which file the lock is, as far as the log tells.
  wait(at) {
    const { waits } = this.report;
    return this.waitsAt(at).map(wait => {
      const holder = `the unit ${waits.unit[wait]} of ${this.report.laneName(waits.holder[wait])}`, files = waits.files[wait];
      const on = files.length === 1 ? `The lock is on ${files[0]}.` : files.length ? `The lock is on ${files.join(' or ')}: the log tells no more.` : 'On which file the log does not tell.';
      if (waits.look[wait] === WAIT.WAIT) return `${on} ${this.waitEnd(wait)}`;
      const process = this.report.laneName(waits.lane[wait]);
      if (waits.to[wait] === at) return `From ${waits.from[wait]} on the process ${process} may have waited for it.`;
      return `From ${waits.from[wait]} to ${waits.to[wait]} it may have waited: ${holder} had locks on ${files[0]} until then.`;
    }).join(' ');
  }

  // Until when a unit waits for an older one: to the end of that, or to its own terminal's, or it waits still.
  waitEnd(wait) {
    const { waits, log } = this.report, to = waits.to[wait], kind = this.report.kindOf(to), isLast = [KIND.COMMIT, KIND.BACK, KIND.REPLY, KIND.END].includes(kind);
    if (kind === KIND.END && log.lane[to - 1] === waits.lane[wait]) return `It waits until its terminal ends, at ${to}.`;
    if (kind === KIND.FAIL_TCP || (isLast && log.terminal[to - 1] === waits.holder[wait])) return `It waits until that unit has ended, at ${to}.`;
    return 'It still waits where the log ends.';
  }

  waitsAt(at) {
    const { waits } = this.report, first = firstNotBelow(waits.entry, at);
    let end = first;
    while (waits.entry[end] === at) end += 1;
    return Array.from({ length: end - first }, (_, i) => first + i);
  }

  // In which attempt an entry stands, and for whom a process is at work.
  place(at) {
    const { log, attempts } = this.report, attempt = log.attempt[at - 1];
    if (!attempt) return '';
    const name = this.report.laneName(attempts.terminal[attempt - 1]), outcome = OUTCOMES[attempts.how[attempt - 1]];
    return `In unit ${attempts.unit[attempt - 1]} of ${name}, entries ${attempts.from[attempt - 1]} to ${attempts.to[attempt - 1]}: ${outcome.says}.`;
  }

  // The entries and screens that one can go to from an entry, with what each is.
  ways(at) {
    const { log, attempts } = this.report, attempt = log.attempt[at - 1], ways = [];
    const add = (entry, says) => { if (entry && entry !== at) ways.push({ entry, says: `${says} (${entry})` }); };
    if (log.screen[at - 1]) ways.push({ screen: log.screen[at - 1] - 1, says: 'its screen' });
    if (this.report.kindOf(at) === KIND.KEY && this.shownBeside(at, 1)) ways.push({ screen: this.shownBeside(at, 1) - 1, says: 'the next screen' });
    add(log.cause[at - 1], this.causeName(log.cause[at - 1]));
    for (const wait of this.waitsAt(at)) add(this.report.waits.to[wait], 'where the wait ends');
    if (attempt) {
      add(attempts.from[attempt - 1], 'where the attempt begins');
      add(attempts.to[attempt - 1], 'where it ends');
      add(this.nextAttempt(attempt), 'the next attempt');
    }
    return ways;
  }

  causeName(cause) {
    if (!cause || this.report.kindOf(cause) === KIND.FAIL_SERVER) return 'the failure';
    if (this.report.kindOf(cause) === KIND.TAKEOVER) return 'the takeover';
    return `the older unit ${this.report.log.number[cause - 1]} of ${this.report.laneName(this.report.log.terminal[cause - 1])}`;
  }

  // The beginning of the same unit's next attempt, or 0.
  nextAttempt(attempt) {
    const { attempts } = this.report, own = attempts.of.of(attempts.terminal[attempt - 1]), next = own[firstNotBelow(own, attempt) + 1];
    return next && attempts.unit[next - 1] === attempts.unit[attempt - 1] ? attempts.from[next - 1] : 0;
  }
}
