'use strict';
// The kinds of log entry: how a line of each is spelled, in whose lane it stands, and how it looks.

const NAME = '[A-Z][A-Z0-9-]{0,29}';
const NUMBER = '(?:0|[1-9][0-9]{0,9})';
const REFRESH = `${NUMBER}\\.${NUMBER}\\.${NUMBER}`;
const CAUSE = `(?:OLDER ${NAME} ${NUMBER}|TAKEOVER ${NAME}|SERVER ${NUMBER}|REDO)`;
const ENDING = `(?:STOPPED|NOENTRIES|FAULT ${NUMBER}|SUSPENDED ${CAUSE}|LOST)`;
const wholeLine = form => new RegExp(`^${form}$`);

// The colours are those of Okabe and Ito, which differ for colour-blind readers too, one of them darker, and greys; and no two
// looks have one shape. Where an entry has less than a few pixels it is a tick: `tall` is how much of the lane it takes, and of
// several entries at one pixel the one is drawn that stands furthest down in this list.
const LOOKS = [
  { name: 'check', colour: '#97a3b0', shape: 'dot', tall: 0.25, says: 'checkpoint' },
  { name: 'server', colour: '#5b6b7c', shape: 'brick', tall: 0.4, says: 'server at work' },
  { name: 'unit', colour: '#009e73', shape: 'right', tall: 0.5, says: 'unit begins, sends' },
  { name: 'raise', colour: '#5b6b7c', shape: 'plus', tall: 0.5, says: 'backup raised' },
  { name: 'key', colour: '#56b4e9', shape: 'up', tall: 0.6, says: 'entry keyed in' },
  { name: 'show', colour: '#0072b2', shape: 'screen', tall: 0.6, says: 'screen shown' },
  { name: 'commit', colour: '#009e73', shape: 'disc', tall: 0.75, says: 'committed' },
  { name: 'drop', colour: '#1d2733', shape: 'minus', tall: 0.75, says: 'backed out' },
  { name: 'restart', colour: '#e69f00', shape: 'left', tall: 0.85, says: 'restarted' },
  { name: 'end', colour: '#1d2733', shape: 'post', tall: 1, says: 'terminal ends well' },
  { name: 'odd', colour: '#d55e00', shape: 'hexagon', tall: 1, says: 'terminal ends otherwise' },
  { name: 'takeover', colour: '#b65a92', shape: 'diamond', tall: 1, says: 'takeover' },
  { name: 'fail', colour: '#d55e00', shape: 'cross', tall: 1, says: 'failure' },
];
const LOOK = Object.fromEntries(LOOKS.map((look, index) => [look.name, index]));

// What became of an attempt of a unit, and how its bar is filled; the pattern tells it without the colour.
const OUTCOMES = [
  { name: 'COMMIT', colour: '#009e73', pattern: 'plain', says: 'unit committed' },
  { name: 'DROP', colour: '#5b6b7c', pattern: 'level', says: 'unit backed out' },
  { name: 'RESTART', colour: '#e69f00', pattern: 'rising', says: 'attempt restarted' },
  { name: 'LEFT', colour: '#d55e00', pattern: 'crossed', says: 'unit left open' },
  { name: 'RUNS', colour: '#97a3b0', pattern: 'dotted', says: 'unit still runs' },
];
// A wait for a lock: one that the log tells, and one that may have been.
const WAITS = [
  { name: 'WAIT', colour: '#8a5a00', pattern: 'falling', pale: 0.3, says: 'waits for an older unit' },
  { name: 'MAYBE', colour: '#7a3f9d', pattern: 'spotted', pale: 0.4, says: 'may have waited for a lock' },
];
const WAIT = Object.fromEntries(WAITS.map((wait, index) => [wait.name, index]));

const OUTCOME = Object.fromEntries(OUTCOMES.map((outcome, index) => [outcome.name, index]));

// `place` says whose lane it is: that of a terminal, of a pair, or of a process, which is a class and a number. `number` is
// the group of the form with the number that the entry tells (a unit, an entry line, a failure line), and `terminal` the
// group with the terminal that it is about; 0 where there is none.
const KINDS = [
  { name: 'SHOW', place: 'terminal', form: `SHOW (${NAME}) (${REFRESH})`, terminal: 1, number: 0, look: LOOK.show },
  { name: 'KEY', place: 'terminal', form: `KEY (${NAME}) (${NUMBER})`, terminal: 1, number: 2, look: LOOK.key },
  { name: 'CHECK', place: 'terminal', form: `CHECK (${NAME}) (START|END|COPY)`, terminal: 1, number: 0, look: LOOK.check },
  { name: 'APPLIED', place: 'terminal', form: `APPLIED (${NAME})`, terminal: 1, number: 0, look: LOOK.check },
  { name: 'BEGIN', place: 'terminal', form: `BEGIN (${NAME}) (${NUMBER}) (${NUMBER})`, terminal: 1, number: 2, look: LOOK.unit },
  { name: 'SEND', place: 'terminal', form: `SEND (${NAME}) (${NUMBER}) (${NAME})`, terminal: 1, number: 2, look: LOOK.unit },
  { name: 'AGAIN', place: 'terminal', form: `AGAIN (${NAME}) (${NUMBER})`, terminal: 1, number: 2, look: LOOK.unit },
  { name: 'COMMIT', place: 'terminal', form: `COMMIT (${NAME}) (${NUMBER})`, terminal: 1, number: 2, look: LOOK.commit },
  { name: 'BACK', place: 'terminal', form: `BACK (${NAME}) (${NUMBER})`, terminal: 1, number: 2, look: LOOK.drop },
  { name: 'RESTART', place: 'terminal', form: `RESTART (${NAME}) (${NUMBER}) (${CAUSE})`, terminal: 1, number: 2, look: LOOK.restart },
  { name: 'END', place: 'terminal', form: `END (${NAME}) (${ENDING})`, terminal: 1, number: 0, look: LOOK.end },
  { name: 'TAKE', place: 'process', form: `TAKE (${NAME}) (${NUMBER}) (${NAME})`, terminal: 3, number: 0, look: LOOK.server },
  { name: 'FILE', place: 'process', form: `FILE (${NAME}) (${NUMBER}) (READ|NEXT|WRITE|REWRITE|DELETE)( [SX])? (${NAME}) (${NUMBER})`, terminal: 0, number: 6, look: LOOK.server },
  { name: 'REPLY', place: 'process', form: `REPLY (${NAME}) (${NUMBER}) (${NAME}) (OK|FAULT ${NUMBER})`, terminal: 3, number: 0, look: LOOK.server },
  { name: 'FAIL SERVER', place: 'process', form: `FAIL SERVER (${NAME}) (${NUMBER}) (${NUMBER})`, terminal: 0, number: 3, look: LOOK.fail },
  { name: 'FAIL TCP', place: 'pair', form: `FAIL TCP (${NAME}) (PRIMARY|BACKUP) (${NUMBER})`, terminal: 0, number: 3, look: LOOK.fail },
  { name: 'TAKEOVER', place: 'pair', form: `TAKEOVER (${NAME})`, terminal: 0, number: 0, look: LOOK.takeover },
  { name: 'RAISE', place: 'pair', form: `RAISE (${NAME})`, terminal: 0, number: 0, look: LOOK.raise },
];
KINDS.forEach(kind => { kind.form = wholeLine(kind.form); });
const KIND = Object.fromEntries(KINDS.map((kind, index) => [kind.name.replace(' ', '_'), index]));
const KIND_BY_WORD = new Map(KINDS.map((kind, index) => [kind.name, index]));

// An ending that the statuses of `pathway` count as one that went well.
const ENDS_WELL = /^(?:STOPPED|NOENTRIES)$/;

// The kind of an entry's words and what its form's groups have, or null where they are no entry.
function readEntry(text) {
  let word = text.slice(0, text.indexOf(' '));
  if (word === 'FAIL') word = text.startsWith('FAIL TCP') ? 'FAIL TCP' : 'FAIL SERVER';
  const kind = KIND_BY_WORD.get(word);
  const words = kind === undefined ? null : KINDS[kind].form.exec(text);
  return words && { kind, words };
}

// What a cause of a restart names: an older unit, a takeover's pair or a failure line.
const CAUSE_PARTS = new RegExp(`(?:OLDER (${NAME}) (${NUMBER})|TAKEOVER (${NAME})|SERVER (${NUMBER}))$`);
