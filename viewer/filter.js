'use strict';
// The filter: `T3`, `T3 2` for its unit 2, a pair for all its terminals, a class, or several of them with commas between.

// What a filter names: terminals, each with the number of a unit or 0, and lanes besides; or the part that the report does not
// have.
function readFilter(text, report, pairOf) {
  const parts = [];
  for (const part of text.toUpperCase().split(',').map(words => words.trim()).filter(words => words !== '')) {
    const [name, unit = '0', ...more] = part.split(/ +/), named = lanesNamed(name, report, pairOf);
    const isUnit = /^[0-9]+$/.test(unit) && (unit === '0' || named.isTerminal);
    if (!named.parts.length || !isUnit || more.length) return { parts: [], unknown: part };
    parts.push(...named.parts.map(one => ({ ...one, unit: Number(unit) })));
  }
  return { parts, unknown: '' };
}

// A terminal goes before a pair of the same name, and a pair before a class.
function lanesNamed(name, report, pairOf) {
  const { lanes } = report, terminal = lanes.find('terminal', name), pair = lanes.find('pair', name);
  if (terminal !== NONE) return { isTerminal: true, parts: [{ terminal, lane: pairOf[terminal] }] };
  if (pair !== NONE) {
    const own = lanes.all.flatMap((lane, number) => (lane.place === 'terminal' && pairOf[number] === pair ? [number] : []));
    return { parts: [{ terminal: NONE, lane: pair }, ...own.map(one => ({ terminal: one, lane: pair }))] };
  }
  const processes = lanes.all.flatMap((lane, number) => (lane.place === 'process' && lane.name.split(' ')[0] === name ? [number] : []));
  return { parts: processes.map(lane => ({ terminal: NONE, lane })) };
}

// Which entries a filter keeps, by a 1 for each, or null for all: those of the terminal's lane and of the processes while
// they work for it, in the attempts of the unit where one is named; and without a unit those of the terminal's pair too.
function keptBy(parts, report) {
  if (!parts.length) return null;
  const { log, attempts } = report, keep = new Uint8Array(log.count), units = new Set();
  const terminals = new Uint8Array(NONE + 1), lanes = new Uint8Array(NONE + 1);
  for (const { terminal, unit, lane } of parts) {
    if (unit) units.add(unitKey(terminal, unit));
    else terminals[terminal] = lanes[lane] = 1;
  }
  terminals[NONE] = 0;
  for (let i = 0; i < log.count; i += 1) {
    const attempt = log.attempt[i], isOfUnit = units.size > 0 && attempt > 0 && units.has(unitKey(log.terminal[i], attempts.unit[attempt - 1]));
    if (isOfUnit || terminals[log.terminal[i]] || lanes[log.lane[i]]) keep[i] = 1;
  }
  return keep;
}

// The parts of a filter of which the run has no entry, in words.
function missingParts(parts, report) {
  const { attempts, entriesOf } = report;
  return parts.flatMap(({ terminal, unit }) => {
    if (terminal === NONE) return [];
    const name = report.laneName(terminal), own = attempts.of.of(terminal);
    if (unit) return own.some(attempt => attempts.unit[attempt - 1] === unit) ? [] : [`${name} has no unit ${unit}`];
    return entriesOf.of(terminal).length ? [] : [`${name} has no entry`];
  });
}

// The numbers below a count that are kept.
function keptNumbers(count, isKept) {
  const kept = [];
  for (let i = 0; i < count; i += 1) if (isKept(i)) kept.push(i);
  return new Uint32Array(kept);
}
