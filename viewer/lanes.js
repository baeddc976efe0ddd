'use strict';
// Which terminal belongs to which pair, the groups of lanes, and the rows in which they are drawn.

const HEAD_HIGH = 32, LANE_HIGH = 32, CROWDED_HIGH = 24, CLASS_HIGH = 20, IDLE_HIGH = 15;
const CROWDED = 16;

// The pair of each terminal, by lanes; NONE where it cannot be told. The deck says it. Without a deck the log tells it as far
// as this: a terminal is copied to a new backup after a RAISE of its pair that is newer than its last copy, and takes a step
// only where it was copied since the last RAISE of its pair and since the last failure of a member.
class PairFinder {
  constructor(report, deck) {
    this.report = report;
    this.deck = deck;
    this.pairs = report.lanes.all.flatMap((lane, number) => (lane.place === 'pair' ? [number] : []));
    this.possible = report.lanes.all.map(lane => (lane.place === 'terminal' ? this.startOf(lane.name) : []));
    this.raised = new Uint32Array(report.lanes.all.length);      // the RAISE of a pair after which no member failed, or 0
    this.changed = new Uint32Array(report.lanes.all.length);     // the last RAISE or failure of a pair
    this.copied = new Uint32Array(report.lanes.all.length);
  }

  startOf(name) {
    const told = this.deck && this.deck.pairs.has(name) ? this.report.lanes.find('pair', this.deck.pairs.get(name)) : NONE;
    return told === NONE ? this.pairs : [told];
  }

  find() {
    if (this.possible.some(pairs => pairs.length > 1)) for (let at = 1; at <= this.report.log.count; at += 1) this.learn(at);
    return Uint16Array.from(this.possible, pairs => (pairs.length === 1 ? pairs[0] : NONE));
  }

  learn(at) {
    const { kind: kinds, lane: lanes } = this.report.log, kind = kinds[at - 1], lane = lanes[at - 1];
    if (kind === KIND.RAISE || kind === KIND.FAIL_TCP) {
      this.raised[lane] = kind === KIND.RAISE ? at : 0;
      this.changed[lane] = at;
    }
    if (KINDS[kind].place !== 'terminal') return;
    const isSure = this.possible[lane].length < 2, isCopy = kind === KIND.CHECK && (isSure || this.isCopy(at));
    if (isCopy) {
      this.narrow(lane, pair => this.raised[pair] > this.copied[lane]);
      this.copied[lane] = at;
    } else if (!isSure) this.learnFromStep(at, kind, lane);
  }

  isCopy(at) { return this.report.entryLine(at).endsWith(' COPY'); }

  learnFromStep(at, kind, lane) {
    if (kind === KIND.RESTART || kind === KIND.END) {
      const line = this.report.entryLine(at), taken = / TAKEOVER (\S+)$/.exec(line);
      if (taken) this.narrow(lane, pair => this.report.laneName(pair) === taken[1]);
      else if (line.endsWith(' LOST')) this.narrow(lane, pair => this.raised[pair] === 0);
    } else if (kind !== KIND.APPLIED) this.narrow(lane, pair => this.changed[pair] < this.copied[lane]);
  }

  // Where a report contradicts itself nothing is learned.
  narrow(lane, isPossible) {
    if (this.possible[lane].length < 2) return;
    const left = this.possible[lane].filter(isPossible);
    if (left.length) this.possible[lane] = left;
  }
}

// The groups of lanes: each pair with its terminals, then the terminals whose pair is not told, then each class with its
// processes. The head is the lane of the pair, or of a class's only process.
function groupsOf(report, pairOf) {
  const { all } = report.lanes, groups = new Map();
  const groupAt = (key, group) => groups.get(key) || groups.set(key, { lanes: [], head: NONE, ...group }).get(key);
  const byName = all.map((_, lane) => lane).sort((one, other) => all[one].name.localeCompare(all[other].name, 'en', { numeric: true }));
  for (const lane of byName) if (all[lane].place === 'pair') groupAt(`pair ${lane}`, { name: all[lane].name, what: 'pair', head: lane });
  for (const lane of byName) {
    if (all[lane].place !== 'terminal') continue;
    const unknown = { name: 'pair not told', what: 'terminals' };
    groupAt(pairOf[lane] === NONE ? 'unknown' : `pair ${pairOf[lane]}`, unknown).lanes.push(lane);
  }
  for (const lane of byName) {
    if (all[lane].place !== 'process') continue;
    const name = all[lane].name.split(' ')[0];
    groupAt(`class ${name}`, { name, what: 'class' }).lanes.push(lane);
  }
  for (const group of groups.values()) if (group.what === 'class' && group.lanes.length === 1) [group.head] = group.lanes.splice(0);
  return [...groups.values()];
}

// The rows from above. Each group has a head; after it stand its lanes, or nothing where the group is closed, and then the
// head shows what they do. Idle lanes beside each other are one low row.
class Rows {
  constructor(report, groups, { closed, isIdle }) {
    this.report = report;
    this.rowOf = new Int16Array(report.lanes.all.length).fill(-1);
    this.list = [];
    this.height = 0;
    const count = groups.reduce((sum, group) => sum + group.lanes.length, 0);
    this.high = count > CROWDED ? CROWDED_HIGH : LANE_HIGH;
    for (const group of groups) this.addGroup(group, closed.has(group), isIdle);
  }

  addGroup(group, isClosed, isIdle) {
    const high = group.head === NONE && !isClosed ? CLASS_HIGH : HEAD_HIGH;
    this.add({ kind: 'head', group, isClosed, name: group.name, high, lanes: isClosed ? [group.head, ...group.lanes] : [group.head] });
    if (isClosed) return;
    for (const lane of group.lanes) {
      const last = this.list[this.list.length - 1], name = this.report.laneName(lane);
      if (!isIdle(lane)) this.add({ kind: 'lane', group, name, high: this.high, lanes: [lane] });
      else if (last.kind === 'idle') this.join(last, lane);
      else this.add({ kind: 'idle', group, name, high: IDLE_HIGH, lanes: [lane] });
    }
  }

  add(row) {
    row.top = this.height;
    for (const lane of row.lanes) if (lane !== NONE) this.rowOf[lane] = this.list.length;
    this.list.push(row);
    this.height += row.high;
  }

  join(row, lane) {
    row.lanes.push(lane);
    this.rowOf[lane] = this.list.length - 1;
  }

  of(lane) { return this.list[this.rowOf[lane]]; }

  // The number of the row at a height, or of the last one above it.
  at(height) {
    let low = 0, high = this.list.length - 1;
    while (low < high) {
      const middle = (low + high + 1) >>> 1;
      if (this.list[middle].top <= height) low = middle; else high = middle - 1;
    }
    return low;
  }

  isSameAs(other) {
    return other && this.height === other.height && this.list.length === other.list.length &&
      this.list.every((row, i) => row.kind === other.list[i].kind && row.isClosed === other.list[i].isClosed &&
        row.lanes.length === other.list[i].lanes.length && row.lanes[0] === other.list[i].lanes[0]);
  }
}
