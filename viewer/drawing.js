'use strict';
// Paints what is in view of a timeline: rows, bars of attempts, entries, lines of failures, arrows and the ruler.

const RULER_HIGH = 24;
const SHAPED = 5;          // from so many pixels an entry on, entries are shapes; below they are ticks
const SMALLEST = 3;        // half of a shape's height at least
const NARROW = 4;          // a bar of fewer pixels has no edges and no pattern
const BESIDE = 7;          // how far from the middle of an entry an arrow begins or ends
const RULER_GAP = 80;
const LINE_LOOKS = { [LOOK.fail]: [], [LOOK.takeover]: [6, 4] };

class Drawing {
  constructor(canvas) {
    this.canvas = canvas;
    this.pen = canvas.getContext('2d');
  }

  // A view has the report, its rows, the pixels an entry, how far it is scrolled (left, top), its size (wide, high), the
  // chosen entry, the entries that are kept by the filter (or null for all), and those with a line through all lanes.
  draw(view) {
    this.view = view;
    this.first = Math.max(1, Math.floor(view.left / view.pixels) + 1);
    this.last = Math.min(view.report.log.count, Math.ceil((view.left + view.wide) / view.pixels));
    this.fit();
    this.drawRuler();
    this.pen.save();
    this.pen.beginPath();
    this.pen.rect(0, RULER_HIGH, view.wide, view.high - RULER_HIGH);
    this.pen.clip();
    this.pen.translate(0, RULER_HIGH - view.top);
    this.drawRows();
    this.drawFound();
    this.drawBars();
    this.drawLines();
    this.drawArrows();
    if (view.pixels >= SHAPED) this.drawShapes(); else this.drawTicks();
    this.drawChosen();
    this.pen.restore();
  }

  fit() {
    const { wide, high } = this.view, ratio = window.devicePixelRatio || 1;
    if (this.canvas.width !== Math.round(wide * ratio) || this.canvas.height !== Math.round(high * ratio)) {
      this.canvas.width = Math.round(wide * ratio);
      this.canvas.height = Math.round(high * ratio);
      this.canvas.style.width = `${wide}px`;
      this.canvas.style.height = `${high}px`;
    }
    this.pen.setTransform(ratio, 0, 0, ratio, 0, 0);
    this.pen.fillStyle = '#ffffff';
    this.pen.fillRect(0, 0, wide, high);
  }

  // The left end of an entry's column.
  leftOf(at) { return (at - 1) * this.view.pixels - this.view.left; }

  middleOf(at) { return this.leftOf(at) + this.view.pixels / 2; }

  isKept(at) { return !this.view.keep || this.view.keep[at - 1] === 1; }

  rowsInView() {
    const { rows, top, high } = this.view;
    return rows.list.slice(rows.at(top), rows.at(top + high - RULER_HIGH) + 1);
  }

  drawRuler() {
    const step = niceStep(RULER_GAP / this.view.pixels);
    this.pen.fillStyle = '#5d6b7a';
    this.pen.font = '11px system-ui, sans-serif';
    this.pen.textAlign = 'center';
    for (let at = Math.max(step, Math.ceil(this.first / step) * step); at <= this.last; at += step) {
      const x = this.middleOf(at), half = this.pen.measureText(String(at)).width / 2;
      this.pen.fillText(String(at), Math.max(half + 2, Math.min(x, this.view.wide - half - 2)), 14);
      this.pen.fillRect(Math.floor(x), RULER_HIGH - 5, 1, 5);
    }
    this.pen.textAlign = 'left';
    this.drawFoundMarks();
  }

  // In the ruler a triangle stands at each entry that was found.
  drawFoundMarks() {
    const { found } = this.view;
    this.pen.fillStyle = FOUND;
    for (let i = firstNotBelow(found, this.first), last = -9; i < found.length && found[i] <= this.last; i += 1) {
      const x = this.middleOf(found[i]);
      if (x - last < 2) continue;
      last = x;
      this.pen.beginPath();
      for (const [right, down] of [[-4, -8], [4, -8], [0, -1]]) this.pen.lineTo(x + right, RULER_HIGH + down);
      this.pen.fill();
    }
  }

  drawRows() {
    for (const row of this.rowsInView()) {
      this.pen.fillStyle = row.kind === 'head' ? '#e8eef4' : row.kind === 'idle' ? '#fafbfc' : '#ffffff';
      this.pen.fillRect(0, row.top, this.view.wide, row.high);
      this.pen.fillStyle = '#e3e8ee';
      this.pen.fillRect(0, row.top + row.high - 1, this.view.wide, 1);
    }
  }

  drawBars() {
    const { attempts, waits } = this.view.report;
    for (const row of this.rowsInView()) for (const lane of row.lanes) if (lane !== NONE) {
      this.drawLaneBars(row, attempts.of.of(lane));
      this.drawWaits(row, waits.of.of(lane));
    }
  }

  // The waits of a lane: a bar with the holder and the file where there is room, lower than that of an attempt.
  drawWaits(row, own) {
    const { report } = this.view, { waits } = report;
    for (let i = firstBehind(waits.to, own, this.first); i < own.length; i += 1) {
      const wait = own[i] - 1, left = Math.max(this.leftOf(waits.from[wait]) + this.view.pixels, -9);
      if (waits.from[wait] > this.last) break;
      const wide = Math.min(this.leftOf(waits.to[wait] + 1), this.view.wide + 9) - left;
      if (wide <= 0 || !this.isKept(waits.entry[wait])) continue;
      const look = WAITS[waits.look[wait]], high = Math.round(row.high * 0.45), top = row.top + 2;
      if (wide < NARROW) paintThinBar(this.pen, look, left, top, Math.max(1, wide), high);
      else paintBar(this.pen, look, left, top, wide, high);
      if (row.kind === 'lane' || !row.isClosed) this.writeIn(waitLabel(report, wait), report.laneName(waits.holder[wait]), Math.max(left, 0), wide + Math.min(left, 0), row);
    }
  }

  // A text in a bar, or a shorter one, or none, as there is room.
  writeIn(whole, short, left, wide, row) {
    this.pen.font = `600 ${row.high < LANE_HIGH ? 9 : 10}px system-ui, sans-serif`;
    const text = this.pen.measureText(whole).width + 8 <= wide ? whole : short;
    if (this.pen.measureText(text).width + 6 > wide) return;
    this.pen.fillStyle = '#1d2733';
    this.pen.fillText(text, left + 4, row.top + (row.high < LANE_HIGH ? 11 : 13));
  }

  // The columns of what the search has found.
  drawFound() {
    const { found, rows } = this.view, wide = Math.max(2, this.view.pixels);
    this.pen.fillStyle = FOUND_GROUND;
    for (let i = firstNotBelow(found, this.first); i < found.length && found[i] <= this.last; i += 1) {
      this.pen.fillRect(this.middleOf(found[i]) - wide / 2, 0, wide, rows.height);
    }
  }

  // A bar of a few pixels is only a colour in its columns, and such columns are painted together.
  drawLaneBars(row, own) {
    const { attempts } = this.view.report, columns = new Uint8Array(Math.ceil(this.view.wide) + 1);
    for (let i = firstBehind(attempts.to, own, this.first); i < own.length; i += 1) {
      const attempt = own[i] - 1, from = attempts.from[attempt];
      if (from > this.last) break;
      if (!this.isKept(from)) continue;
      const left = Math.max(this.leftOf(from), -9), right = Math.min(this.leftOf(attempts.to[attempt] + 1), this.view.wide + 9);
      const column = Math.max(0, Math.floor(left));
      if (right - left < NARROW) columns.fill(attempts.how[attempt] + 1, column, column + Math.ceil(right - left));
      else this.drawBar(row, attempt, left, right - left);
    }
    OUTCOMES.forEach((outcome, how) => eachRun(columns, how + 1, (x, wide) => paintThinBar(this.pen, outcome, x, row.top + 2, wide, row.high - 5)));
  }

  drawBar(row, attempt, left, wide) {
    paintBar(this.pen, OUTCOMES[this.view.report.attempts.how[attempt]], left, row.top + 2, wide, row.high - 5);
    if (row.kind === 'lane') this.drawUnit(row, attempt, Math.max(left, 0), wide + Math.min(left, 0));
  }

  // The number of a unit stands where its bar comes into view.
  drawUnit(row, attempt, left, wide) {
    const { unit, restarts } = this.view.report.attempts;
    const number = String(unit[attempt]);
    this.writeIn(`unit ${number}${restarts[attempt] ? `, try ${restarts[attempt] + 1}` : ''}`, number, left, wide, row);
  }

  // Failures and takeovers cut through all lanes.
  drawLines() {
    const { lined, report, rows } = this.view;
    for (let i = firstNotBelow(lined, this.first); i < lined.length && lined[i] <= this.last; i += 1) {
      const look = report.log.look[lined[i] - 1], x = Math.floor(this.middleOf(lined[i])) + 0.5;
      this.pen.strokeStyle = LOOKS[look].colour;
      this.pen.lineWidth = 1.5;
      this.pen.setLineDash(LINE_LOOKS[look]);
      this.pen.beginPath();
      this.pen.moveTo(x, 0);
      this.pen.lineTo(x, rows.height);
      this.pen.stroke();
    }
    this.pen.setLineDash([]);
    this.pen.lineWidth = 1;
  }

  drawShapes() {
    const { log } = this.view.report;
    for (let at = this.first; at <= this.last; at += 1) {
      const row = this.view.rows.of(log.lane[at - 1]);
      this.pen.globalAlpha = this.isKept(at) ? 1 : 0.15;
      paintShape(this.pen, LOOKS[log.look[at - 1]], this.middleOf(at), markHeight(row), Math.min(5.5, Math.max(SMALLEST, this.view.pixels * 0.36), row.high / 5.5));
    }
    this.pen.globalAlpha = 1;
  }

  // Many entries may fall on one pixel of a row; the one whose look stands furthest down is painted.
  drawTicks() {
    const columns = Math.ceil(this.view.wide) + 1, grid = this.gridOfLooks(columns), first = this.view.rows.at(this.view.top);
    LOOKS.forEach((look, number) => {
      this.pen.fillStyle = look.colour;
      this.rowsInView().forEach((row, i) => {
        this.drawTicksOf(number + 1, row, grid.subarray((first + i) * columns, (first + i + 1) * columns));
      });
    });
  }

  gridOfLooks(columns) {
    const { report: { log }, rows, pixels, left, keep } = this.view, grid = new Uint8Array(rows.list.length * columns);
    for (let i = this.first - 1; i < this.last; i += 1) {
      if (keep && !keep[i]) continue;
      const cell = rows.rowOf[log.lane[i]] * columns + Math.max(0, Math.floor(i * pixels - left));
      if (grid[cell] <= log.look[i]) grid[cell] = log.look[i] + 1;
    }
    return grid;
  }

  // A tick alone is as wide as its entry, and at least a pixel.
  drawTicksOf(mark, row, cells) {
    const tall = Math.max(3, (row.high - 8) * LOOKS[mark - 1].tall), y = markHeight(row) - tall / 2, wide = Math.max(1, this.view.pixels - 0.5);
    eachRun(cells, mark, (x, count) => this.pen.fillRect(x, y, count - 1 + wide, tall));
  }

  drawArrows() {
    const { cause } = this.view.report.log, { chosen } = this.view;
    if (this.view.pixels >= SHAPED) {
      for (let at = this.first; at <= this.last; at += 1) if (cause[at - 1] && this.isKept(at)) this.drawArrow(at);
    } else if (chosen && cause[chosen - 1]) this.drawArrow(chosen);
  }

  // From a restart to what caused it: to the older unit's bar at the same entry, or to the entry of a takeover or a failure.
  drawArrow(at) {
    const { report, rows } = this.view, cause = report.log.cause[at - 1];
    const from = rows.of(report.log.lane[at - 1]), to = rows.of(report.log.lane[cause - 1]);
    if (from === to) return;
    const isOlder = report.kindOf(cause) === KIND.BEGIN, down = to.top > from.top ? 1 : -1;
    const [toX, toY] = isOlder ? [this.middleOf(at), to.top + to.high / 2] : [this.middleOf(cause) + BESIDE, markHeight(to) - down * BESIDE / 2];
    paintArrow(this.pen, this.middleOf(at), markHeight(from) + down * BESIDE, toX, toY);
  }

  drawChosen() {
    const { chosen, rows, report } = this.view;
    if (!chosen) return;
    const row = rows.of(report.log.lane[chosen - 1]), x = this.middleOf(chosen), wide = Math.max(2, this.view.pixels);
    this.pen.fillStyle = 'rgba(0, 0, 0, 0.08)';
    this.pen.fillRect(x - wide / 2, 0, wide, rows.height);
    this.pen.strokeStyle = '#000000';
    this.pen.lineWidth = 2;
    this.pen.strokeRect(x - Math.max(7, wide / 2), row.top + 1, Math.max(14, wide), row.high - 3);
    this.pen.lineWidth = 1;
  }
}

// Calls `take` with the beginning and the length of each run of a mark in some cells.
function eachRun(cells, mark, take) {
  for (let from = cells.indexOf(mark); from >= 0;) {
    let end = from + 1;
    while (cells[end] === mark) end += 1;
    take(from, end - from);
    from = cells.indexOf(mark, end);
  }
}

// Where the entries of a row stand: below the numbers of its units.
function markHeight(row) { return row.top + row.high * (row.kind === 'lane' ? 0.65 : 0.5); }

// The smallest of 1, 2, 5, 10, 20, .. that is not below a number.
function niceStep(least) {
  for (let ten = 1; ; ten *= 10) for (const step of [1, 2, 5]) if (step * ten >= least) return step * ten;
}
