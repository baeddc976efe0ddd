'use strict';
// The minimap: the whole run, all lanes, on a strip; what is in view of the timeline has a frame, and a press or a drag moves it.

const MINIMAP_LEAST = 36, MINIMAP_MOST = 76, MINIMAP_LANE = 4;

class Minimap {
  // `go` is told the entry and the lane at which the pointer is.
  constructor(canvas, { go }) {
    this.canvas = canvas;
    this.pen = canvas.getContext('2d');
    this.ground = document.createElement('canvas');
    this.tellGo = go;
    this.report = null;
    this.isHeld = false;
    canvas.addEventListener('pointerdown', event => { this.isHeld = true; canvas.setPointerCapture(event.pointerId); this.onPoint(event); });
    canvas.addEventListener('pointermove', event => { if (this.isHeld) this.onPoint(event); });
    for (const end of ['pointerup', 'pointercancel']) canvas.addEventListener(end, () => { this.isHeld = false; });
  }

  show(report, groups) {
    this.report = report;
    this.lanes = groups.flatMap(group => [group.head, ...group.lanes].filter(lane => lane !== NONE));
    this.firsts = groups.map(group => this.lanes.indexOf([group.head, ...group.lanes].find(lane => lane !== NONE)));
    this.placeOf = new Uint16Array(report.lanes.all.length);
    this.lanes.forEach((lane, place) => { this.placeOf[lane] = place; });
    this.painted = '';
  }

  high() { return Math.round(Math.min(MINIMAP_MOST, Math.max(MINIMAP_LEAST, this.lanes.length * MINIMAP_LANE))); }

  // Draws the strip for a view of the timeline, and a mark at each entry that was found.
  draw(view, found) {
    if (!this.report) return;
    const wide = this.canvas.parentElement.clientWidth, high = this.high(), ratio = window.devicePixelRatio || 1;
    for (const canvas of [this.canvas, this.ground]) {
      if (canvas.width === Math.round(wide * ratio) && canvas.height === Math.round(high * ratio)) continue;
      canvas.width = Math.round(wide * ratio);
      canvas.height = Math.round(high * ratio);
      this.painted = '';
    }
    this.canvas.style.width = `${wide}px`;
    this.canvas.style.height = `${high}px`;
    this.wide = wide;
    this.tall = high;
    if (this.painted !== view.keep) this.paintGround(view.keep, ratio);
    this.pen.setTransform(1, 0, 0, 1, 0, 0);
    this.pen.drawImage(this.ground, 0, 0);
    this.pen.setTransform(ratio, 0, 0, ratio, 0, 0);
    this.drawFound(found);
    this.drawFrame(view);
  }

  xOf(at) { return (at - 1) * this.wide / this.report.log.count; }

  yOf(place) { return place * this.tall / this.lanes.length; }

  paintGround(keep, ratio) {
    const pen = this.ground.getContext('2d');
    this.painted = keep;
    pen.setTransform(ratio, 0, 0, ratio, 0, 0);
    pen.fillStyle = '#ffffff';
    pen.fillRect(0, 0, this.wide, this.tall);
    this.paintBars(pen, keep);
    this.paintEntries(pen, keep);
    pen.fillStyle = '#b9c4cf';
    for (const first of this.firsts.slice(1)) pen.fillRect(0, Math.round(this.yOf(first)), this.wide, 1);
  }

  paintBars(pen, keep) {
    const { attempts } = this.report, high = Math.max(1, this.yOf(1) - 0.5);
    pen.globalAlpha = 0.45;
    for (let i = 0; i < attempts.count; i += 1) {
      if (keep && !keep[attempts.from[i] - 1]) continue;
      pen.fillStyle = OUTCOMES[attempts.how[i]].colour;
      const left = this.xOf(attempts.from[i]);
      pen.fillRect(left, this.yOf(this.placeOf[attempts.terminal[i]]), Math.max(0.5, this.xOf(attempts.to[i] + 1) - left), high);
    }
    pen.globalAlpha = 1;
  }

  // Of the entries at one place the one is painted whose look stands furthest down; one at which something fails is as tall as the strip.
  paintEntries(pen, keep) {
    const { log } = this.report, columns = Math.ceil(this.wide), grid = new Uint8Array(columns * this.lanes.length);
    for (let i = 0; i < log.count; i += 1) {
      if (keep && !keep[i]) continue;
      const cell = this.placeOf[log.lane[i]] * columns + Math.min(columns - 1, Math.floor(this.xOf(i + 1)));
      if (grid[cell] <= log.look[i]) grid[cell] = log.look[i] + 1;
    }
    const high = Math.max(1, this.yOf(1) - 0.5);
    LOOKS.forEach((look, number) => {
      const isMarked = number === LOOK.fail || number === LOOK.takeover;
      pen.fillStyle = look.colour;
      this.lanes.forEach((lane, place) => eachRun(grid.subarray(place * columns, (place + 1) * columns), number + 1, (x, wide) => {
        if (isMarked) pen.fillRect(x, 0, Math.max(1.5, wide), this.tall);
        else pen.fillRect(x, this.yOf(place), wide, number >= LOOK.restart ? high : high * 0.6);
      }));
    });
  }

  drawFound(found) {
    this.pen.fillStyle = FOUND;
    let last = -2;
    for (const at of found) {
      const x = Math.floor(this.xOf(at));
      if (x <= last + 1) continue;
      this.pen.fillRect(x, 0, 2, 7);
      this.pen.fillRect(x, this.tall - 7, 2, 7);
      last = x;
    }
  }

  drawFrame({ left, wide, pixels, chosen, rows, top, high }) {
    const from = left / pixels * this.wide / this.report.log.count, to = Math.min(this.wide, (left + wide) / pixels * this.wide / this.report.log.count);
    const inView = rows.list.slice(rows.at(top + 1), rows.at(top + high - RULER_HIGH - 1) + 1).flatMap(row => row.lanes.filter(lane => lane !== NONE));
    const places = inView.map(lane => this.placeOf[lane]);
    const above = places.length ? this.yOf(Math.min(...places)) : 0, below = places.length ? this.yOf(Math.max(...places) + 1) : this.tall;
    this.pen.fillStyle = 'rgba(29, 39, 51, 0.16)';
    for (const box of [[0, 0, this.wide, above], [0, below, this.wide, this.tall - below], [0, above, from, below - above], [to, above, this.wide - to, below - above]]) {
      this.pen.fillRect(...box);
    }
    this.pen.strokeStyle = '#0072b2';
    this.pen.lineWidth = 2;
    this.pen.strokeRect(from + 1, above + 1, Math.max(2, to - from - 2), Math.max(2, below - above - 2));
    if (!chosen) return;
    this.pen.fillStyle = '#000000';
    this.pen.fillRect(this.xOf(chosen + 0.5) - 0.75, 0, 1.5, this.tall);
  }

  onPoint(event) {
    if (!this.report) return;
    const { left, top } = this.canvas.getBoundingClientRect(), { count } = this.report.log;
    const at = Math.min(count, Math.max(1, Math.round((event.clientX - left) / this.wide * count + 0.5)));
    const place = Math.floor((event.clientY - top) / this.tall * this.lanes.length);
    this.tellGo(at, this.lanes[Math.min(this.lanes.length - 1, Math.max(0, place))]);
  }
}
