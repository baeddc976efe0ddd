'use strict';
// The shapes of entries and the patterns of bars, as they are painted on a canvas.

const around = radius => Array.from({ length: 16 }, (_, i) => [radius * Math.cos(i * Math.PI / 8), radius * Math.sin(i * Math.PI / 8)]);
const box = (wide, high) => [[-wide, -high], [wide, -high], [wide, high], [-wide, high]];
const PLUS = [[-0.35, -1], [0.35, -1], [0.35, -0.35], [1, -0.35], [1, 0.35], [0.35, 0.35], [0.35, 1], [-0.35, 1], [-0.35, 0.35], [-1, 0.35], [-1, -0.35], [-0.35, -0.35]];

// The corners of each shape, around its middle. Each covers its middle.
const SHAPES = {
  dot: around(0.5),
  brick: box(0.75, 0.55),
  right: [[-0.8, -1], [1.1, 0], [-0.8, 1]],
  left: [[0.8, -1], [-1.1, 0], [0.8, 1]],
  up: [[0, -1.1], [1.1, 0.8], [-1.1, 0.8]],
  plus: PLUS,
  screen: box(1.15, 0.85),
  disc: around(1.05),
  minus: box(1.15, 0.4),
  post: box(0.45, 1.25),
  hexagon: [[-1.2, 0], [-0.6, -1.05], [0.6, -1.05], [1.2, 0], [0.6, 1.05], [-0.6, 1.05]],
  diamond: [[0, -1.25], [1.25, 0], [0, 1.25], [-1.25, 0]],
  cross: PLUS.map(([x, y]) => [(x - y) * 0.9, (x + y) * 0.9]),
};

function paintShape(pen, look, x, y, size) {
  pen.beginPath();
  for (const [right, down] of SHAPES[look.shape]) pen.lineTo(x + right * size, y + down * size);
  pen.closePath();
  pen.fillStyle = look.colour;
  pen.fill();
}

// The strokes of each pattern in a tile of 8 by 8.
const TILES = {
  plain: [],
  level: [[0, 2, 8, 2], [0, 6, 8, 6]],
  rising: [[-2, 2, 2, -2], [0, 8, 8, 0], [6, 10, 10, 6]],
  crossed: [[0, 8, 8, 0], [0, 0, 8, 8]],
  dotted: [[1, 2, 3, 2], [5, 6, 7, 6]],
  falling: [[-2, 6, 2, 10], [0, 0, 8, 8], [6, -2, 10, 2]],
  spotted: [[1.5, 1.5, 3, 3], [5.5, 5.5, 7, 7]],
};

// What fills a bar: a pale ground, and the strokes of the outcome's pattern.
const barFills = new Map();
function barFill(pen, outcome) {
  if (!barFills.has(outcome.name)) barFills.set(outcome.name, pen.createPattern(paintTile(outcome), 'repeat'));
  return barFills.get(outcome.name);
}

function paintTile({ colour, pattern, pale = 0.55 }) {
  const tile = document.createElement('canvas');
  tile.width = 8;
  tile.height = 8;
  const pen = tile.getContext('2d');
  pen.fillStyle = '#ffffff';
  pen.fillRect(0, 0, 8, 8);
  pen.globalAlpha = 0.2;
  pen.fillStyle = colour;
  pen.fillRect(0, 0, 8, 8);
  pen.globalAlpha = pale;
  pen.strokeStyle = colour;
  for (const [fromX, fromY, toX, toY] of TILES[pattern]) {
    pen.beginPath();
    pen.moveTo(fromX, fromY);
    pen.lineTo(toX, toY);
    pen.stroke();
  }
  return tile;
}

function paintBar(pen, outcome, x, y, wide, high) {
  pen.fillStyle = barFill(pen, outcome);
  pen.fillRect(x, y, wide, high);
  pen.fillStyle = outcome.colour;
  pen.fillRect(x, y, wide, 2);
  pen.fillRect(x, y, 1, high);
  pen.fillRect(x + wide - 1, y, 1, high);
}

function paintThinBar(pen, outcome, x, y, wide, high) {
  pen.fillStyle = outcome.colour;
  pen.globalAlpha = 0.4;
  pen.fillRect(x, y, wide, high);
  pen.globalAlpha = 1;
  pen.fillRect(x, y, wide, 2);
}

const ARROW = '#8a5a00';
const FOUND = '#7a0099', FOUND_GROUND = 'rgba(240, 228, 66, 0.5)';

// An arrow that swings to the right of the line between its ends.
function paintArrow(pen, fromX, fromY, toX, toY) {
  const swing = Math.min(26, 8 + Math.abs(toY - fromY) / 4), bendX = Math.max(fromX, toX) + swing, bendY = (fromY + toY) / 2;
  pen.strokeStyle = ARROW;
  pen.fillStyle = ARROW;
  pen.lineWidth = 1.6;
  pen.beginPath();
  pen.moveTo(fromX, fromY);
  pen.quadraticCurveTo(bendX, bendY, toX, toY);
  pen.stroke();
  const turn = Math.atan2(toY - bendY, toX - bendX);
  pen.beginPath();
  pen.moveTo(toX, toY);
  for (const side of [-0.45, 0.45]) pen.lineTo(toX - 9 * Math.cos(turn + side), toY - 9 * Math.sin(turn + side));
  pen.closePath();
  pen.fill();
  pen.lineWidth = 1;
}
