// The marks of vehicles, incidents and points. Each is drawn about its middle in a box of 34 by 12,
// and is scaled; a line ends so far right of that middle as its `end` says. A shape shows the kind
// and a letter or figure the rest; colour only repeats it.

import { set, setText, svgNode } from './nodes.js';
import { incidentWords, LETTERS, pointWords, vehicleWords } from './words.js';

export const BOX = { width: 34, height: 12 };

/** The outline of a kind of vehicle: an ambulance is a box, a car is round, support is pointed. */
export function outline(kind, x, y, width, height) {
  const end = height / 2;
  if (kind === 2) {
    const side = `a${end} ${end} 0 0 1 0`;
    const length = width - height;
    return `M${x + end} ${y}h${length}${side} ${height}h${-length}${side} ${-height}z`;
  }
  if (kind === 3) {
    const slant = end * 0.5;
    return `M${x} ${y + end}l${slant} ${-end}h${width - 2 * slant}l${slant} ${end}`
      + `l${-slant} ${end}h${2 * slant - width}z`;
  }
  return `M${x} ${y}h${width}v${height}h${-width}z`;
}

/** Writes a text, in a room of a width: one of more characters is squeezed. */
function write(node, text, characters, width) {
  if (node.lastText === text) return;
  setText(node, text);
  node.removeAttribute('textLength');
  if (text.length > characters) node.setAttribute('textLength', width);
  node.setAttribute('lengthAdjust', 'spacingAndGlyphs');
}

const SHORT = 5; // letters of a callsign that stand in one line

/** Writes a callsign: a long one in two lines, for squeezed to a third it can't be read. */
function writeCallsign(node, text) {
  const isLong = text.length > SHORT;
  set(node, { class: isLong ? 'name long' : 'name' });
  if (!isLong) return write(node, text, 3, 22);
  if (node.lastText === text) return undefined;
  node.lastText = text;
  node.removeAttribute('textLength');
  const half = Math.ceil(text.length / 2);
  return node.replaceChildren(svgNode('tspan', { x: 4, y: -0.6 }, text.slice(0, half)),
    svgNode('tspan', { x: 4, y: 4.6 }, text.slice(half)));
}

function mark(...children) {
  const title = svgNode('title');
  const node = svgNode('g', {}, title, ...children);
  return Object.assign(node, { words: title });
}

/** A vehicle: the outline of its kind, the letter of its status, and its callsign. */
export const vehicleMark = {
  end: 0,
  make() {
    const shape = svgNode('path', { class: 'shape' });
    const letter = svgNode('text', { class: 'letter', x: -12.1, y: 2.9 });
    const edge = svgNode('path', { class: 'edge', d: 'M-8 -5.5v11' });
    const name = svgNode('text', { class: 'name', x: 4, y: 3.6 });
    return Object.assign(mark(shape, edge, letter, name), { shape, letter, name });
  },
  update(node, vehicle, offset) {
    set(node, { class: `mark vehicle status-${vehicle.status}` });
    set(node.shape, { d: outline(vehicle.kind, -16.5, -5.5, 33, 11) });
    setText(node.letter, LETTERS[vehicle.status]);
    writeCallsign(node.name, vehicle.vehicle);
    setText(node.words, vehicleWords(vehicle, offset));
  },
};

/** What is lacked of a kind: its small outline with the number. */
function lackOf(kind) {
  const number = svgNode('text', { x: 2.3, y: 4.8 });
  return Object.assign(svgNode('g', { class: 'lack' },
    svgNode('path', { d: outline(kind, 0, 0.8, 4.6, 5) }), number), { number });
}

/** Shows those that are lacked, side by side. */
function showLack(lacks, numbers) {
  let x = -4;
  lacks.forEach((it, kind) => {
    const number = numbers[kind];
    set(it, { display: number ? 'inline' : 'none', transform: `translate(${x} 0)` });
    setText(it.number, String(number));
    x += number ? 5 : 0;
  });
}

/** An incident: a diamond with its class, the larger the more urgent, its number, and its lack. */
export const incidentMark = {
  end: -11,
  make() {
    const shape = svgNode('path', { class: 'shape' });
    const figure = svgNode('text', { class: 'letter', x: -11, y: 2.6 });
    const number = svgNode('text', { class: 'name', x: -4, y: -0.4 });
    const lacks = [1, 2, 3].map(lackOf);
    return Object.assign(mark(shape, figure, number, ...lacks), { shape, figure, number, lacks });
  },
  update(node, incident, offset) {
    const isShort = incident.lack.some(Boolean);
    set(node, { class: `mark incident class-${incident.class} ${isShort ? 'short' : 'served'}` });
    const size = 6.8 - 0.7 * incident.class;
    set(node.shape, { d: `M-11 ${-size}l${size} ${size}l${-size} ${size}l${-size} ${-size}z` });
    setText(node.figure, String(incident.class));
    write(node.number, String(incident.number), 4, 20);
    showLack(node.lacks, incident.lack);
    setText(node.words, incidentWords(incident, offset));
  },
};

/** A standby point: a house with its number, and how many of its cover are there. */
export const pointMark = {
  end: -11,
  make() {
    const shape = svgNode('path', { class: 'shape', d: 'M-16.5 5.5v-7l5.5 -4.5l5.5 4.5v7z' });
    const number = svgNode('text', { class: 'letter', x: -11, y: 4 });
    const cover = svgNode('text', { class: 'name', x: -3.5, y: 3.4 });
    return Object.assign(mark(shape, number, cover), { number, cover });
  },
  update(node, point) {
    set(node, { class: `mark point ${point.held < point.cover ? 'short' : 'covered'}` });
    setText(node.number, String(point.number));
    setText(node.cover, `${point.held}/${point.cover}`);
    setText(node.words, pointWords(point));
  },
};
