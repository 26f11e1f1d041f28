// The ground of the map: how metres become pixels, the lines and letters of the National Grid, and
// the areas of the plan.

import { keep, set, setText, svgNode } from './nodes.js';
import { lettersOf } from './words.js';

const LINES = 10000; // metres between two lines, a tenth of it on a map that is not wide
const WIDE = 40000; // metres
const SQUARE = 100000; // metres of a square that has letters
const MARGIN = 0.03; // of the map's height
const NAME = 0.04; // the height of an area's name, of the map's
const WIDTH = 0.6; // a letter of a name, of its height

/** How metres become pixels so that all areas are seen, with the metres that the edges show. */
export function viewOf(svg, areas) {
  const { clientWidth: width, clientHeight: height } = svg;
  const west = Math.min(...areas.map((it) => it.west));
  const east = Math.max(...areas.map((it) => it.east)) + 1;
  const south = Math.min(...areas.map((it) => it.south));
  const north = Math.max(...areas.map((it) => it.north)) + 1;
  const margin = 2 * MARGIN * height;
  const scale = Math.min((width - margin) / (east - west), (height - margin) / (north - south));
  const left = (west + east - width / scale) / 2;
  const top = (south + north + height / scale) / 2;
  const point = ([x, y]) => [(x - left) * scale, (top - y) * scale];
  return { width, height, scale, left, top, point, right: left + width / scale,
    bottom: top - height / scale };
}

/** The multiples of a step from one number to another. */
function multiples(step, from, to) {
  const first = Math.ceil(from / step);
  return Array.from({ length: Math.max(0, Math.floor(to / step) - first + 1) },
    (_, at) => (first + at) * step);
}

export function drawGrid(layers, view) {
  const { left, right, bottom, top, point } = view;
  const step = right - left > WIDE ? LINES : LINES / 10;
  const lines = [
    ...multiples(step, left, right).map((at) => ({ at, ends: [[at, bottom], [at, top]] })),
    ...multiples(step, bottom, top).map((at) => ({ at, ends: [[left, at], [right, at]] })),
  ];
  keep(layers.grid, lines, (it) => it.ends.join(), () => svgNode('path'), (node, { at, ends }) => {
    set(node, { class: at % SQUARE ? 'line' : 'line square', d: `M${ends.map(point).join('L')}` });
  });
  const squares = multiples(SQUARE, left - SQUARE, right).flatMap((west) =>
    multiples(SQUARE, bottom - SQUARE, top).map((south) => seenOf(view, west, south)));
  const size = view.height * 0.16;
  const isRoomy = (it) => Math.min(it.width, it.height) > 1.7 * size;
  const keyOf = (it) => `${it.west},${it.south}`;
  keep(layers.letters, squares.filter(isRoomy), keyOf, () => svgNode('text'), (node, it) => {
    const [x, y] = point(it.middle);
    set(node, { x, y, 'font-size': size });
    setText(node, lettersOf(it.west, it.south));
  });
}

/** What is seen of a square of 100 km: its middle in metres, and its size in pixels. */
function seenOf(view, west, south) {
  const [from, to] = [Math.max(west, view.left), Math.min(west + SQUARE, view.right)];
  const [low, high] = [Math.max(south, view.bottom), Math.min(south + SQUARE, view.top)];
  return { west, south, middle: [(from + to) / 2, (low + high) / 2],
    width: (to - from) * view.scale, height: (high - low) * view.scale };
}

/** Draws the areas; gives the boxes of their names, over which no mark should lie. */
export function drawAreas(layers, view, areas) {
  const size = view.height * NAME;
  const placed = areas.map((it, at) => {
    const [x, y] = view.point([it.west, it.north + 1]);
    return { ...it, at, x, y, text: `Division ${it.division}` };
  });
  const keyOf = (it) => it.at;
  keep(layers.areas, placed, keyOf, () => svgNode('rect'), (node, it) => {
    set(node, { x: it.x, y: it.y, width: (it.east - it.west + 1) * view.scale,
      height: (it.north - it.south + 1) * view.scale, 'data-division': it.division });
  });
  keep(layers.names, placed, keyOf, () => svgNode('text'), (node, it) => {
    set(node, { x: it.x + size * 0.4, y: it.y + size * 1.1, 'font-size': size,
      'stroke-width': size * 0.25 });
    setText(node, it.text);
  });
  return placed.map(({ x, y, text }) => ({ x, y: y + size * 0.1,
    width: size * (0.8 + WIDTH * text.length), height: size * 1.3 }));
}
