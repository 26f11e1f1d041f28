// The key to the map: kinds of vehicles by outline, statuses by letter, and the other marks.

import { outline } from './marks.js';
import { svgNode } from './nodes.js';
import { KINDS, LETTERS, STATUSES } from './words.js';

const ROW = 12; // units from one row of the key to the next

const path = (className, d) => svgNode('path', { class: className, d });
const DIAMOND = 'M5 -0.5l5.5 5.5l-5.5 5.5l-5.5 -5.5z';
const letter = (text) => svgNode('text', { class: 'letter', x: 5, y: 7.8 }, text);

const SIGNS = [
  ...KINDS.map((it, at) => [it, path('kind', outline(at + 1, 0, 2, 10, 6))]),
  ['incident, class', path('diamond short', DIAMOND), letter('1')],
  ['lacks nothing', path('diamond', DIAMOND), letter('1')],
  ['it lacks', path('kind lacks', outline(1, 1, 1, 8, 8)), letter('2')],
  ['standby point', path('kind', 'M0.5 9.5v-5.5l4.5 -4l4.5 4v5.5z')],
];
const CODES = STATUSES.map((it, status) => [it, svgNode('g', { class: `vehicle status-${status}` },
  path('shape', outline(1, 0, 0, 10, 10)), letter(LETTERS[status]))]);

/** Draws signs with their words in a row; gives how wide it is. */
function drawRow(svg, y, signs) {
  let x = 0;
  for (const [words, ...sign] of signs) {
    const text = svgNode('text', { x: 12, y: 8 }, words);
    svg.append(svgNode('g', { transform: `translate(${x} ${y})` }, ...sign, text));
    x += 18 + text.getComputedTextLength();
  }
  return x;
}

export function drawKey(svg) {
  const width = Math.max(drawRow(svg, 1, SIGNS), drawRow(svg, 1 + ROW, CODES));
  svg.setAttribute('viewBox', `-1 0 ${width} ${2 * ROW}`);
}
