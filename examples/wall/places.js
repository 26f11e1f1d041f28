// A place on the map for each mark, near its true one, so that no mark covers another.

import { BOX } from './marks.js';

// How high a mark may be, as a part of the map's height: the first at which all find a place.
const HEIGHTS = [0.085, 0.077, 0.07, 0.063, 0.056, 0.05, 0.045, 0.04, 0.036, 0.032, 0.028, 0.025,
  0.022, 0.019, 0.017, 0.015, 0.013];
const GAP = 1.06; // boxes to a box, with what is left free round it
const FEW = 120; // marks that can be laid close to their places
// The cells that a mark covers, across and down, and how many places the map has for each mark.
const CLOSE = { across: 4, down: 2, places: 2.6 };
const ROOM_BESIDE_NAMES = 1.1; // the least places for each mark beside the names
const DENSE = { across: 1, down: 1, places: 1.3 };

/**
 * How large marks are so that so many find a place, and the cells that they are laid on: a mark
 * covers some across and down, one by itself where there are many marks.
 */
function cellsFor(view, count) {
  const { across, down, places } = count > FEW ? DENSE : CLOSE;
  for (const part of HEIGHTS) {
    const scale = part * view.height / BOX.height;
    const columns = across * Math.floor(view.width / (BOX.width * scale * GAP));
    const rows = down * Math.floor(view.height / (BOX.height * scale * GAP));
    if (columns * rows >= count * places * across * down || part === HEIGHTS.at(-1)) {
      return { scale, across, down, columns, rows, width: view.width / columns,
        height: view.height / rows };
    }
  }
  return null;
}

/** The steps from a cell to others, the nearest first. */
function stepsOf({ columns, rows, width, height }) {
  const steps = [];
  for (let right = -columns; right <= columns; right += 1) {
    for (let down = -rows; down <= rows; down += 1) {
      steps.push([right, down, Math.hypot(right * width, down * height)]);
    }
  }
  return steps.sort((one, other) => one[2] - other[2]);
}

/** Whether the cells are free that a mark covers whose first cell is this one. */
function areFree({ across, down, columns }, taken, [column, row]) {
  for (let below = 0; below < down; below += 1) {
    const first = (row + below) * columns + column;
    for (let at = first; at < first + across; at += 1) if (taken[at]) return false;
  }
  return true;
}

function takeCells({ across, down, columns }, taken, [column, row]) {
  for (let below = 0; below < down; below += 1) {
    const first = (row + below) * columns + column;
    taken.fill(1, first, first + across);
  }
}

/**
 * Takes the cells over which names stand, so that they cover no mark; none where names are so many
 * that marks would want for room.
 */
function takeNames({ across, down, columns, rows, width, height }, taken, names, count) {
  for (const it of names) {
    const from = Math.max(0, Math.floor(it.x / width));
    const to = Math.min(columns, Math.ceil((it.x + it.width) / width));
    const last = Math.min(rows, Math.ceil((it.y + it.height) / height));
    for (let row = Math.max(0, Math.floor(it.y / height)); row < last; row += 1) {
      taken.fill(1, row * columns + from, row * columns + to);
    }
  }
  const free = taken.length - taken.reduce((sum, it) => sum + it, 0);
  if (free < ROOM_BESIDE_NAMES * count * across * down) taken.fill(0);
}

/** The nearest cell to a mark's place at which it covers none that is taken. */
function nearestFree(cells, steps, taken, [x, y]) {
  const { across, down, columns, rows, width, height } = cells;
  const within = (at, end) => Math.max(0, Math.min(end, Math.round(at)));
  const column = within(x / width - across / 2, columns - across);
  const row = within(y / height - down / 2, rows - down);
  for (const [right, below] of steps) {
    const there = [column + right, row + below];
    const isInside = there[0] >= 0 && there[0] <= columns - across
      && there[1] >= 0 && there[1] <= rows - down;
    if (isInside && areFree(cells, taken, there)) return there;
  }
  return [column, row];
}

/**
 * Gives each mark the free cells that are nearest to its place. One that hasn't moved keeps its
 * cells, as long as the cells stay the same.
 */
export function settle(svg, view, marks, names) {
  const cells = cellsFor(view, marks.length);
  const made = [view.width, view.height, view.left, view.top, cells.scale, cells.across,
    names.length].join();
  if (svg.made !== made) Object.assign(svg, { made, settled: new Map(), steps: stepsOf(cells) });
  const before = svg.settled;
  svg.settled = new Map();
  const taken = new Uint8Array(cells.columns * cells.rows);
  takeNames(cells, taken, names, marks.length);
  const take = (mark, there) => {
    svg.settled.set(mark.key, { there, place: String(mark.place) });
    takeCells(cells, taken, there);
    mark.x = (there[0] + cells.across / 2) * cells.width;
    mark.y = (there[1] + cells.down / 2) * cells.height;
    mark.end = mark.x + mark.sort.end * cells.scale;
  };
  const stays = (mark) => before.get(mark.key)?.place === String(mark.place);
  const [moved, kept] = [marks.filter((it) => !stays(it)), marks.filter(stays)];
  for (const mark of kept) take(mark, before.get(mark.key).there);
  for (const mark of moved) {
    const [x, y] = view.point(mark.place);
    take(mark, nearestFree(cells, svg.steps, taken, [x - mark.sort.end * cells.scale, y]));
  }
  return cells;
}
