// The map: the ground, and on it the marks with the lines between them. A dot and a thin line show
// the true place of a mark.

import { drawAreas, drawGrid, viewOf } from './ground.js';
import { incidentMark, pointMark, vehicleMark } from './marks.js';
import { keep, set, svgNode } from './nodes.js';
import { settle } from './places.js';

const READABLE = 1.2; // pixels to a unit of a mark, below which its letters are left away

const LAYERS = ['grid', 'letters', 'areas', 'sent', 'leaders', 'dots', 'points', 'incidents',
  'vehicles', 'names'];

function layersOf(svg) {
  svg.layers ??= Object.fromEntries(LAYERS.map((name) => {
    const layer = svgNode('g', { class: name });
    svg.append(layer);
    return [name, layer];
  }));
  return svg.layers;
}

/** What all desks see of a sort, each with its key, once. */
function seen(desks, what, sort, nameOf) {
  const keyed = new Map();
  for (const { division, [what]: things } of desks) {
    for (const thing of things) {
      const it = { ...thing, division, sort };
      it.key = `${what} ${nameOf(it)}`;
      keyed.set(it.key, it);
    }
  }
  return [...keyed.values()];
}

const numbered = (it) => `${it.division}/${it.number}`;

function drawMarks(layer, marks, scale, offset) {
  keep(layer, marks, (it) => it.key, (it) => it.sort.make(), (node, it) => {
    set(node, { transform: `translate(${it.x} ${it.y}) scale(${scale})`, 'data-name': it.key });
    it.sort.update(node, it, offset);
  });
}

/** The true place of each mark, and the thin lines to them. */
function drawLeaders(layers, view, marks, scale) {
  const places = marks.map((it) => view.point(it.place));
  const d = marks.map((it, at) => `M${it.end} ${it.y}L${places[at]}`).join('');
  keep(layers.leaders, ['all'], String, () => svgNode('path'), (node) => set(node, { d }));
  const dots = marks.map((it, at) => ({ key: it.key, cx: places[at][0], cy: places[at][1] }));
  keep(layers.dots, dots, (it) => it.key, () => svgNode('circle'), (node, { key, cx, cy }) => {
    set(node, { cx, cy, r: Math.max(1, scale), 'data-name': key });
  });
}

/** A line from each vehicle to the incident or the point to which it is sent. */
function drawSent(layer, vehicles, targets) {
  const to = new Map(targets.map((it) => [it.key, it]));
  const targetOf = (it) => to.get(it.incident === null ? `points ${it.division}/${it.post}`
    : `incidents ${it.division}/${it.incident}`);
  const sent = vehicles.filter(targetOf);
  keep(layer, sent, (it) => it.key, () => svgNode('line'), (node, it) => {
    const target = targetOf(it);
    set(node, { x1: it.end, y1: it.y, x2: target.end, y2: target.y, class: `to status-${it.status}`,
      'data-name': it.key, 'data-to': target.key });
  });
}

/** The areas of the desks that are shown, where those of all aren't. */
function areasOf(desks, { desks: all, areas }) {
  const divisions = desks.map((it) => it.division);
  const theirs = areas.filter((it) => divisions.includes(it.division));
  return desks === all || !theirs.length ? areas : theirs;
}

/** Draws some of the desks of a picture, in the space that the map has now. */
export function drawMap(svg, desks, picture) {
  const { offset } = picture;
  const layers = layersOf(svg);
  const areas = areasOf(desks, picture);
  const view = viewOf(svg, areas);
  if (!(view.scale > 0)) return;
  drawGrid(layers, view);
  const names = drawAreas(layers, view, areas);
  const incidents = seen(desks, 'incidents', incidentMark, numbered);
  const points = seen(desks, 'points', pointMark, numbered);
  const vehicles = seen(desks, 'vehicles', vehicleMark, (it) => it.vehicle);
  const marks = [...incidents, ...points, ...vehicles];
  const { scale } = settle(svg, view, marks, names);
  if (svg.scale !== scale) { // what is set anew here is reckoned anew for all within
    svg.scale = scale;
    svg.classList.toggle('small', scale < READABLE);
    svg.style.setProperty('--mark', `${scale}px`);
  }
  drawSent(layers.sent, vehicles, [...incidents, ...points]);
  drawLeaders(layers, view, marks, scale);
  drawMarks(layers.points, points, scale, offset);
  drawMarks(layers.incidents, incidents, scale, offset);
  drawMarks(layers.vehicles, vehicles, scale, offset);
}
