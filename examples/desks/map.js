// The small map of the areas: a click gives a place, and a ring shows the place of the form.

import { drawAreas, drawGrid, viewOf } from '../wall/ground.js';
import { set, svgNode } from './nodes.js';

const LAYERS = ['grid', 'letters', 'areas', 'names'];

/** Draws the areas in an SVG. `clicked` is called with the metres of a click. Gives what shows a
 * place's ring, or none with null. */
export function areasMap(svg, areas, clicked) {
  const layers = Object.fromEntries(LAYERS.map((name) => [name, svgNode('g', { class: name })]));
  const ring = svgNode('circle', { class: 'here', r: 9, visibility: 'hidden' });
  svg.replaceChildren(...Object.values(layers), ring);
  let view;
  let shown = null;

  function show(place) {
    shown = place;
    const [cx, cy] = place && view ? view.point(place) : [0, 0];
    set(ring, { cx, cy, visibility: place && view ? 'visible' : 'hidden' });
  }

  function draw() {
    view = viewOf(svg, areas);
    drawGrid(layers, view);
    drawAreas(layers, view, areas);
    show(shown);
  }

  if (areas.length) new ResizeObserver(draw).observe(svg);
  svg.addEventListener('click', ({ clientX, clientY }) => {
    const { left, top } = svg.getBoundingClientRect();
    if (view) clicked([view.left + (clientX - left) / view.scale,
      view.top - (clientY - top) / view.scale].map(Math.floor));
  });
  return show;
}

/** The division of a place, by the lowest number; 0 where no area has it. */
export function divisionOf(areas, [east, north]) {
  const having = areas.filter((it) => east >= it.west && east <= it.east
    && north >= it.south && north <= it.north);
  return having.length ? Math.min(...having.map((it) => it.division)) : 0;
}
