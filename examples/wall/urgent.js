// Incidents to which nobody is sent, of all divisions that are shown: the most urgent first, above
// the queues and on no page that turns.

import { htmlNode, keep, set, setText } from './nodes.js';
import { UNSERVED } from './ranks.js';
import { reference, wait } from './words.js';

const SHOWN = 8; // lines, so that the queues keep their part

/** The entries of that rank with their incidents, by class and then by how long they wait. */
function urgentOf(desks) {
  const found = desks.flatMap(({ division, moment, queue, incidents }) => {
    const known = new Map(incidents.map((it) => [it.number, it]));
    return queue.filter((it) => it.rank === UNSERVED).map(({ number, since }) => ({ division,
      number, age: Math.max(0, moment - since), level: known.get(number)?.class ?? null,
      place: known.get(number)?.place ?? null }));
  });
  return found.sort((one, other) => (one.level ?? 1) - (other.level ?? 1)
    || other.age - one.age || one.division - other.division || one.number - other.number);
}

/** A line: the class, division and incident, the place, and the wait. */
function makeLine() {
  const [level, who, place, time] = ['class', 'who', 'place', 'time'].map((it) =>
    htmlNode('span', it));
  return Object.assign(htmlNode('tr', '', ...[level, who, place, time].map((it) =>
    htmlNode('td', '', it))), { level, who, place, time });
}

function update(node, it) {
  set(node, { title: `Incident ${it.number} of division ${it.division}: nobody sent` });
  set(node.level, { 'data-class': it.level ?? '' });
  setText(node.level, String(it.level ?? '\u2013'));
  setText(node.who, `${it.division} \u00b7 ${it.number}`);
  setText(node.place, it.place ? reference(it.place) : '');
  setText(node.time, wait(it.age));
}

export function drawUrgent(table, desks) {
  const found = urgentOf(desks);
  const shown = found.slice(0, SHOWN);
  if (!table.head) {
    table.head = htmlNode('th');
    table.head.colSpan = 4;
    table.list = htmlNode('tbody');
    table.append(htmlNode('thead', '', htmlNode('tr', '', table.head)), table.list);
  }
  table.hidden = !found.length;
  setText(table.head, `Nobody sent: ${found.length}${found.length > SHOWN
    ? `, the worst ${SHOWN}` : ''}`);
  keep(table.list, shown, (it) => `${it.division} ${it.number}`, makeLine, update);
}
