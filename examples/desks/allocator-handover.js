// What a desk hands over at a shift's end, written when the page is printed: A4, one page at 30
// incidents. What only the queue says of an incident stands in the incident's row.

import { table } from './allocator-incident.js';
import { STATUSES, clock, lineWords, since } from './allocator-words.js';
import { toTheMetre } from './grid.js';
import { element, fill } from './nodes.js';

const KIND_LETTERS = ['A', 'C', 'S'];
const INCIDENTS = ['No', 'Class', 'Place', 'Opened', 'Age', 'Needs', 'Lacks', 'Sent', 'Calls',
  'What is the matter'];

export function writeHandover(node, room, lines) {
  const { division, moment } = room;
  const day = new Date(1000 * moment).toLocaleDateString('en-GB', { dateStyle: 'full' });
  const isOfIncident = ({ target }) =>
    room.incidentOf.has(target.incident) && !target.vehicle;
  const others = (name) => lines[name].filter((it) => !isOfIncident(it));
  fill(node, element('h2', { class: 'title' },
    `Handover${division === null ? '' : ` of division ${division}`}`),
    element('p', {}, `${day}, ${clock(moment)}. Incidents: ${room.incidents.length}; vehicles: `
      + `${room.vehicles.length}; in the queue: ${lines.queue.length}; not in the queue: `
      + `${lines.unranked.length}. A ambulance, C car, S support vehicle.`),
    incidentTable(room, [...lines.queue, ...lines.unranked].filter(isOfIncident)),
    listOf('More in the queue', others('queue')),
    listOf('More that is not in the queue', others('unranked')),
    vehicleTable(room), listOf('Points', lines.points), listOf('Offers and loans', lines.loans));
}

const numbers = (needs) => needs.map((it, kind) => it && `${it}${KIND_LETTERS[kind]}`)
  .filter(Boolean).join(' ');

function incidentTable(room, marks) {
  const marksOf = Map.groupBy(marks, (it) => it.target.incident);
  const rows = room.incidents.map((it) => [it.number, it.class, toTheMetre(it.place),
    clock(it.opened), since(it.opened, room.moment), numbers(it.needs), numbers(it.lack) || '–',
    room.sentTo(it.number).map((one) => `${one.vehicle} ${STATUSES[one.status]}`).join(', '),
    it.calls, (marksOf.get(it.number) ?? []).map((one) => one.why).join('; ')]);
  return table('Incidents', INCIDENTS, rows);
}

/** The vehicles by status, which is shorter than a row for each. */
function vehicleTable(room) {
  const end = (it) => (it.status ? ` ${clock(it.shift_end).slice(0, 5)}` : '');
  const more = (it) => `${it.incident === null ? '' : ` (${it.incident})`}`
    + (it.post === null ? '' : ` [${it.post}]`)
    + (it.home === room.division ? '' : ` of ${it.home}`);
  const rows = STATUSES.map((name, status) => [name, room.vehicles
    .filter((it) => it.status === status).map((it) => `${it.vehicle}${more(it)}${end(it)}`)
    .join(', ')]);
  return table('Vehicles: (incident), [point], end of shift', ['Status', 'Callsigns'],
    rows.filter(([, names]) => names));
}

const listOf = (title, lines) => element('section', {},
  element('h2', {}, `${title}: ${lines.length || 'nothing'}`),
  element('ul', {}, ...lines.map((it) => element('li', {}, lineWords(it)))));
