// The queues of the divisions beside the map, each in the room's own order.

import { htmlNode, keep, set, setText } from './nodes.js';
import { SUBJECTS, isTimed } from './ranks.js';
import { entryWords, reference, timeOf, wait } from './words.js';

function makeQueue() {
  const name = htmlNode('span');
  const count = htmlNode('b', 'count');
  const head = htmlNode('th', '', name, count);
  head.colSpan = 3;
  const list = htmlNode('tbody');
  const columns = ['classes', '', 'times'].map((it) => htmlNode('col', it));
  const node = htmlNode('table', 'queue', ...columns,
    htmlNode('thead', '', htmlNode('tr', '', head)), list);
  return Object.assign(node, { name, count, list });
}

/** An entry: its class, what it is about with its place and what is the matter, and its wait. */
function makeEntry() {
  const [level, who, place, why, time] = ['class', 'who', 'place', 'why', 'time']
    .map((it) => htmlNode('span', it));
  const cells = [[level], [who, place, why], [time]].map((it) => htmlNode('td', '', ...it));
  return Object.assign(htmlNode('tr', '', ...cells), { level, who, place, why, time });
}

/** Things by their names. */
const named = (things, nameOf) => new Map(things.map((it) => [nameOf(it), it]));

/** What of a desk's picture its entries speak of; of a vehicle that it lent, another desk's. */
function knownTo(desk, lent) {
  return {
    moment: desk.moment,
    incidents: named(desk.incidents, (it) => it.number),
    points: named(desk.points, (it) => it.number),
    vehicles: named(desk.vehicles, (it) => it.vehicle),
    lent,
  };
}

/** The class and the place of an entry, as far as they are known. */
function aboutOf(entry, { incidents, points, vehicles, lent }) {
  const subject = SUBJECTS[entry.rank];
  if (subject === 'Incident') return incidents.get(entry.number) ?? {};
  if (subject === 'Point') return { place: points.get(entry.number)?.place };
  const held = vehicles.get(entry.vehicle);
  const place = (entry.report ?? held ?? lent.get(entry.vehicle))?.place;
  return { class: incidents.get(held?.incident)?.class, place };
}

function updateEntry(node, entry, known, offset) {
  const clock = (moment) => timeOf(moment, offset);
  const [who, why] = entryWords(entry, clock);
  const { class: level, place } = aboutOf(entry, known);
  set(node, { 'data-rank': entry.rank,
    title: `${who}: ${why}${isTimed(entry.rank) ? `, since ${clock(entry.since)}` : ''}` });
  set(node.level, { 'data-class': level ?? '', title: level ? `class ${level}` : 'no class' });
  setText(node.level, String(level ?? '\u2013'));
  setText(node.who, who);
  setText(node.place, place ? reference(place) : 'place not known');
  setText(node.why, why);
  const age = Math.max(0, known.moment - entry.since);
  setText(node.time, isTimed(entry.rank) ? wait(age) : '');
}

function updateQueue(node, { desk, entries }, known, offset) {
  set(node, { 'data-division': desk.division });
  setText(node.name, `Division ${desk.division}`);
  setText(node.count, desk.queue.length ? String(desk.queue.length) : 'nothing waits');
  keep(node.list, entries, (it) => `${it.rank} ${it.vehicle} ${it.number}`, makeEntry,
    (at, entry) => updateEntry(at, entry, known, offset));
}

/** The lines of all queues: each entry, and only the desk where nothing waits. */
export function linesOf(desks) {
  return desks.flatMap((desk) => (desk.queue.length
    ? desk.queue.map((entry) => ({ desk, entry })) : [{ desk, entry: null }]));
}

/** Draws some lines. All desks know where each vehicle is. */
export function drawLines(parent, lines, desks, offset) {
  const lent = named(desks.flatMap((it) => it.vehicles), (it) => it.vehicle);
  const queues = new Map(lines.map(({ desk }) => [desk, { desk, entries: [] }]));
  for (const { desk, entry } of lines) if (entry) queues.get(desk).entries.push(entry);
  keep(parent, [...queues.values()], (it) => it.desk.division, makeQueue,
    (node, it) => updateQueue(node, it, knownTo(it.desk, lent), offset));
}

/** How many of the lines that are drawn are seen whole, at least one. */
export function wholeLines(parent) {
  if (getComputedStyle(parent).overflowY === 'visible') return Infinity;
  const end = parent.getBoundingClientRect().bottom + 1;
  const lines = [...parent.querySelectorAll('tbody tr, tbody:empty')].map((it) =>
    (it.matches('tr') ? it : it.previousSibling).getBoundingClientRect().bottom);
  return Math.max(1, lines.filter((it) => it <= end).length);
}
