// The lines of the lists: the queue, incidents, vehicles, points, and offers and loans.

import { KINDS, STATUSES, classWords, clock, farFrom, isEligible, isUnserved, line, since, sum,
  urgentFirst, vehicles } from './allocator-words.js';
import { SUBJECTS, UNSERVED, isTimed } from '../wall/ranks.js';
import { entryWords } from '../wall/words.js';

const KIND_WORDS = KINDS.map((it) => it.split(' ')[0]);

// ---- the queue, in the room's order

function queueLine(room, entry) {
  const [what, why] = entryWords(entry, clock);
  const vehicle = room.vehicleOf.get(entry.vehicle);
  const subject = SUBJECTS[entry.rank];
  const number = subject === 'Incident' ? entry.number : vehicle?.incident;
  const incident = room.incidentOf.get(number);
  const point = subject === 'Point' ? room.pointOf.get(entry.number) : null;
  return line(`${entry.rank} ${entry.number} ${entry.vehicle}`, { what, why,
    age: isTimed(entry.rank) ? since(entry.since, room.moment) : '',
    sign: classWords(incident), level: entry.rank === UNSERVED ? 'urgent' : '',
    place: (entry.report ?? incident ?? point ?? vehicle)?.place ?? null,
    target: { incident: number ?? undefined, vehicle: entry.vehicle || undefined,
      report: subject === 'Report' ? entry.number : undefined,
      point: point ? entry.number : undefined } });
}

export const queueLines = (room, { exceptions }) => room.queue.map((it) =>
  queueLine(room, { ...it, report: exceptions.reportOf(it) }));

// ---- incidents, with what they lack; those that lack nothing come last

const sentWords = (room, number) =>
  room.sentTo(number).map((it) => `${it.vehicle} ${STATUSES[it.status]}`).join(', ');

export function incidentWhy(room, it) {
  const lack = sum(it.lack) ? `lacks ${vehicles(it.lack)}` : 'lacks nothing';
  const calls = it.calls > 1 ? `${it.calls} calls` : '';
  return [isUnserved(it) ? `nobody sent, ${lack}` : lack, sentWords(room, it.number), calls]
    .filter(Boolean).join('; ');
}

const lackingFirst = (one, other) => Boolean(sum(other.lack)) - Boolean(sum(one.lack))
  || urgentFirst(one, other);

export function incidentLines(room) {
  return [...room.incidents].sort(lackingFirst).map((it) => line(`${it.number}`, {
    age: since(it.opened, room.moment), sign: classWords(it), what: `Incident ${it.number}`,
    why: incidentWhy(room, it),
    place: it.place, level: sum(it.lack) ? 'urgent' : '', target: { incident: it.number } }));
}

// ---- vehicles

export function vehicleWhy(room, it) {
  const post = room.pointOf.get(it.post);
  const isOver = it.status && it.shift_end <= room.moment;
  return [STATUSES[it.status], it.incident === null ? '' : `incident ${it.incident}`,
    it.post === null ? '' : `point ${it.post}${post ? `, ${awayFrom(it, post)}` : ''}`,
    it.home === room.division ? '' : `of division ${it.home}`,
    it.status ? `shift ${isOver ? 'over since' : 'until'} ${clock(it.shift_end)}` : '']
    .filter(Boolean).join('; ');
}

const awayFrom = (it, point) => `${farFrom(it.place, point.place)} away`;

export function vehicleLines(room, { stays }) {
  return room.vehicles.map((it) => line(it.vehicle, { age: stayWords(room, stays.of(it)),
    sign: KIND_WORDS[it.kind - 1], what: it.vehicle, why: vehicleWhy(room, it), place: it.place,
    level: isEligible(it, room.moment) ? 'free' : '',
    target: { vehicle: it.vehicle, incident: it.incident ?? undefined } }));
}

/** How long it has its status; what this page has not seen begin is marked. */
const stayWords = (room, stay) =>
  (stay ? `${stay.isExact ? '' : '>'}${since(stay.moment, room.moment)}` : '');

// ---- points, with who holds them and how far off they are

export function pointLines(room) {
  return room.points.map((it) => {
    const holders = room.vehicles.filter((one) =>
      one.post === it.number && isEligible(one, room.moment));
    const words = holders.map((one) => `${one.vehicle} ${awayFrom(one, it)}`).join(', ');
    return line(`${it.number}`, { what: `Point ${it.number}`, place: it.place,
      why: `${it.held} of ${it.cover}${words ? `: ${words}` : ''}`,
      level: it.held < it.cover ? 'urgent' : '', target: { point: it.number } });
  });
}

// ---- offers and loans

export function loanLines(room) {
  const words = (it, sort, more) => {
    const isHeld = room.vehicleOf.has(it.vehicle);
    const isOurs = isHeld === (sort === 'offer');
    const end = it.until > room.moment ? `until ${clock(it.until)}` : `over ${clock(it.until)}`;
    const done = sort === 'offer' ? 'offered' : 'lent';
    const who = isOurs ? `to division ${it.borrower}` : `by division ${it.lender}`;
    return line(`${sort} ${it.vehicle}`, { age: since(it.since, room.moment), what: it.vehicle,
      why: [`${done} ${who}`, end, more].filter(Boolean).join(', '),
      place: room.vehicleOf.get(it.vehicle)?.place ?? null, level: isOurs ? '' : 'warn',
      target: { vehicle: it.vehicle } });
  };
  return [...room.offers.map((it) => words(it, 'offer', '')),
    ...room.loans.map((it) => words(it, 'loan', it.recalled ? 'recalled' : ''))];
}
