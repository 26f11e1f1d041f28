// What no rank of the queue shows and still wants an eye, found in the lists. docs/RULES.md goes
// through every state: which the queue shows, which stands here, and which stands in a list only.

import { KINDS, STATUSES, classWords, clock, isEligible, isUnserved, line, servedOf, since, sum,
  urgentFirst, vehicles } from './allocator-words.js';
import { LIMITS, UNANSWERED, UNSERVED } from '../wall/ranks.js';

/** All lines, the most urgent sort first. */
export function unrankedLines(room, marks) {
  return [unsent, lacking, noneLeft, furtherCalls, longStays, unattended, offers, recalls]
    .flatMap((find) => find(room, marks));
}

const ofIncident = (room, sort, why, level = '') => (it) => line(`${sort} ${it.number}`, {
  age: since(it.opened, room.moment), sign: classWords(it), what: `Incident ${it.number}`,
  why: why(it), place: it.place, level, target: { incident: it.number } });

/** Incidents to which nobody is sent, before the queue shows them. */
function unsent(room) {
  const ranked = new Set(room.queue.filter((it) => it.rank === UNSERVED).map((it) => it.number));
  return room.incidents.filter((it) => isUnserved(it) && !ranked.has(it.number)).sort(urgentFirst)
    .map(ofIncident(room, 'unsent', (it) => (room.moment - it.opened > LIMITS[UNSERVED]
      ? 'nobody sent' : 'nobody sent yet'), 'urgent'));
}

/** Incidents that are or were served, and lack a vehicle all the same. */
function lacking(room) {
  const why = (it) => `lacks ${vehicles(it.lack)}, ${room.sentTo(it.number).length
    ? `${sum(servedOf(it))} sent` : 'nobody is sent any longer'}`;
  return room.incidents.filter((it) => !isUnserved(it) && sum(it.lack)).sort(urgentFirst)
    .map(ofIncident(room, 'lacking', why, 'urgent'));
}

/** Kinds of which an incident lacks some and none can be sent. */
function noneLeft(room) {
  return KINDS.flatMap((name, kind) => {
    const short = room.incidents.filter((it) => it.lack[kind]).length;
    const isThere = room.vehicles.some((it) =>
      it.kind === kind + 1 && isEligible(it, room.moment));
    return !short || isThere ? [] : [line(`none ${kind}`, { level: 'urgent', what: `No ${name}`,
      why: `none can be sent; incidents that lack one: ${short}` })];
  });
}

/** Incidents with calls that came since somebody looked at them. */
function furtherCalls(room, { callsSeen }) {
  return room.incidents.filter((it) => it.calls > (callsSeen.get(it.number) ?? it.calls))
    .map(ofIncident(room, 'calls', (it) => `a further call: ${it.calls} now`, 'warn'));
}

/** Vehicles that are at the scene, leaving, at hospital or returning for longer than the bound. */
function longStays(room, { stays, bound }) {
  return room.vehicles.filter((it) => it.status >= 3 && it.status <= 6).flatMap((it) => {
    const stay = stays.of(it);
    if (!stay || room.moment - stay.moment <= bound) return [];
    const least = stay.isExact ? '' : ' at least, since this page looks';
    return [line(`stay ${it.vehicle}`, { age: since(stay.moment, room.moment), level: 'warn',
      sign: classWords(room.incidentOf.get(it.incident)), what: it.vehicle, place: it.place,
      why: `${STATUSES[it.status]} for long${least}`,
      target: { vehicle: it.vehicle, incident: it.incident ?? undefined } })];
  });
}

/** Incidents that lack nothing, to which nobody is sent any longer, and that nobody closed. */
function unattended(room) {
  const isLeft = (it) => !isUnserved(it) && !sum(it.lack) && !room.sentTo(it.number).length;
  return room.incidents.filter(isLeft)
    .map(ofIncident(room, 'left', () => 'all vehicles have left it, not closed'));
}

/** Offers before the queue shows them, and those whose time is over before they were answered. */
function offers(room) {
  const ranked = new Set(room.queue.filter((it) => it.rank === UNANSWERED).map((it) => it.vehicle));
  return room.offers.filter((it) => !ranked.has(it.vehicle) || it.until <= room.moment)
    .map((it) => {
      const isOurs = room.vehicleOf.has(it.vehicle);
      const who = isOurs ? `to division ${it.borrower}` : `by division ${it.lender}`;
      const until = it.until > room.moment ? `until ${clock(it.until)}` : 'its time is over';
      return line(`offer ${it.vehicle}`, { age: since(it.since, room.moment), what: it.vehicle,
        why: `offered ${who}, ${until}: ${isOurs ? 'not answered' : 'answer it'}`,
        level: isOurs ? '' : 'warn', target: { vehicle: it.vehicle } });
    });
}

/** Loans that were recalled, before their time is over. */
function recalls(room) {
  return room.loans.filter((it) => it.recalled && it.until >= room.moment).map((it) => {
    const isOurs = room.vehicleOf.has(it.vehicle);
    const why = isOurs ? `division ${it.lender} wants it back`
      : `recalled, division ${it.borrower} has it still`;
    return line(`recall ${it.vehicle}`, { what: it.vehicle, why, level: isOurs ? 'warn' : '',
      target: { vehicle: it.vehicle } });
  });
}
