// What things of the room are called: the words on the page and under the pointer.

import { LATE_FOR_SCENE, OUT_OF_TURN, OVERDUE, SHIFT_OVER, UNACKNOWLEDGED, UNANSWERED, UNCOVERED,
  UNSERVED } from './ranks.js';

export const KINDS = ['ambulance', 'car', 'support vehicle'];
export const STATUSES = ['off duty', 'available', 'mobilised', 'at scene', 'leaving', 'at hospital',
  'returning', 'offered'];
export const LETTERS = ['\u2013', 'A', 'M', 'S', 'L', 'H', 'R', 'O'];

const LETTERS_OF_SQUARES = 'ABCDEFGHJKLMNOPQRSTUVWXYZ';

/**
 * The letters of the square of 100 km in which a place lies. Five by five squares have letters from
 * A to Z without I, row by row from the north-west; so have five by five of such groups, whose
 * letter comes first. The grid's origin is the south-west corner of the group S.
 */
export function lettersOf(east, north) {
  const across = Math.floor(east / 100000) + 10;
  const down = 19 - Math.floor(north / 100000);
  const letter = (column, row) => LETTERS_OF_SQUARES[5 * row + column] ?? '';
  return letter(Math.floor(across / 5), Math.floor(down / 5)) + letter(across % 5, down % 5);
}

/**
 * A place as a reference: the letters of its square, then how many hundreds of metres it lies east
 * and north of the square's south-west corner, three digits each.
 */
export function reference([east, north]) {
  const digits = (metres) => String(Math.floor((metres % 100000) / 100)).padStart(3, '0');
  return `${lettersOf(east, north)} ${digits(east)} ${digits(north)}`.trim();
}

const two = (number) => String(number).padStart(2, '0');

/** The time of day of a moment, in a zone that is so many seconds ahead of UTC. */
export function timeOf(moment, offset) {
  const second = (((Math.floor(moment) + offset) % 86400) + 86400) % 86400;
  return [second / 3600, second / 60 % 60, second % 60].map((it) => two(Math.floor(it))).join(':');
}

/** How long something waits: minutes and seconds, from an hour on hours and minutes. */
export function wait(seconds) {
  const [minutes, hours, days] = [60, 3600, 86400].map((it) => Math.floor(seconds / it));
  if (!hours) return `${minutes}:${two(Math.floor(seconds % 60))}`;
  return days ? `${days} d ${hours % 24} h` : `${hours} h ${two(minutes % 60)}`;
}

/** How many of each kind, as words: "2 ambulances, 1 car". */
export function vehicles(numbers) {
  const named = numbers.map((it, kind) => it && `${it} ${KINDS[kind]}${it > 1 ? 's' : ''}`);
  return named.filter(Boolean).join(', ');
}

// What needs an eye, by rank: what it is about, and what is the matter.
const ENTRIES = {
  [UNSERVED]: (it) => [`Incident ${it.number}`, 'nobody sent'],
  [UNACKNOWLEDGED]: (it) => [it.vehicle, `order not acknowledged, incident ${it.number}`],
  [LATE_FOR_SCENE]: (it) => [it.vehicle, `late for incident ${it.number}`],
  [OUT_OF_TURN]: (it, clock) => [it.vehicle, it.report ? reportWords(it, clock)
    : `report ${it.number} came out of turn`],
  [OVERDUE]: (it) => [it.vehicle, `loan is over, division ${it.number}`],
  [SHIFT_OVER]: (it) => [it.vehicle, 'shift is over'],
  [UNCOVERED]: (it) => [`Point ${it.number}`, 'short of cover'],
  [UNANSWERED]: (it) => [it.vehicle, `offer not answered, division ${it.number}`],
};

/** What a report was that wants an eye: its button, what came of it, and of which order. */
function reportWords({ number, since, report: { button, outcome, order } }, clock) {
  return `${button.charAt(0).toUpperCase()}${button.slice(1)}: ${outcome}, `
    + `${order ? `order ${order}` : 'no order'}, ${clock(since)}, report ${number}`;
}

/** The words of an entry, which has its report where the room says what that was; the clock gives
    the time of day of a moment. */
export function entryWords(entry, clock) {
  const words = ENTRIES[entry.rank];
  return words ? words(entry, clock) : [entry.vehicle, `rank ${entry.rank}`];
}

export function vehicleWords(it, offset) {
  const home = it.home === it.division ? '' : `, at home in division ${it.home}`;
  const sent = it.incident === null ? '' : `, sent to incident ${it.incident}`;
  const post = it.post === null ? '' : `, to wait at point ${it.post}`;
  const shift = it.status ? `, shift ends ${timeOf(it.shift_end, offset)}` : '';
  return `${it.vehicle}, ${KINDS[it.kind - 1]} of division ${it.division}${home}: `
    + `${STATUSES[it.status]} at ${reference(it.place)}${sent}${post}${shift}`;
}

export function incidentWords(it, offset) {
  const lack = it.lack.some(Boolean) ? `lacks ${vehicles(it.lack)}` : 'lacks nothing';
  return `Incident ${it.number} of division ${it.division}, class ${it.class}, at `
    + `${reference(it.place)}, opened ${timeOf(it.opened, offset)}, calls: ${it.calls}; `
    + `needs ${vehicles(it.needs)}, ${lack}`;
}

export function pointWords(it) {
  return `Standby point ${it.number} of division ${it.division} at ${reference(it.place)}: `
    + `${it.held} of ${it.cover} there`;
}
