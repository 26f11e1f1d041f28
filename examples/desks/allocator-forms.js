// What the actions of a desk share: paths of the room, fields of forms, and what is looked up.

import { clock, isEligible, nextMoment } from './allocator-words.js';
import { distance, read } from './grid.js';

export const incidentAsk = ({ incident }, what, body = null) =>
  ({ path: `/incidents/${incident}/${what}`, body });
export const vehicleAsk = ({ vehicle }, what, body = null) =>
  ({ path: `/vehicles/${encodeURIComponent(vehicle)}/${what}`, body });
export const postAsk = (it, point) => vehicleAsk(it, 'standby', { point });

/** The row of the vehicle that a line is about, where this desk holds it. */
export const vehicleAt = (room, { vehicle }) => room.vehicleOf.get(vehicle);

export function isFree(room, it) {
  const vehicle = vehicleAt(room, it);
  return vehicle !== undefined && isEligible(vehicle, room.moment);
}

/** What puts a vehicle's post back, where it had one. */
export function postBack(it, room) {
  const post = vehicleAt(room, it)?.post ?? null;
  return post === null ? [] : [postAsk(it, post)];
}

export const byDistance = (things, from) => [...things].sort((one, other) =>
  distance(one.place, from.place) - distance(other.place, from.place));

// ---- fields, and what was written into them

export const numberField = (name, label, value = '', hint = '') =>
  ({ name, label, value: String(value), mode: 'numeric', size: 6, hint });
export const placeField = (value) => ({ name: 'place', label: 'Place', value, size: 14 });

/** A time of day, so many seconds from now where nothing else is written. */
export const untilField = (room, seconds) => ({ name: 'until', label: 'Until', size: 6,
  value: clock(room.moment + seconds).slice(0, 5), mode: 'numeric',
  hint: 'the next such time of day' });

/** The moment of a time that was written, or the words of what is wrong with it. */
export function untilOf({ until }, room) {
  const end = nextMoment(until, room.moment);
  return end === null ? { words: 'Write the time as 17:30 or 1730.' } : { end };
}

/** A place as it is sent, or the words of what is wrong with it. */
export function placeOf({ place }) {
  const text = place.trim().toUpperCase();
  const { words } = read(text);
  return words ? { words } : { text };
}
