// The words of the allocator's page beside those of the wall.

import { KINDS, STATUSES, timeOf, vehicles, wait } from '../wall/words.js';
import { distance, toTheMetre } from './grid.js';

export { KINDS, STATUSES, vehicles, wait };

export const sum = (numbers) => numbers.reduce((all, it) => all + it, 0);

/** The time of day of a moment, by this browser's zone. */
export function clock(moment) {
  return timeOf(moment, -60 * new Date(1000 * moment).getTimezoneOffset());
}

/** How long ago a moment was, never less than nothing. */
export const since = (moment, now) => wait(Math.max(0, now - moment));

/** Metres for people. */
export const far = (metres) =>
  (metres < 1000 ? `${metres} m` : `${(metres / 1000).toFixed(1)} km`);

export const farFrom = (one, other) => far(distance(one, other));

/** How many of each kind serve an incident, or did: the room lets none be sent beyond the needs. */
export const servedOf = ({ needs, lack }) => needs.map((it, kind) => it - lack[kind]);

export const isUnserved = (incident) => !servedOf(incident).some(Boolean);

export const urgentFirst = (one, other) =>
  one.class - other.class || one.opened - other.opened || one.number - other.number;

/** A line of a list: all lists have the same parts, so that they are drawn alike. `place` is in
    metres, `level` is urgent, warn, free or nothing, and `target` is what the keys act on. */
export const line = (key, parts) =>
  ({ key, age: '', sign: '', what: '', why: '', place: null, level: '', target: {}, ...parts });

/** A line as one text. */
export const lineWords = ({ what, sign, why, place, age }) =>
  [`${what}: ${why}`, sign, place ? toTheMetre(place) : '', age].filter(Boolean).join(', ');

export const classWords = (incident) => (incident ? `class ${incident.class}` : '');

/** It may be sent: available or returning, within its shift. */
export const isEligible = ({ status, shift_end: end }, now) =>
  (status === 1 || status === 6) && end > now;

/** The moment of a time of day as it is typed, 1730 or 17:30: the next one that comes. */
export function nextMoment(text, now) {
  const found = /^([01]?\d|2[0-3]):?([0-5]\d)$/.exec(text.trim());
  if (!found) return null;
  const day = new Date(1000 * now);
  day.setHours(Number(found[1]), Number(found[2]), 0, 0);
  if (day.getTime() <= 1000 * now) day.setDate(day.getDate() + 1);
  return Math.floor(day.getTime() / 1000);
}
