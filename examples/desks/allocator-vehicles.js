// What a desk does to its vehicles, points and reports: posts, shifts, cover, and what is cleared.

import { isFree, numberField, placeField, placeOf, postAsk, postBack, untilField, untilOf,
  vehicleAsk, vehicleAt } from './allocator-forms.js';
import { farFrom, isEligible } from './allocator-words.js';
import { reference, toTheMetre } from './grid.js';

const SHIFT = 12 * 3600; // seconds that a shift lasts where nothing else is written

// ---- posts

function standbyForm(it, room) {
  const vehicle = vehicleAt(room, it);
  const words = room.points.map((one) => `${one.number} (${one.held} of ${one.cover}`
    + `${vehicle ? `, ${farFrom(one.place, vehicle.place)}` : ''})`);
  const short = room.points.find((one) => one.held < one.cover);
  return { fields: [numberField('point', 'Point', short?.number, 'empty: from its post')],
    note: `Points: ${words.join(', ') || 'none'}.` };
}

const pointOf = ({ point }) => (point.trim() === '' ? null : Number(point));

const STANDBY = { key: 'p', name: 'to a standby point, or from it', of: 'vehicle', button: 'Post',
  fits: isFree, form: standbyForm,
  title: (it) => `Post ${it.vehicle}`,
  request: (it, values) => postAsk(it, pointOf(values)),
  done: (it, values) => (pointOf(values) === null ? `${it.vehicle} has no post.`
    : `${it.vehicle} goes to point ${pointOf(values)}.`),
  undo: (it, _, room) => ({ words: `${it.vehicle} as it was posted`,
    requests: [postAsk(it, vehicleAt(room, it)?.post ?? null)] }) };

// ---- shifts

const dutyAsk = (it, place, until) => vehicleAsk(it, 'duty', { place, until });

function dutyForm(it, room) {
  const place = vehicleAt(room, it)?.place;
  return { fields: [untilField(room, SHIFT), placeField(place ? toTheMetre(place) : '')] };
}

function dutyRequest(it, values, room) {
  const place = placeOf(values);
  const until = untilOf(values, room);
  const words = place.words ?? until.words;
  return words ? { words } : dutyAsk(it, place.text, until.end);
}

/** What puts a vehicle back on duty as it was, while its shift lasts. */
function onDutyAgain(it, _, room) {
  const was = vehicleAt(room, it);
  if (!was || !isEligible(was, room.moment)) return null;
  return { words: `${it.vehicle} on duty again`,
    requests: [dutyAsk(it, reference(was.place, 10), was.shift_end), ...postBack(it, room)] };
}

const DUTY = { key: 'd', name: 'on duty', of: 'vehicle', button: 'On duty', form: dutyForm,
  fits: (room, it) => vehicleAt(room, it)?.status === 0,
  title: (it) => `${it.vehicle} on duty`,
  request: dutyRequest,
  done: (it) => `${it.vehicle} is on duty.`,
  undo: (it) => ({ words: `${it.vehicle} off duty`, requests: [vehicleAsk(it, 'off')] }) };

const OFF = { key: 'f', name: 'off duty', of: 'vehicle', button: 'Off duty',
  fits: (room, it) => [1, 6].includes(vehicleAt(room, it)?.status),
  confirm: (it, room) => (onDutyAgain(it, {}, room) ? ''
    : `${it.vehicle} off duty? Its shift can't be taken up again as it was.`),
  request: (it) => vehicleAsk(it, 'off'),
  done: (it) => `${it.vehicle} is off duty.`,
  undo: onDutyAgain };

// ---- points and reports

function pointForm(it, room) {
  const point = room.pointOf.get(it.point);
  return { fields: [numberField('point', 'Point', it.point, '1 to 99'),
    placeField(point ? toTheMetre(point.place) : ''),
    numberField('cover', 'Cover', point?.cover ?? 1, 'vehicles wanted there, 0 to 9')],
  note: 'A point can be moved, and its cover be 0; it can not be removed.' };
}

const pointAsk = (point, place, cover) => ({ path: `/points/${point}`, body: { cover, place } });

function pointRequest(_, values) {
  const place = placeOf(values);
  return place.words ? place
    : pointAsk(Number(values.point), place.text, Number(values.cover));
}

function pointBack(_, { point }, room) {
  const was = room.pointOf.get(Number(point));
  return was && { words: `point ${was.number} as it was`,
    requests: [pointAsk(was.number, reference(was.place, 10), was.cover)] };
}

const POINT = { key: 't', name: 'make or change a point', of: null, button: 'Set', form: pointForm,
  fits: (_, it) => it.point !== undefined,
  title: () => 'A standby point',
  request: pointRequest,
  done: (_, { point }) => `Point ${Number(point)} is set.`,
  undo: pointBack };

const CLEAR = { key: 'x', name: 'clear the report', of: 'report', button: 'Clear',
  confirm: (it) => `Clear report ${it.report} of ${it.vehicle}? No list shows it then.`,
  request: (it) => ({ path: `/queue/${encodeURIComponent(it.vehicle)}/${it.report}/clear`,
    body: null }),
  done: (it) => `Report ${it.report} of ${it.vehicle} is cleared.` };

export const VEHICLES = [STANDBY, DUTY, OFF, CLEAR, POINT];
