// Sending vehicles: by the room's proposals, by hand, and standing them down.

import { askInTurn } from './allocator-reading.js';
import { byDistance, incidentAsk, isFree, numberField, vehicleAsk, vehicleAt }
  from './allocator-forms.js';
import { KINDS, far } from './allocator-words.js';

/** The proposals of the room, the first of which is chosen. */
async function proposals(it) {
  const answer = await askInTurn(`/incidents/${it.incident}/propose`);
  if (!answer.ok) return { refusal: answer };
  const choices = answer.content.proposals.map((one) => ({ value: one.vehicle, what: one.vehicle,
    words: `${KINDS[one.kind - 1]}, ${far(one.distance)}`,
    warning: one.breaks ? 'breaks cover' : '' }));
  return choices.length ? { fields: [{ name: 'vehicle', label: 'Proposed by the room', choices }] }
    : { isEmpty: true, note: 'No vehicle that it lacks can be proposed.' };
}

/** The number of the nearest incident that lacks a vehicle's kind, and is not its own. */
function nearestLacking(room, it) {
  const vehicle = vehicleAt(room, it);
  const lacking = room.incidents.filter((one) =>
    vehicle && one.lack[vehicle.kind - 1] && one.number !== vehicle.incident);
  return byDistance(lacking, vehicle)[0]?.number;
}

const mobilise = (incident, vehicle) => incidentAsk({ incident }, 'mobilise', { vehicle });
const sentWords = (incident, vehicle, order) =>
  `${vehicle} is sent to incident ${incident}: order ${order}.`;

/** Says where a vehicle was sent already, by a request whose answer was lost. */
async function alreadySent(incident, vehicle) {
  const answer = await askInTurn('/vehicles');
  const isSent = answer.ok && answer.content.vehicles.some((it) =>
    it.vehicle === vehicle && it.incident === incident);
  return isSent ? `${vehicle} was sent to incident ${incident} already.` : '';
}

/** One step, both or nothing: the vehicle loses its order, and gets one for an incident. */
const divert = (vehicle, incident) => ({ path: '/moves',
  body: { moves: [{ incident: null, vehicle }, { incident, vehicle }] } });

/** It is not asked for where the vehicle was sent there, as by a request whose answer was lost. */
const divertTo = (room, { vehicle }, incident) =>
  (vehicleAt(room, { vehicle })?.incident === incident
    ? { words: `${vehicle} was sent to incident ${incident} already.` }
    : divert(vehicle, incident));

function divertBack(room, { vehicle }) {
  const before = vehicleAt(room, { vehicle })?.incident;
  return { words: `divert ${vehicle} back to incident ${before}`,
    requests: [divert(vehicle, before)] };
}

const isOnItsWay = (room, it) => vehicleAt(room, it)?.status === 2;

const takenBack = (vehicle) =>
  ({ words: `stand ${vehicle} down`, requests: [vehicleAsk({ vehicle }, 'standdown')] });

export const SENDING = [
  { key: 'Enter', name: 'propose, and send', of: 'incident', button: 'Send', isRepeated: true,
    title: (it) => `Send to incident ${it.incident}`,
    form: proposals,
    request: (it, { vehicle }) => mobilise(it.incident, vehicle),
    done: (it, { vehicle }, { order }) => sentWords(it.incident, vehicle, order),
    already: (it, { vehicle }) => alreadySent(it.incident, vehicle),
    undo: (it, { vehicle }) => takenBack(vehicle) },
  { key: 'g', name: 'send it to an incident', of: 'vehicle', button: 'Send', fits: isFree,
    title: (it) => `Send ${it.vehicle}`,
    form: (it, room) => ({ fields: [numberField('into', 'To incident', nearestLacking(room, it),
      'the nearest that lacks its kind')] }),
    request: (it, { into }) => mobilise(Number(into), it.vehicle),
    done: (it, { into }, { order }) => sentWords(Number(into), it.vehicle, order),
    already: (it, { into }) => alreadySent(Number(into), it.vehicle),
    undo: (it) => takenBack(it.vehicle) },
  { key: 'j', name: 'divert it to another incident', of: 'vehicle', button: 'Divert',
    fits: isOnItsWay,
    title: (it) => `Divert ${it.vehicle}`,
    form: (it, room) => ({ fields: [numberField('into', 'To incident', nearestLacking(room, it),
      'the nearest that lacks its kind')] }),
    request: (it, { into }, room) => divertTo(room, it, Number(into)),
    done: (it, { into }, { moves }) => sentWords(Number(into), it.vehicle, moves[1].order),
    undo: (it, _, room) => divertBack(room, it) },
  { key: 's', name: 'stand down', of: 'vehicle', button: 'Stand down', fits: isOnItsWay,
    confirm: (it) => `Stand ${it.vehicle} down? Its crew loses the order.`,
    request: (it) => vehicleAsk(it, 'standdown'),
    done: (it) => `${it.vehicle} is stood down.` },
];
