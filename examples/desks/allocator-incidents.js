// What a desk does to an incident: its needs, merging it, and closing it.

import { byDistance, incidentAsk, numberField } from './allocator-forms.js';
import { KINDS, far, isUnserved, servedOf, sum, vehicles } from './allocator-words.js';
import { distance } from './grid.js';

const incidentAt = (room, { incident }) => room.incidentOf.get(incident);

// ---- needs

function needsForm(it, room) {
  const { needs } = incidentAt(room, it) ?? { needs: [1, 0, 0] };
  return { fields: KINDS.map((name, kind) => numberField(`need${kind}`, `${name}s`, needs[kind])) };
}

const needsOf = (values) => KINDS.map((_, kind) => Number(values[`need${kind}`]));

function needsBack(it, _, room) {
  const was = incidentAt(room, it);
  return was && { words: `incident ${it.incident} needs ${vehicles(was.needs)}`,
    requests: [incidentAsk(it, 'needs', { needs: was.needs })] };
}

// ---- merging and closing

/** Where to merge into, with the nearest incidents to choose from. */
function mergeForm(it, room) {
  const incident = incidentAt(room, it);
  const others = room.incidents.filter((one) => one !== incident);
  const near = incident ? byDistance(others, incident).slice(0, 4) : [];
  const words = near.map((one) =>
    `${one.number} (${far(distance(one.place, incident.place))}, class ${one.class})`).join(', ');
  return { fields: [numberField('into', 'Into incident', near[0]?.number)],
    note: `Its calls become the other's. It can't be taken back. Nearest: ${words || 'none'}.` };
}

function closeWords(it, room) {
  const incident = incidentAt(room, it);
  const served = incident && `${vehicles(servedOf(incident))} served it`;
  const lack = !incident ? '' : isUnserved(incident) ? ' Nobody served it.'
    : sum(incident.lack) ? ` It lacks ${vehicles(incident.lack)}; ${served}.` : '';
  return `Close incident ${it.incident}?${lack} It can't be opened again.`;
}

export const INCIDENTS = [
  { key: 'n', name: 'needs', of: 'incident', button: 'Change', form: needsForm,
    title: (it) => `What incident ${it.incident} needs`,
    request: (it, values) => incidentAsk(it, 'needs', { needs: needsOf(values) }),
    done: (it, values) => `Incident ${it.incident} needs ${vehicles(needsOf(values))}.`,
    undo: needsBack },
  { key: 'm', name: 'merge into another', of: 'incident', button: 'Merge', form: mergeForm,
    title: (it) => `Merge incident ${it.incident} into another`,
    request: (it, { into }) => incidentAsk(it, 'merge', { into: Number(into) }),
    done: (it, { into }) => `Incident ${it.incident} went into incident ${Number(into)}.` },
  { key: 'c', name: 'close', of: 'incident', button: 'Close', confirm: closeWords,
    fits: (room, it) => !room.sentTo(it.incident).length,
    request: (it) => incidentAsk(it, 'close'),
    done: (it) => `Incident ${it.incident} is closed.` },
];
