// Since when each vehicle has its status. The room's lists don't say it: its history does, of those
// that are sent; of the others the page knows what it saw itself.

import { askInTurn } from './allocator-reading.js';

const MOMENTS = { 2: 'ordered', 3: 'scene', 4: 'left', 5: 'hospital' };

export class Stays {
  #seen = new Map(); // of a callsign: what it was as the page saw it, since when, and how sure
  hasHistory = true;

  /** Since when a vehicle has its status, and whether that is exact; nothing of one not seen. */
  of({ vehicle }) {
    return this.#seen.get(vehicle) ?? null;
  }

  /** Notes what the vehicles are now. What changed between two rounds is known to a few seconds. */
  note({ vehicles, moment }) {
    const before = this.#seen;
    this.#seen = new Map(vehicles.map((it) => {
      const was = before.get(it.vehicle);
      const isSame = was && was.status === it.status && was.incident === it.incident;
      return [it.vehicle, isSame ? was : { status: it.status, incident: it.incident, moment,
        isExact: Boolean(was) }];
    }));
  }

  /** Asks the history for one vehicle at work of which the beginning is not known. */
  async askOne() {
    const wanting = [...this.#seen].find(([, it]) =>
      !it.isExact && !it.isAsked && it.incident !== null && it.status in MOMENTS);
    if (!wanting || !this.hasHistory) return;
    const [vehicle, stay] = wanting;
    const answer = await askInTurn(`/incidents/${stay.incident}`);
    this.hasHistory = answer.number !== 36;
    if (answer.isUnanswered) return;
    stay.isAsked = true;
    const turn = answer.content?.turns.find((it) => it.vehicle === vehicle && it.ended === null);
    const moment = turn?.[MOMENTS[stay.status]];
    if (moment != null) Object.assign(stay, { moment, isExact: true });
  }
}
