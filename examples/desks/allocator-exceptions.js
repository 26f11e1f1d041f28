// What the exceptions of the queue were. The queue has their callsigns and numbers; the rest is in
// the vehicles' reports, of a room that has a path for them. Each exception is asked for once.

import { askInTurn } from './allocator-reading.js';
import { OUT_OF_TURN } from '../wall/ranks.js';

const AT_ONCE = 8; // vehicles that are asked for after a round

const keyOf = ({ number, vehicle }) => `${number} ${vehicle}`;

export class Exceptions {
  #reports = new Map(); // of an exception: its report, or null where the room gave none

  /** The report of an entry; null of one that is no exception, or of which nothing is known. */
  reportOf(entry) {
    return entry.rank === OUT_OF_TURN ? this.#reports.get(keyOf(entry)) ?? null : null;
  }

  /** Asks for the reports of vehicles of which an exception was not asked for; says whether there
      were any. What has left the queue is forgotten. */
  async ask({ queue }) {
    const shown = queue.filter((it) => it.rank === OUT_OF_TURN);
    const isNew = (it) => !this.#reports.has(keyOf(it));
    const asked = shown.filter((it) => !isNew(it));
    const vehicles = [...new Set(shown.filter(isNew).map((it) => it.vehicle))].slice(0, AT_ONCE);
    this.#reports = new Map(asked.map((it) => [keyOf(it), this.reportOf(it)]));
    for (const vehicle of vehicles) {
      const answer = await askInTurn(`/vehicles/${encodeURIComponent(vehicle)}/reports`);
      if (answer.isUnanswered) break;
      const found = new Map(answer.content?.reports.map((it) => [it.number, it]));
      for (const it of shown.filter((one) => one.vehicle === vehicle)) {
        this.#reports.set(keyOf(it), found.get(it.number) ?? null);
      }
    }
    return vehicles.length > 0;
  }
}
