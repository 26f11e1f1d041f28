// What the room gives the desk: its lists, read one after another and over again, and whatever else
// is asked. Never two requests at once; a round of the lists every two seconds, and once something
// was done.

import { ask } from './room.js';

export const LISTS = ['queue', 'incidents', 'vehicles', 'points', 'offers', 'loans'];
const EVERY = 2000; // milliseconds from the start of a round to the next
const OLD = 2; // whole seconds, above which a list says how old it is

// A page behind others gets its own timers once a minute only; a worker's are on time.
const timer = new Worker(new URL('allocator-clock.js', import.meta.url));
let wake = () => {};

/** Waits so long, or until it is woken. */
function sleep(milliseconds) {
  return new Promise((resolve) => {
    wake = timer.onmessage = resolve;
    timer.postMessage(milliseconds);
  });
}

let last = Promise.resolve();

/** Asks the room once all that was asked before is answered. */
export function askInTurn(path, body) {
  last = last.then(() => ask(path, body));
  return last;
}

/** The lists as the room answered them last, and when each was asked for. */
export class Reading {
  #lists = Object.fromEntries(LISTS.map((it) => [it, []]));
  #asked = {};
  #clock = { moment: Date.now() / 1000, at: performance.now() };
  #isHurried = false;
  round = 0; // the number of the last round that began
  fault = ''; // why the last round ended early
  drawFault = ''; // why what it answered is not shown

  get isWhole() {
    return LISTS.every((it) => it in this.#asked);
  }

  /** The seconds since a list was asked for; of one that never came, since the page began. */
  age(...names) {
    const oldest = Math.min(...names.map((it) => this.#asked[it] ?? 0));
    return (performance.now() - oldest) / 1000;
  }

  isOld(...names) {
    return Math.floor(this.age(...names)) > OLD;
  }

  /** Now, by the room's clock: whole seconds of UTC. */
  get moment() {
    return Math.floor(this.#clock.moment + (performance.now() - this.#clock.at) / 1000);
  }

  /** Asks the room to do something; then the lists are read anew, and again where they are being
      read. The page keeps which round will show what was done. */
  async act(path, body) {
    const { dataset } = document.documentElement;
    dataset.due = Infinity;
    const answer = await askInTurn(path, body);
    this.#isHurried = true;
    dataset.due = this.round + 1;
    wake();
    return answer;
  }

  /** Reads each list; what the room does not answer ends the round. */
  async read() {
    this.#isHurried = false;
    this.round += 1;
    document.documentElement.dataset.round = this.round;
    for (const name of LISTS) {
      const began = performance.now();
      const answer = await askInTurn(`/${name}`);
      this.fault = answer.ok ? '' : answer.words;
      if (!answer.ok) return;
      this.#lists[name] = answer.content[name];
      this.#asked[name] = began;
      this.#clock = { moment: answer.moment, at: performance.now() };
    }
  }

  /** Waits until the next round may begin. */
  async pause(milliseconds) {
    if (!this.#isHurried) await sleep(Math.max(0, milliseconds));
  }

  /** The lists with what is looked up in them, at the moment of now. */
  room() {
    const by = (name, key) => new Map(this.#lists[name].map((it) => [it[key], it]));
    const sent = Map.groupBy(this.#lists.vehicles, (it) => it.incident);
    const room = { ...this.#lists, moment: this.moment, incidentOf: by('incidents', 'number'),
      vehicleOf: by('vehicles', 'vehicle'), pointOf: by('points', 'number'),
      offerOf: by('offers', 'vehicle'), loanOf: by('loans', 'vehicle'),
      sentTo: (number) => sent.get(number) ?? [] };
    return { ...room, division: divisionOf(room) };
  }
}

/** The desk's division, which no list has by itself; null before there is a vehicle. */
function divisionOf({ vehicles, vehicleOf, loans, loanOf, offers }) {
  const own = vehicles.find((it) => !loanOf.has(it.vehicle));
  if (own) return own.home;
  const [loan] = loans;
  if (loan) return vehicleOf.has(loan.vehicle) ? loan.borrower : loan.lender;
  return offers[0]?.borrower ?? null;
}

/** Reads round after round and shows each, whatever goes wrong with one. */
export async function readOn(reading, show) {
  for (;;) {
    const began = performance.now();
    try {
      await reading.read();
      await show();
      reading.drawFault = '';
    } catch (fault) {
      reading.drawFault = 'The page can not show what the room answers.';
      console.error(fault);
    }
    await reading.pause(EVERY - (performance.now() - began));
  }
}
