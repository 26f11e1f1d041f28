// An incident's own page: its calls with their notes, and its turns with their moments, of a room
// that has a path for them. Of one that has none it shows what the lists know.

import { askInTurn } from './allocator-reading.js';
import { refusalWords } from './allocator-acting.js';
import { incidentWhy, vehicleWhy } from './allocator-lines.js';
import { KINDS, clock, far, since, vehicles } from './allocator-words.js';
import { distance, toTheMetre } from './grid.js';
import { element, fill } from './nodes.js';

const NO_PATH = 36;
const STATES = ['active', 'closed', 'merged'];
const CALLS = ['Position', 'Serial', 'At', 'Class', 'Needs', 'Place', 'Linked', 'Note'];
const TURNS = ['Vehicle', 'Order', 'Kind', 'Ordered', 'Acknowledged', 'Scene', 'Left', 'Hospital',
  'Ended', ''];

/** A table with a heading; a cell is text, or texts and links. */
export function table(caption, heads, rows) {
  const line = (cells, name) => element('tr', {}, ...cells.map((it) =>
    element(name, name === 'th' ? { scope: 'col' } : {}, ...[it].flat())));
  return element('table', {}, element('caption', {}, caption),
    element('thead', {}, line(heads, 'th')),
    element('tbody', {}, ...rows.map((it) => line(it, 'td'))));
}

const time = (moment) => (moment === null ? '–' : clock(moment));

/** The way to another incident's page. */
const linkTo = (number) =>
  element('a', { href: `#incident-${number}`, class: 'target' }, `incident ${number}`);

export class IncidentPage {
  hasJustMoved = false;
  number = null;

  constructor(leave) {
    this.title = element('h2', { tabindex: -1 });
    this.head = element('p', {});
    this.said = element('p', { class: 'said', role: 'status' });
    this.list = element('div', { class: 'tables' });
    const back = element('button', { type: 'button', onclick: leave }, 'Lists ',
      element('kbd', {}, 'Esc'));
    this.node = element('section', { id: 'incident', class: 'panel', hidden: true,
      'aria-label': 'Incident' }, back, this.title, this.head, this.said, this.list);
  }

  get line() {
    return { target: { incident: this.number } };
  }

  focus() {
    this.title.focus();
  }

  draw() {}

  say(words, isRefused = false) {
    this.said.className = `said ${isRefused ? 'bad' : 'good'}`;
    this.said.textContent = words;
  }

  /** Shows an incident, or none. */
  turnTo(number) {
    this.number = number;
    this.node.hidden = number === null;
    fill(this.list);
    this.said.textContent = this.head.textContent = '';
    this.title.textContent = number === null ? '' : `Incident ${number}`;
    this.shown = null;
  }

  /** Asks the room for it, and shows what it answers or what the lists know. */
  async read(reading) {
    const { number } = this;
    if (number === null) return;
    const answer = await askInTurn(`/incidents/${number}`);
    if (this.number !== number) return;
    if (answer.ok) this.#showHistory(answer.content, reading.room());
    else if (answer.number === NO_PATH) this.#showLists(reading.room());
    else if (!answer.isUnanswered) this.head.textContent = refusalWords(answer);
  }

  #showHistory(it, room) {
    this.head.textContent = `Class ${it.class}, ${toTheMetre(it.place)}, ${STATES[it.state]}; `
      + `opened ${clock(it.opened)}, ${since(it.opened, room.moment)} ago; first order `
      + `${time(it.first_order)}; needs ${vehicles(it.needs)}; served by `
      + `${vehicles(it.served) || 'nobody'}.`;
    const content = JSON.stringify(it);
    if (content === this.shown) return;
    this.shown = content;
    fill(this.list, it.into === null ? null : element('p', {}, 'It was merged into ',
      linkTo(it.into), ', and its calls with it.'),
    table('Calls', CALLS, it.calls.map((one) => [one.position, one.serial, time(one.moment),
      one.class, vehicles(one.needs), toTheMetre(one.place),
      withOrigin(callWords(one, it), one.given, it), one.note])),
    table('Turns', TURNS, it.turns.map((one) => [one.vehicle, one.order, KINDS[one.kind - 1],
      time(one.ordered), time(one.acknowledged), time(one.scene), time(one.left),
      time(one.hospital), time(one.ended), withOrigin(turnWords(one, it), one.incident, it)])));
  }

  /** Of a room without such a path: its line, and the vehicles that are sent to it now. */
  #showLists(room) {
    const it = room.incidentOf.get(this.number);
    const words = it ? `Class ${it.class}, ${toTheMetre(it.place)}; opened ${clock(it.opened)}, `
      + `${since(it.opened, room.moment)} ago; needs ${vehicles(it.needs)}; calls: ${it.calls}; `
      + `${incidentWhy(room, it)}.` : 'No active incident has this number.';
    this.head.textContent = 'This room does not show calls, notes and moments of an incident. '
      + words;
    fill(this.list, table('Vehicles sent now', ['Vehicle', 'Kind', 'Place', ''],
      room.sentTo(this.number).map((one) => [one.vehicle, KINDS[one.kind - 1],
        toTheMetre(one.place), vehicleWhy(room, one)])));
  }
}

/** Words of a call or a turn; where it came with an incident that was merged into this one, with
    which. */
const withOrigin = (words, number, incident) => (number === incident.number ? words
  : [`${words ? `${words}, ` : ''}came with `, linkTo(number)]);

/** Whether a call was the incident's first, or else how far off it was. */
function callWords(call, incident) {
  const away = far(distance(call.place, incident.place));
  if (call.linked) return `linked, ${away}`;
  return call.given === incident.number ? 'first' : away;
}

/** What its moments don't say: it was stood down, or ordered before a call made it urgent. */
function turnWords(turn, incident) {
  const raised = incident.calls.filter((it) => it.moment > turn.ordered)
    .map((it) => it.class);
  const before = incident.calls.filter((it) => it.moment <= turn.ordered).map((it) => it.class);
  const isLate = turn.ended === null && Math.min(...raised) < Math.min(...before);
  return [turn.stood_down ? 'stood down' : '',
    isLate ? `its order does not say class ${Math.min(...raised)}` : ''].filter(Boolean).join(', ');
}
