// The order in large letters, with what is known of its incident: its class now, and the notes of
// its calls. What came since the crew saw it is marked, until the crew says that it saw it.

import { positionOf, toTheMetre } from './grid.js';
import { element, fill } from './nodes.js';

const MOBILISED = 2;
const UNSEEN = 1000; // milliseconds from what is drawn to the first tap of one who can have seen it

export class OrderPanel {
  /** `saw()` is called where the crew says that it saw what is marked. */
  constructor(node, saw) {
    Object.assign(this, { node, saw, marked: [] });
  }

  /** Draws it anew only where it changes, for it is read aloud, with a new note in sight. `post` is
      the standby point. */
  draw({ status, isAcknowledged, job, taken }, post) {
    const isNew = status === MOBILISED && !isAcknowledged;
    const drawn = JSON.stringify([job, post, isNew, taken]);
    if (drawn === this.drawn) return;
    this.drawn = drawn;
    this.drawnAt = performance.now();
    this.node.classList.toggle('new', isNew);
    fill(this.node, taken > 0 && element('p', { class: 'look' },
      `Stood down: order ${taken} was taken away.`),
    isNew && element('p', { class: 'look' }, 'New order: press Mobile.'),
    ...(job ? this.#jobNodes(job) : [element('p', { class: 'loud' }, 'No order')]),
    post !== null && element('p', {}, `Wait at standby point ${post}.`));
    this.#bringInSight();
  }

  /** A note that joined the others since the last drawing. */
  #bringInSight() {
    const marked = [...this.node.querySelectorAll('li.look')];
    const joined = marked.find((it) => !this.marked.includes(it.textContent));
    joined?.scrollIntoView({ block: 'nearest' });
    this.marked = marked.map((it) => it.textContent);
  }

  /** The place to the metre, and as a link to the phone's map. */
  #jobNodes(job) {
    const position = positionOf(job.place).map((it) => it.toFixed(5)).join();
    return [
      element('p', { class: 'row' }, ...classNodes(job), `Order ${job.order}`,
        element('a', { class: 'target', href: `geo:${position}?q=${position}` }, 'Map')),
      element('p', { class: 'loud' }, toTheMetre(job.place)),
      element('p', {}, `Incident ${job.incident} of division ${job.division}`),
      job.notes.length > 0 && element('ul', { 'aria-label': 'Notes of its calls' },
        ...job.notes.map(noteNode)),
      job.hasNews && element('button', { type: 'button', onclick: () => this.#seen() }, 'Seen'),
    ];
  }

  /** The button goes, and the keys stay with the order. */
  #seen() {
    if (performance.now() - this.drawnAt < UNSEEN) return;
    this.saw();
    this.node.focus();
  }
}

/** The incident's class now, and beside it the one that the order was given with. */
function classNodes({ class: now, ordered, isClassNew }) {
  return [
    element('strong', { class: 'class', 'data-class': now }, `Class ${now}`),
    now !== ordered && element('span', { class: isClassNew && 'look' },
      `${isClassNew ? 'New: ' : ''}was class ${ordered}`),
  ];
}

const noteNode = ({ text, isNew }) =>
  element('li', { class: isNew && 'look' }, isNew && element('strong', {}, 'New: '), text);
