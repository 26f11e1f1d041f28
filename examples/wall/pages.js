// Which division the wall shows, all at first, and which page of its queues. Pages turn by
// themselves; keys and clicks turn them too.

import { htmlNode, keep, set, setText } from './nodes.js';
import { drawLines, linesOf, wholeLines } from './queues.js';
import { drawUrgent } from './urgent.js';

const TURN_EVERY = 8000; // milliseconds
const MOST = 25; // lines that a page can have at most
const STEPS = { ArrowRight: 1, PageDown: 1, ArrowLeft: -1, PageUp: -1 };

/** A page is as many lines as are seen whole; the next begins after its last. */
export class Pages {
  /** `bar` shows what there is to turn to, `urgent` what does not turn; `changed` is run where
      another division is chosen. */
  constructor({ bar, urgent, sheet }, changed) {
    Object.assign(this, { bar, urgent, sheet, changed, division: null, isStopped: false,
      desks: [] });
    this.all = htmlNode('button', '', 'all');
    this.all.addEventListener('click', () => this.choose(null));
    this.chips = htmlNode('span', 'chips');
    this.label = htmlNode('button', 'page');
    this.label.addEventListener('click', () => this.turn(1));
    bar.append(this.all, this.chips, this.label);
    addEventListener('keydown', (event) => this.press(event));
    this.restart();
    this.rest();
  }

  restart() {
    Object.assign(this, { from: 0, shown: 0, before: [] });
  }

  /** The desks that are shown, of all of them. */
  chosen(desks) {
    const found = desks.filter((it) => it.division === this.division);
    return found.length ? found : desks;
  }

  // ---- turning

  choose(division) {
    this.division = division;
    this.restart();
    this.changed();
    this.rest();
  }

  turn(step) {
    const count = linesOf(this.chosen(this.desks)).length;
    if (step > 0) {
      this.before.push(this.from);
      this.from += this.shown;
      if (this.from >= count) this.restart();
    } else {
      this.from = this.before.pop() ?? Math.max(0, count - this.shown);
    }
    this.drawPage();
    this.rest();
  }

  /** Waits a whole turn from now on. */
  rest() {
    clearTimeout(this.timer);
    this.timer = this.isStopped ? null : setTimeout(() => this.turn(1), TURN_EVERY);
  }

  /** Stops turning, or goes on. */
  stop() {
    this.isStopped = !this.isStopped;
    this.drawPage();
    this.rest();
  }

  press(event) {
    if (event.ctrlKey || event.altKey || event.metaKey) return;
    if (/^[1-9]$/.test(event.key)) this.choose(Number(event.key));
    else if (event.key === '0' || event.key === 'Escape') this.choose(null);
    else if (STEPS[event.key]) this.turn(STEPS[event.key]);
    else if (event.key === ' ' && event.target.tagName !== 'BUTTON') this.stop();
    else return;
    event.preventDefault();
  }

  // ---- drawing

  draw(desks, offset) {
    Object.assign(this, { desks, offset });
    const chosen = this.chosen(desks);
    set(this.all, { 'aria-pressed': chosen === desks });
    this.all.hidden = this.chips.hidden = desks.length < 2;
    keep(this.chips, desks, (it) => it.division, (it) => this.makeChip(it), (node, desk) => {
      set(node, { 'aria-pressed': chosen.length === 1 && chosen[0] === desk });
      setText(node.count, String(desk.queue.length));
    });
    drawUrgent(this.urgent, chosen);
    this.drawPage();
  }

  makeChip({ division }) {
    const count = htmlNode('small');
    const node = htmlNode('button', '', htmlNode('b', '', String(division)), count);
    set(node, { 'data-division': division, title: `division ${division}, and what waits in it` });
    node.addEventListener('click', () => this.choose(division));
    return Object.assign(node, { count });
  }

  drawPage() {
    const lines = linesOf(this.chosen(this.desks));
    if (this.from >= lines.length) this.restart();
    const drawTo = (end) =>
      drawLines(this.sheet, lines.slice(this.from, end), this.desks, this.offset);
    const isScrolled = wholeLines(this.sheet) === Infinity;
    if (isScrolled) this.restart();
    drawTo(isScrolled ? lines.length : this.from + MOST);
    this.shown = Math.min(wholeLines(this.sheet), lines.length - this.from);
    drawTo(this.from + this.shown);
    this.drawLabel(lines);
  }

  /** Which of the entries are shown. */
  drawLabel(lines) {
    const countTo = (end) => lines.slice(0, end).filter((it) => it.entry).length;
    const [first, last, all] = [this.from, this.from + this.shown, lines.length].map(countTo);
    const range = last - first === all ? `all ${all}` : `${first + 1}\u2013${last} of ${all}`;
    setText(this.label, `${this.isStopped ? 'stopped:\n' : ''}${range}`);
  }
}
