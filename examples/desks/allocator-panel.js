// A list of the page: its title with how many there are and how old they are, lines in pages that
// turn, one line that is selected, and what was done or refused there.

import { wait } from './allocator-words.js';
import { toTheMetre } from './grid.js';
import { element, keep, set, setText } from './nodes.js';

const OPEN_ROWS = 12; // lines of a page where the window is narrow and the list as long as it likes
const PADDING = 3; // pixels above and below the lines
const MOVED = 2000; // milliseconds in which a person may not have seen that the selection moved

export class Panel {
  constructor(name, number, title, lists) {
    Object.assign(this, { name, title, lists, lines: [], at: 0, key: null, movedAt: -Infinity,
      rows: OPEN_ROWS, isMeasured: false });
    this.count = element('b', { class: 'count' });
    this.page = element('span', { class: 'page' });
    this.old = element('span', { class: 'old stale' });
    this.list = element('ul', { id: `${name}-list`, role: 'listbox', tabindex: 0,
      'aria-label': title, class: 'lines' });
    this.none = element('p', { class: 'quiet none' });
    this.said = element('p', { class: 'said', role: 'status' });
    this.turns = [['previous', -1, '\u25c0'], ['next', 1, '\u25b6']].map(([way, by, sign]) =>
      element('button', { type: 'button', class: 'turn', 'aria-label': `${title}: ${way} page`,
        onclick: () => this.turn(by) }, sign));
    this.node = element('section', { class: `panel list ${name}`, 'aria-label': title },
      element('h2', {}, element('kbd', {}, String(number)), ` ${title} `, this.count, this.old,
        this.turns[0], this.page, this.turns[1]),
      this.said, this.list, this.none);
    new ResizeObserver(() => this.resized()).observe(this.list);
  }

  get line() {
    return this.lines[this.at] ?? null;
  }

  /** Whether the selection went to another line by itself, just now. */
  get hasJustMoved() {
    return performance.now() - this.movedAt < MOVED;
  }

  focus() {
    this.list.focus();
  }

  // ---- lines, and which is selected

  /** Shows these lines. Selected stays what was; where that is gone, what stands there now. */
  show(lines, age, isOld) {
    const found = lines.findIndex((it) => it.key === this.key);
    const hasGone = this.key !== null && found < 0;
    this.lines = lines;
    this.at = Math.max(0, Math.min(found < 0 ? this.at : found, lines.length - 1));
    this.key = this.line?.key ?? null;
    if (hasGone) this.movedAt = performance.now();
    this.showAge(age, isOld);
    this.draw();
  }

  showAge(age, isOld) {
    setText(this.old, isOld ? `${wait(Math.floor(age))} old` : '');
  }

  select(at) {
    this.at = Math.max(0, Math.min(at, this.lines.length - 1));
    this.key = this.line?.key ?? null;
    this.movedAt = -Infinity;
    this.draw();
  }

  move(by) {
    this.select(this.at + by);
  }

  turn(by) {
    this.select((Math.floor(this.at / this.rows) + by) * this.rows);
    this.focus();
  }

  find(holds) {
    const at = this.lines.findIndex(holds);
    if (at >= 0) this.select(at);
    return at >= 0;
  }

  // ---- drawing

  /** How many lines the list has room for. It is not measured again until the list's size is
      another, for that costs more than all the rest. */
  measure() {
    const isBound = getComputedStyle(this.list).overflowY !== 'visible';
    const row = this.list.firstChild?.offsetHeight;
    const height = this.list.clientHeight - 2 * PADDING;
    this.rows = isBound && row ? Math.max(1, Math.floor((height + 1) / row)) : OPEN_ROWS;
    this.isMeasured = row > 0;
  }

  resized() {
    this.isMeasured = false;
    this.draw();
  }

  draw() {
    if (!this.list.firstChild) this.drawRows(this.lines.slice(0, 1), 0);
    if (!this.isMeasured) this.measure();
    const { rows } = this;
    const first = Math.floor(this.at / rows) * rows;
    const pages = Math.ceil(this.lines.length / rows);
    this.drawRows(this.lines.slice(first, first + rows), first);
    setText(this.count, String(this.lines.length));
    setText(this.page, pages > 1 ? `page ${first / rows + 1} of ${pages}` : '');
    for (const it of this.turns) it.hidden = pages < 2;
    setText(this.none, this.lines.length ? '' : 'nothing');
    this.node.classList.toggle('empty', !this.lines.length);
  }

  drawRows(lines, first) {
    const placed = lines.map((it, at) => ({ ...it, at: first + at }));
    keep(this.list, placed, (it) => it.key, () => this.row(), (node, it) => this.update(node, it));
    const row = this.line ? `${this.name}-${this.at}` : '';
    set(this.list, { 'aria-activedescendant': row });
  }

  row() {
    const parts = ['age', 'sign', 'what', 'why', 'place'].map((it) =>
      element('span', { class: it }));
    const node = element('li', { role: 'option', onclick: () => this.click(node.at) }, ...parts);
    return Object.assign(node, { parts });
  }

  click(at) {
    this.select(at);
    this.focus();
  }

  update(node, it) {
    node.at = it.at;
    set(node, { id: `${this.name}-${it.at}`, 'data-level': it.level, 'data-key': it.key,
      'aria-selected': it.at === this.at, 'aria-posinset': it.at + 1,
      'aria-setsize': this.lines.length });
    const place = it.place ? toTheMetre(it.place) : '';
    const texts = [it.age, it.sign, it.what, it.why, place];
    node.parts.forEach((part, at) => setText(part, texts[at]));
  }

  // ---- what was done or refused here

  say(words, isRefused = false) {
    this.said.className = `said ${isRefused ? 'bad' : 'good'}`;
    this.said.textContent = words;
  }
}
