// The field of a place: a reference as typed, or a name of the service's own list, found as one
// types. Up and down choose among the names found, Tab and Enter take one, Escape shuts the list.

import { read, toTheMetre } from './grid.js';
import { element, fill } from './nodes.js';

const SHOWN = 8; // names

/** The plan's areas, or the places, as the server has them; none where it does not answer. */
export async function known(what) {
  try {
    const answer = await fetch(`/data/${what}.json`, { cache: 'no-store' });
    return (await answer.json())[what];
  } catch {
    return [];
  }
}

const plain = (text) => text.normalize('NFD').replace(/\p{M}/gu, '').toLowerCase();

/** The names in which each typed word begins a word; those that begin with the text come first. */
function find(places, text) {
  const words = plain(text).split(/\s+/).filter(Boolean);
  if (!words.length) return [];
  const isFound = ({ words: own }) =>
    words.every((word) => own.some((it) => it.startsWith(word)));
  const begins = ({ plain: own }) => own.startsWith(words.join(' '));
  return places.filter(isFound).sort((one, other) => begins(other) - begins(one)).slice(0, SHOWN);
}

export class PlaceField {
  /** `changed(place)` is called with the metres of what the field names now, or null. */
  constructor(input, list, changed) {
    Object.assign(this, { input, list, changed, places: [], found: [], at: 0, taken: null });
    input.addEventListener('input', () => this.typed());
    input.addEventListener('keydown', (event) => this.pressed(event));
    input.addEventListener('blur', () => this.take());
  }

  setPlaces(places) {
    this.places = places.map(([name, place]) => ({ name, place, plain: plain(name),
      words: plain(name).split(/[^\p{L}\p{N}]+/u) }));
    this.typed();
  }

  typed() {
    this.taken = null;
    this.at = 0;
    this.found = this.reference().place ? [] : find(this.places, this.input.value);
    this.draw();
  }

  pressed(event) {
    if (!this.found.length) return;
    const step = { ArrowDown: 1, ArrowUp: -1 }[event.key];
    if (step) this.at = (this.at + step + this.found.length) % this.found.length;
    else if (event.key === 'Enter') this.take();
    else if (event.key === 'Escape') this.found = [];
    else return;
    event.preventDefault();
    this.draw();
  }

  /** Takes the name that is chosen in the list, where there is one. */
  take(chosen = this.found[this.at]) {
    if (!chosen) return this.draw();
    this.taken = chosen;
    this.input.value = chosen.name;
    this.found = [];
    return this.draw();
  }

  /** What was typed, read as a reference: letters may be small. */
  reference() {
    return read(this.input.value.trim().toUpperCase());
  }

  /** The place to send, as typed or of the name that was taken; else why there is none. */
  value() {
    if (this.taken) return { place: this.taken.place, name: this.taken.name };
    const text = this.input.value.trim().toUpperCase();
    const { fault, words } = read(text);
    if (!fault) return { place: text, name: '' };
    return { words: text && fault === 'square' ? `No place has this name. ${words}` : words };
  }

  /** Sets the field to metres of the map, or to a place as it was sent. */
  set({ metres, place, name }) {
    const known = this.places.find((it) => it.name === name && it.place === place);
    this.input.value = known?.name ?? (metres ? toTheMetre(metres) : place);
    this.typed();
    if (known) this.take(known);
  }

  clear() {
    this.set({ place: '' });
  }

  draw() {
    const { list, found, at, input } = this;
    list.hidden = !found.length;
    input.setAttribute('aria-expanded', String(Boolean(found.length)));
    if (found.length) input.setAttribute('aria-activedescendant', `found-${at}`);
    else input.removeAttribute('aria-activedescendant');
    fill(list, ...found.map((it, nth) => element('li', { id: `found-${nth}`, role: 'option',
      'aria-selected': String(nth === at), onmousedown: () => this.take(it) },
    `${it.name} · ${it.place}`)));
    const { place } = this.value();
    this.changed(place ? read(place).place ?? null : null);
  }
}
