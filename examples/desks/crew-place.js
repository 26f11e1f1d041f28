// Where the crew is: the phone's position on the National Grid, or a reference typed by hand.
//
//   const place = new Place(section);
//   place.now()      { text: 'TQ30008000' }, or { words } that say why there is none
//   place.sent()     a report took the place: what was typed by hand counts once
//   place.show()     shows again how old the position is
//   place.offer(['TQ300800'])   references that a tap takes over into the field

import { gridOf, read, reference } from './grid.js';
import { element, keep, setText } from './nodes.js';
import { wait } from '../wall/words.js';

const DIGITS = 8; // to 10 m, which is what a phone's position is good for
const OLD = 60; // seconds

const FAULTS = {
  1: 'This page may not use the phone\u2019s position. Type the place.',
  2: 'The phone finds no position. Type the place.',
  3: 'The phone has not found its position yet. Type the place, or wait.',
};

export class Place {
  constructor(section) {
    this.fix = null; // the phone's last position
    this.fault = 'The phone looks for its position.';
    this.words = element('p', { id: 'fix' });
    this.field = element('input', { id: 'hand', autocomplete: 'off', spellcheck: 'false',
      autocapitalize: 'characters', placeholder: 'TQ 300 800', 'aria-describedby': 'fault',
      oninput: () => this.show() });
    this.wrong = element('p', { id: 'fault', class: 'bad', role: 'status' });
    this.offers = element('div', { class: 'row' });
    section.append(this.words, element('label', { for: 'hand' }, 'Or type it, for the next button'),
      this.field, this.wrong, this.offers);
    this.watch();
    this.show();
  }

  watch() {
    if (!navigator.geolocation) {
      this.fault = FAULTS[2];
      return;
    }
    navigator.geolocation.watchPosition((it) => this.found(it), (it) => {
      this.fault = FAULTS[it.code] ?? FAULTS[2];
      if (it.code === it.PERMISSION_DENIED) this.fix = null;
      this.show();
    }, { enableHighAccuracy: true, maximumAge: 5000, timeout: 20000 });
  }

  found({ coords, timestamp }) {
    const text = reference(gridOf(coords.latitude, coords.longitude), DIGITS);
    this.fix = text ? { text, within: Math.round(coords.accuracy), at: timestamp } : null;
    this.fault = 'The phone is outside of the squares TQ, TL, SU and SP. Type the place.';
    this.show();
  }

  /** What was typed, in the letters that the room reads. */
  typed() {
    return this.field.value.trim().toUpperCase();
  }

  now() {
    const text = this.typed();
    if (!text) return this.fix ? { text: this.fix.text } : { words: this.fault };
    const found = read(text);
    return found.place ? { text } : { words: found.words };
  }

  sent() {
    this.field.value = '';
    this.show();
  }

  focus() {
    this.field.focus();
  }

  offer(references) {
    keep(this.offers, references, (it) => it, (it) => element('button', { type: 'button',
      onclick: () => { this.field.value = it; this.show(); } }, `Take ${it}`), () => {});
  }

  show() {
    const text = this.typed();
    setText(this.wrong, text ? read(text).words ?? '' : '');
    this.words.className = this.fix && !this.isOld() ? '' : 'look';
    setText(this.words, this.fix ? this.fixWords() : this.fault);
  }

  age() {
    return Math.max(0, (Date.now() - this.fix.at) / 1000);
  }

  isOld() {
    return this.age() > OLD;
  }

  fixWords() {
    const { text, within } = this.fix;
    const old = this.isOld() ? `, ${wait(this.age())} old` : '';
    return `By the phone: ${text}, within ${within} m${old}`;
  }
}
