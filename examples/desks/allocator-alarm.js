// The alarm: incidents of class 1 to which nobody is sent sound and show, in one line however many
// they are. One that somebody looks at is silent for two minutes, and then calls again.

import { element, fill, setText } from './nodes.js';
import { isUnserved, since, urgentFirst } from './allocator-words.js';

const URGENT = 1; // the class that sounds
const EVERY = 1200; // milliseconds from a tone to the next
const TONES = [[880, 0], [660, 0.25]]; // hertz, and seconds after the beginning
const LENGTH = 0.2; // seconds of a tone
const LOOKED = 120; // seconds for which an incident is silent that somebody looked at

export class Alarm {
  #silentUntil = new Map(); // of an incident that somebody looked at, by the room's clock
  #calling = [];
  #sound = new AudioContext();

  constructor(node, look) {
    this.count = element('span');
    this.oldest = element('span');
    this.words = element('span', { class: 'words' }, this.count,
      element('span', { class: 'more' }, ', nobody sent'), this.oldest);
    this.silence = element('span', { class: 'silence' });
    const button = element('button', { type: 'button', onclick: look }, 'Look ',
      element('kbd', {}, 'v'));
    fill(node, this.words, button, this.silence);
    this.node = node;
    for (const it of ['keydown', 'pointerdown']) addEventListener(it, () => this.#sound.resume());
    setInterval(() => this.#beat(), EVERY);
  }

  /** The oldest incident that calls; null where none does. */
  get first() {
    return this.#calling[0]?.number ?? null;
  }

  note({ incidents, moment }) {
    const alone = incidents.filter((it) => it.class === URGENT && isUnserved(it));
    const isSilent = (it) => this.#silentUntil.get(it.number) > moment;
    this.#silentUntil = new Map(alone.filter(isSilent).map((it) =>
      [it.number, this.#silentUntil.get(it.number)]));
    this.#calling = alone.filter((it) => !isSilent(it)).sort(urgentFirst);
    this.#show(moment);
  }

  /** Somebody looked at an incident. */
  looked(number, moment) {
    this.#silentUntil.set(number, moment + LOOKED);
    this.#calling = this.#calling.filter((it) => it.number !== number);
    this.#show(moment);
  }

  #show(moment) {
    const [oldest] = this.#calling;
    setText(this.count, oldest ? `${this.#calling.length} of class 1` : '');
    setText(this.oldest, oldest ? `: oldest ${oldest.number}, ${since(oldest.opened, moment)}`
      : '');
    if (this.node.hidden === Boolean(oldest)) this.node.hidden = !oldest;
    document.title = `${oldest ? '(!) ' : ''}Allocator`;
    setText(this.silence, this.#sound.state === 'running' ? '' : 'Silent until a key or a click.');
  }

  /** Two tones, where the browser lets the page sound. */
  #beat() {
    if (!this.#calling.length || this.#sound.state !== 'running') return;
    for (const [hertz, after] of TONES) this.#tone(hertz, this.#sound.currentTime + after);
  }

  #tone(hertz, from) {
    const tone = new OscillatorNode(this.#sound, { frequency: hertz, type: 'square' });
    const gain = new GainNode(this.#sound, { gain: 0.2 });
    tone.connect(gain).connect(this.#sound.destination);
    tone.start(from);
    tone.stop(from + LENGTH);
  }
}
