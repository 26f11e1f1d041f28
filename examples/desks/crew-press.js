// The seven buttons, each at a place of its own, and the line that takes the last press back. A
// button that was pressed rests a while: a second tap of the same finger presses nothing.

import { BUTTONS } from './crew-buttons.js';
import { element, keep, set, setText } from './nodes.js';

const REST = 3000; // milliseconds
const COMES = { skipped: 'skips a button', wrong: 'does not fit now' };

export class Press {
  #restsUntil = new Map(); // of a button's name, by a clock that nobody sets
  #latest = null; // the press that can be taken back

  /** `press(name)` gives whether a press was kept; `takeBack(message)` takes one back. */
  constructor(node, held, { press, takeBack }) {
    Object.assign(this, { node, held, press, takeBack });
    this.back = element('button', { type: 'button', id: 'back', hidden: true,
      onclick: () => this.#takeBack() }, 'Take back');
    held.append(this.back);
  }

  #isResting(name) {
    return performance.now() < (this.#restsUntil.get(name) ?? 0);
  }

  /** A button that was pressed rests; one that could not be does not. */
  async #pressed(name) {
    if (this.#isResting(name)) return;
    this.#restsUntil.set(name, performance.now() + REST);
    if (!await this.press(name)) this.#restsUntil.delete(name);
  }

  #takeBack() {
    this.#restsUntil.delete(this.#latest.content.button);
    this.takeBack(this.#latest);
  }

  /** Draws the buttons as the page's view has them; without one they wait. */
  draw(view) {
    const shown = view?.buttons ?? BUTTONS;
    keep(this.node, shown, (it) => it.name, (it) => this.#make(it), (node, it) => {
      const rests = this.#isResting(it.name);
      node.disabled = !view;
      set(node, { class: it.isLarge && !rests ? 'main' : '', 'aria-disabled': rests });
      setText(node.note, rests ? 'pressed' : COMES[it.comes] ?? it.words);
    });
  }

  #make({ name, label }) {
    const note = element('small');
    const node = element('button', { type: 'button', 'data-button': name,
      onclick: () => this.#pressed(name) }, element('strong', {}, label), note);
    return Object.assign(node, { note });
  }

  /** The last press while it can be taken back, with the seconds until it is sent. */
  drawHeld(messages, outbox) {
    const latest = messages.at(-1);
    const left = latest ? outbox.heldFor(latest) : 0;
    this.#latest = left ? latest : null;
    this.back.hidden = !left;
    const label = BUTTONS.find((it) => it.name === latest?.content.button)?.label;
    setText(this.held.firstElementChild, left
      ? `${label} is sent in ${Math.ceil(left / 1000)} s.` : '');
  }
}
