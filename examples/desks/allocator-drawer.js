// The form in which a desk chooses, fills in or confirms what it asked for. It opens in the list
// where that began; Enter does it, Escape leaves it, and what the room refuses is shown in it.

import { element, fill } from './nodes.js';

export class Drawer {
  constructor() {
    this.title = element('h3', { id: 'drawer-title' });
    this.body = element('div', { class: 'fields' });
    this.refusal = element('p', { class: 'bad', role: 'alert' });
    this.button = element('button', { class: 'main' });
    this.leave = element('button', { type: 'button', onclick: () => this.close() }, 'Leave ',
      element('kbd', {}, 'Esc'));
    this.node = element('form', { class: 'drawer', 'aria-labelledby': 'drawer-title', hidden: true,
      autocomplete: 'off', onsubmit: (event) => this.submitted(event) }, this.title, this.body,
    this.refusal, element('div', { class: 'row' }, this.button, this.leave));
    this.node.noValidate = true;
  }

  get isOpen() {
    return !this.node.hidden;
  }

  /** Opens in a panel. `send` is given the values, and gives words where it is refused. */
  open(panel, { title, fields = [], note = '', button, send }) {
    Object.assign(this, { panel, send, isSending: false });
    panel.list.before(this.node);
    this.node.hidden = false;
    this.title.textContent = title;
    this.refusal.textContent = '';
    fill(this.button, `${button} `, element('kbd', {}, 'Enter'));
    this.button.hidden = !button;
    fill(this.body, note ? element('p', { class: 'note' }, note) : null, ...fields.map(fieldOf));
    const first = this.node.querySelector('input:checked, input:not([type=radio])');
    (first ?? (button ? this.button : this.leave)).focus();
    first?.select?.();
    panel.draw();
  }

  close() {
    if (!this.isOpen) return;
    this.node.hidden = true;
    this.panel.draw();
    this.panel.focus();
  }

  /** Sends once, however often Enter comes meanwhile. */
  async submitted(event) {
    event.preventDefault();
    if (this.isSending || this.button.hidden) return;
    const { send, panel } = this;
    this.isSending = true;
    this.refusal.textContent = '';
    const words = await send(Object.fromEntries(new FormData(this.node)));
    const isStill = this.isOpen && this.send === send;
    if (isStill) this.isSending = false;
    if (words && isStill) this.refusal.textContent = words;
    else if (words) panel.say(words, true); // it was left meanwhile
  }
}

let fields = 0; // that were made, so that each has an id of its own

function fieldOf({ name, label, value = '', choices, mode = 'text', size = 12, hint = '' }) {
  if (choices) return choiceOf(name, label, choices);
  const id = `field-${fields += 1}`;
  return element('div', { class: 'field' }, element('label', { for: id }, label),
    element('input', { id, name, value, inputmode: mode, size, spellcheck: 'false' }),
    hint ? element('small', { class: 'quiet' }, hint) : null);
}

/** Choices one below the other, of which the first is chosen. */
function choiceOf(name, label, choices) {
  return element('fieldset', {}, element('legend', {}, label), ...choices.map((it, at) =>
    element('label', { class: 'choice' },
      element('input', { type: 'radio', name, value: it.value, checked: at === 0 }),
      element('span', { class: 'what' }, it.what), element('span', {}, it.words),
      it.warning ? element('strong', { class: 'look' }, it.warning) : null)));
}
