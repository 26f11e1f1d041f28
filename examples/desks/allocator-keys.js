// The keys of the page: which one does what, those that fit the selected line, and all of them.

import { ACTIONS } from './allocator-actions.js';
import { element, fill } from './nodes.js';

const MOVES = [['↑ ↓', 'another line'], ['PgUp PgDn', 'another page'],
  ['Home End', 'first, last line'], ['1 to 6', 'another list'],
  ['Esc', 'leave a form, or an incident']];

export const isTyped = (node) => node.closest('input, textarea, select') !== null;

/** Moves the selection of a panel by a key; says whether it was one for that. */
export function move(panel, key) {
  const moves = { ArrowDown: () => panel.move(1), ArrowUp: () => panel.move(-1),
    PageDown: () => panel.turn(1), PageUp: () => panel.turn(-1), Home: () => panel.select(0),
    End: () => panel.select(Infinity) };
  if (!panel.select || !Object.hasOwn(moves, key)) return false;
  moves[key]();
  return true;
}

const fits = (action, room, target) => (action.of === null || target[action.of] !== undefined)
  && (action.fits?.(room, target) ?? true);

/** The keys that are normal at a line, as buttons, and those of the page. */
export function drawKeys(node, room, target, ofPage, press) {
  const found = [...ACTIONS.filter((it) => fits(it, room, target)), ...ofPage];
  const names = found.map((it) => it.key).join(' ');
  if (node.names === names) return;
  node.names = names;
  fill(node, ...found.map(({ key, name }) => element('button', { type: 'button',
    onclick: () => press(key) }, element('kbd', {}, key), ` ${name}`)));
}

/** All keys, in a dialog. */
export function showKeys(dialog, ofPage) {
  const row = ([key, name]) =>
    [element('dt', {}, element('kbd', {}, key)), element('dd', {}, name)];
  const named = [...ACTIONS, ...ofPage].map(({ key, name, of }) =>
    [key, of ? `${name} (${of})` : name]);
  fill(dialog, element('h2', {}, 'Keys'),
    element('dl', {}, ...[...MOVES, ...named].flatMap(row)),
    element('form', { method: 'dialog' }, element('button', { class: 'main' }, 'Leave ',
      element('kbd', {}, 'Esc'))));
  dialog.showModal();
}
