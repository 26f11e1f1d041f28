// What became of a position's calls: the last in large letters, and a line for each.

import { read, toTheMetre } from './grid.js';
import { element, fill, keep, setText } from './nodes.js';
import { vehicles } from '../wall/words.js';

/** The words of a call's answer: large ones, what follows them, and how they look. */
function wordsOf(call) {
  const { answer } = call;
  if (!answer) return ['WAITING', 'It is sent again until the room answers.', 'look'];
  if (!answer.ok) return ['NOT TAKEN', answer.words, 'bad'];
  const { division, incident, linked } = answer.content;
  const where = `Division ${division}, incident ${incident}`;
  return linked ? ['LINKED', `${where}: others called about it before.`, 'look']
    : ['NEW', where, 'good'];
}

function placeOf({ content, about }) {
  const place = toTheMetre(read(content.place).place);
  return about?.name ? `${about.name} · ${place}` : place;
}

export function showAnswer(node, call) {
  const [large, words, look] = call ? wordsOf(call)
    : ['READY', 'A call is sent by Enter.', 'quiet'];
  show(node, `${call?.number} ${large}`, [large, words, look],
    call ? `Call ${call.number}: ${placeOf(call)}` : '');
}

/** Says in the same place that the call of the form could not be kept. */
export function showUnkept(node, fault) {
  show(node, `NOT SENT ${fault}`, ['NOT SENT',
    `This browser could not keep the call: ${fault} The form still has it.`, 'bad'],
  'Send it again, or open the page anew and type it again.');
}

/** Shows large words, what follows them, and how they look; once, so that it is read aloud once. */
function show(node, key, [large, words, look], more) {
  if (node.dataset.shown === key) return;
  node.dataset.shown = key;
  fill(node, element('p', { class: `${look} loud` }, large), element('div', {},
    element('p', { class: 'words' }, words), more && element('p', { class: 'quiet' }, more)));
}

/** A line for each call; `takeAgain` puts one that was refused back into the form. */
export function showCalls(list, calls, takeAgain) {
  keep(list, calls, (it) => it.about?.id ?? it.number, lineOf, (node, call) => {
    const [large, words, look] = wordsOf(call);
    const { number, content, passedOver } = call;
    node.call = call;
    node.again.onclick = () => takeAgain(node.call);
    node.again.hidden = !call.answer || call.answer.ok;
    node.state.className = look;
    setText(node.state, `${large}. ${words}`);
    setText(node.what, `Call ${number}: class ${content.class}, ${placeOf(call)}, `
      + `${vehicles(content.needs)}${content.note && `, “${content.note}”`}`);
    setText(node.passed, passedOver.length
      ? `Passed over, for other calls had them: serials ${passedOver.join(', ')}.` : '');
  });
}

function lineOf() {
  const line = element('li');
  line.what = element('p');
  line.state = element('p');
  line.passed = element('p', { class: 'bad' });
  line.again = element('button', { type: 'button' }, 'Put back into the form');
  line.append(line.what, line.state, line.passed, line.again);
  return line;
}
