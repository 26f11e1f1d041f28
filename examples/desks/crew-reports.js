// What was pressed: what waits unsent, with its age, and what became of the rest, in words.

import { BUTTONS } from './crew-buttons.js';
import { element, keep, set, setText } from './nodes.js';
import { STATUSES, wait } from '../wall/words.js';

const SHOWN = 20;

const OUTCOMES = {
  normal: (it) => `Taken: you are ${STATUSES[it.status]}.`,
  skipped: (it) => `Taken: you are ${STATUSES[it.status]}. A button before it was left out; `
    + 'your desk sees that.',
  wrong: (it) => `Not taken: it does not fit, for you are ${STATUSES[it.status]}. `
    + 'Your desk sees that.',
  late: () => 'Not taken: a report with a later number came before it. Your desk sees that. '
    + 'Press it again where it still holds.',
  stale: () => 'Not taken: it is about an order that you no longer have. Your desk sees that.',
};

const labelOf = (name) => BUTTONS.find((it) => it.name === name).label;

/** What became of a report; nothing while it waits. */
export function outcomeWords({ answer }) {
  if (!answer) return '';
  if (!answer.ok) return answer.isWithheld ? answer.words : `Refused: ${answer.words}`;
  return OUTCOMES[answer.content.outcome](answer.content);
}

const isTaken = ({ answer }) =>
  answer?.ok && ['normal', 'skipped'].includes(answer.content.outcome);

/** How long ago something was pressed. */
const ago = (message) => wait(Math.max(0, (Date.now() - message.about.pressed) / 1000));

function makeReport() {
  const what = element('strong');
  const became = element('span');
  return Object.assign(element('li', {}, what, became), { what, became });
}

const passedWords = ({ passedOver }) => (passedOver.length
  ? ` The number ${passedOver.join(', ')} was another report\u2019s, and was passed over.` : '');

function updateReport(node, it) {
  const { button, order, place } = it.content;
  const about = order ? `, order ${order}` : '';
  setText(node.what, `${labelOf(button)} at ${place}${about}, number ${it.number}`);
  setText(node.became, it.answer ? `${outcomeWords(it)}${passedWords(it)}`
    : `Not sent yet, waits ${ago(it)}.`);
  set(node, { 'data-number': it.number, 'data-button': button,
    class: it.answer ? (isTaken(it) ? 'good' : 'bad') : 'look' });
}

/** Draws the last reports, the latest first. */
export function drawReports(list, line, messages) {
  const waiting = messages.filter((it) => !it.answer);
  const count = waiting.length === 1 ? '1 button is' : `${waiting.length} buttons are`;
  setText(line, waiting.length ? `${count} not sent yet, the first since ${ago(waiting[0])}. `
    + 'This page sends again by itself; leave it open.' : '');
  keep(list, messages.slice(-SHOWN).reverse(), (it) => it.number, makeReport, updateReport);
}
