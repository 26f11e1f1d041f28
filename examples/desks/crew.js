// The crew's page: asks for the job every two seconds, and sends what is pressed through the
// outbox, which keeps it until its answer came. What is shown is crew-view.js's to say.

import { askJob } from './crew-asking.js';
import { isWithheld } from './crew-buttons.js';
import { keepFiles, keepRoom, lastRoom, roomName } from './crew-kept.js';
import { Notice } from './crew-notice.js';
import { OrderPanel } from './crew-order.js';
import { Place } from './crew-place.js';
import { Press } from './crew-press.js';
import { drawReports } from './crew-reports.js';
import { heard, saw, view } from './crew-view.js';
import { reference } from './grid.js';
import { byId, setText } from './nodes.js';
import { openOutbox } from './outbox.js';
import { ask } from './room.js';
import { signedIn } from './sign.js';
import { STATUSES, wait } from '../wall/words.js';

const ASK_EVERY = 2000; // milliseconds
const STALE_AFTER = 6000; // milliseconds
const HOLD = 5000; // milliseconds in which a press can be taken back
const DIGITS = 10; // of a place: to the metre, as the room has it
const NUMBERED_FROM = Date.UTC(2026, 0, 1) / 1000; // seconds: see begin()

const token = signedIn();
const place = new Place(byId('place'));
const notice = new Notice();
const orderPanel = new OrderPanel(byId('order'), () => { keep(saw(kept)); draw(); });
const buttons = new Press(byId('buttons'), byId('held'), { press, takeBack });
let outbox = null;
let messages = []; // of the outbox, in the order of their numbers
let kept = null; // what was heard of the room last, as crew-view.js keeps it
let heardAt = 0; // when, by a clock that nobody sets
let refusal = null; // why the last question for the order got no answer
let answered = 0; // the number of the last report that is answered

/** What another tab, or this page before, heard of the room. */
function recall() {
  const { kept: last, ago } = lastRoom(token);
  kept = last;
  heardAt = performance.now() - ago;
}

function keep(it) {
  kept = it;
  keepRoom(token, kept, performance.now() - heardAt);
}

// ---- drawing

function draw() {
  const shown = kept && view(kept, messages);
  drawTrouble(shown);
  drawReports(byId('reports'), byId('waiting'), messages);
  place.show();
  buttons.draw(outbox.state === 'ready' ? shown : null);
  buttons.drawHeld(messages, outbox);
  if (!shown) return;
  const waits = messages.some((it) => !it.answer) ? ', not sent yet' : '';
  setText(byId('status'), `${STATUSES[shown.status]}${waits}`);
  orderPanel.draw(shown, kept.room.post);
  place.offer(shown.job ? [reference(shown.job.place, DIGITS)] : []);
  notice.note(shown);
}

/** Says that the room is silent, and since when; or at once that it refuses; or that the page has
    heard of a change and not yet which. */
function drawTrouble(shown) {
  const silent = performance.now() - heardAt;
  const refused = [refusal, outbox.trouble].find((it) => it && !it.isUnanswered);
  const since = `for ${wait(silent / 1000)}${kept ? ': what you see is as old as that' : ''}`;
  const behind = shown?.isBehind ? 'This may be changing. The page asks the room.' : '';
  const words = refused?.words
    ?? (silent > STALE_AFTER ? `No answer from the room ${since}.` : behind);
  const ready = words && outbox.state !== 'ready' ? ' The buttons wait for its first answer.' : '';
  setText(byId('trouble'), words + ready);
  document.body.classList.toggle('silent', Boolean(words));
}

// ---- pressing

/** Keeps a press with the order that is shown, and whether that could be. */
async function press(button) {
  const { text, words } = place.now();
  setText(byId('refused'), words ? `Not pressed, for the place is missing. ${words}` : '');
  if (words) {
    place.focus();
    return false;
  }
  try {
    const { last: order } = view(kept, messages);
    await outbox.put({ button, order, place: text }, { pressed: Date.now() });
    place.sent();
    return true;
  } catch (fault) {
    setText(byId('refused'), `Not pressed, for this browser keeps nothing: ${fault.message}`);
    return false;
  }
}

async function takeBack({ number }) {
  const isBack = await outbox.takeBack(number);
  setText(byId('refused'), isBack ? '' : 'Not taken back: it was sent just now.');
}

/**
 * Why a press is not sent after all. The room takes Home with any order, so it would end one that
 * came after it was pressed: the order is asked for first. What comes after that answer and before
 * the report is ended all the same; only the room could refuse it.
 */
async function refuse({ content, isTried }) {
  if (content.button !== 'home') return null;
  const answer = await hear();
  if (!answer.ok) return answer;
  const order = kept.room.order?.order ?? null;
  const words = `Not sent${isTried ? ' again' : ''}: order ${order} came before it.`;
  return isWithheld({ order }, content) ? { ok: false, isWithheld: true, number: 0, words } : null;
}

// ---- asking

/** What was changed in the outbox. The room is asked anew once it has answered a report. */
async function changed() {
  messages = await outbox.messages();
  if (outbox.state === 'unknown') begin(outbox.trouble);
  const last = messages.filter((it) => it.answer).at(-1);
  if (last && last.number > answered) {
    answered = last.number;
    if (last.answer.content?.outcome === 'late') catchUp();
    askSoon();
  }
  draw();
}

/**
 * Numbers from above what any other page of this crew can have used: the seconds since 2026, by
 * the room's clock. So a room without history needs nobody who knows the last number.
 */
function begin({ moment }) {
  return outbox.startAfter(Math.max(0, (moment || Math.floor(Date.now() / 1000)) - NUMBERED_FROM));
}

/** Another page of this crew is ahead: the next number is above its. */
async function catchUp() {
  const last = await ask('/last');
  if (last.ok) outbox.startAfter(last.content.number);
  else if (!last.isUnanswered) begin(last);
}

/** Asks for the order, and keeps the answer with what was answered before. No report of this
    browser may be under way meanwhile. */
async function hear() {
  const before = await outbox.messages();
  const answer = await askJob();
  refusal = answer.ok ? null : answer;
  if (answer.ok) {
    heardAt = performance.now();
    keep(heard(kept, answer.content, before));
  }
  return answer;
}

let timer;
let isAsking = false;

async function askOrder() {
  isAsking = true;
  try {
    await outbox.alone(hear);
    draw();
  } catch (fault) {
    console.error(fault); // it is asked again
  }
  isAsking = false;
  timer = setTimeout(askOrder, ASK_EVERY);
}

function askSoon() {
  if (isAsking) return;
  clearTimeout(timer);
  askOrder();
}

async function main() {
  recall();
  let last = Promise.resolve();
  outbox = await openOutbox({ token, path: '/report', member: 'number', hold: HOLD, refuse,
    changed: () => { last = last.then(changed).catch(console.error); } });
  await changed();
  addEventListener('storage', ({ key }) => {
    if (key !== roomName(token)) return;
    recall();
    draw();
  });
  setInterval(draw, 500);
  keepFiles();
  askSoon();
}

if (token !== null) {
  main().catch((fault) => setText(byId('refused'),
    `This browser keeps nothing, so no button can be pressed: ${fault.message}`));
}
