// Signing in: the room is asked whether it knows the terminal, before its token is kept. Signing
// out: the browser forgets the token and all that was kept with it, once nothing waits to be sent.

import { forgetRoom } from './crew-kept.js';
import { byId, element, fill } from './nodes.js';
import { emptyOutbox } from './outbox.js';
import { ask } from './room.js';
import { KINDS, signIn, signOut, token } from './sign.js';

const PAGES = {
  taker: ['taker.html', 'Call taker'],
  desk: ['allocator.html', 'Allocator'],
  crew: ['crew.html', 'Crew'],
};
const WRONG_ROLE = 39;

/** The kind of a token's terminal; else the refusal, or that nothing came. */
async function kindOf(text) {
  for (const [kind, path] of [['desk', '/queue'], ['crew', '/order']]) {
    const answer = await ask(path, undefined, { token: text });
    if (answer.ok) return { kind };
    if (answer.number !== WRONG_ROLE) return { words: answer.words };
  }
  return { kind: 'taker' }; // which gets no path that the others get
}

async function submitted(event) {
  event.preventDefault();
  const { kind: { value: wanted }, token: { value: text } } = event.target.elements;
  const found = await kindOf(text);
  if (found.kind === wanted) {
    const before = token(wanted);
    if (before !== null && before !== text && !await leave(wanted)) return;
    signIn(wanted, text);
    location.assign(PAGES[wanted][0]);
  } else {
    byId('refused').textContent = found.words
      ?? `This is the token of another kind of terminal: ${PAGES[found.kind][1].toLowerCase()}.`;
  }
}

/** Signs a kind out, and whether that could be. */
async function leave(kind) {
  const name = PAGES[kind][1].toLowerCase();
  const waiting = await emptyOutbox(token(kind));
  if (waiting) {
    byId('refused').textContent = `The ${name} is not signed out: what waits to be sent would be `
      + `lost (${waiting}). Open its page until the room has answered.`;
    return false;
  }
  forgetRoom(token(kind));
  signOut(kind);
  byId('refused').textContent = '';
  draw();
  return true;
}

function draw() {
  const signed = KINDS.filter((kind) => token(kind) !== null);
  fill(byId('signed'), ...signed.map((kind) => element('li', { class: 'panel row' },
    element('a', { href: PAGES[kind][0], class: 'target' }, PAGES[kind][1]),
    element('button', { type: 'button', onclick: () => leave(kind) },
      `Sign out the ${PAGES[kind][1].toLowerCase()}`))));
}

const wanted = KINDS.find((kind) => location.hash === `#${kind}`);
if (wanted) document.querySelector(`[value=${wanted}]`).checked = true;
byId('sign').addEventListener('submit', submitted);
byId('token').focus();
draw();
