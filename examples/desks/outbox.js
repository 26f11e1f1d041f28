// Numbered messages that are kept in the browser until their answer came: a call with its serial, a
// report with its number. Sent one at a time in the order of their numbers, and again, the same
// bytes, until an answer came: over reloads, closed pages and a network that comes and goes.
//
//   const outbox = await openOutbox({ token, path: '/call', member: 'serial', changed });
//   await outbox.put({ class: 2, needs, note, place }, about)   numbers it, keeps it, sends it
//   await outbox.messages()      the kept ones in the order of their numbers: { number, content,
//                                about, isTried, answer, passedOver }; answer is null while it
//                                waits, else as room.js gives it. The last 50 answered ones stay.
//   await outbox.takeBack(17)    drops a message that no tab has begun to send; whether it did
//   outbox.heldFor(message)      the milliseconds for which it can be taken back
//   await outbox.alone(work)     does something while no tab sends
//   outbox.state                 'asking' the room for its greatest number, 'unknown', or 'ready'
//   await outbox.startAfter(17)  where it is 'unknown': the greatest number used, 0 if none
//   outbox.trouble               why the last try got no answer, as room.js gives it; else null
//
// `emptyOutbox(token)` forgets what a terminal has, unless something waits.
//
// With `hold` a message is sent so many milliseconds after this tab first saw it, not sooner. What
// `refuse(message)` gives, asked just before it is sent, becomes its answer, and it is not sent; an
// unanswered question there is as one to the room.
//
// `changed()` is called after each change, of another tab too; `about` is the page's own, kept
// beside the message and not sent: know a message by it, for its number may change while it waits.
// `put` fails where the state is not 'ready': look first.
//
// Numbers are given inside one transaction of IndexedDB, so two tabs never share one. One tab at a
// time sends, by a lock of the browser. Only the first that waits can have been sent: so where the
// room answers that its number was used by another (17, 18), it and those behind it get later ones.

import { ask } from './room.js';

const AGAIN_AFTER = 1000; // milliseconds from a try without an answer to the next
const ANSWERED_KEPT = 50;
const NO_PATH = 36;
const PATHS = ['/call', '/report']; // of all outboxes
const REUSED = [17, 18];
// Refusals after which the same message may still be taken: it waits, and is sent again.
const SENT_AGAIN = [38, 41, 42];

// ---- the browser's store

const done = (request) => new Promise((resolve, reject) => {
  request.onsuccess = () => resolve(request.result);
  request.onerror = () => reject(request.error);
});

async function openStore() {
  const request = indexedDB.open('desks outbox', 1);
  request.onupgradeneeded = () => {
    request.result.createObjectStore('messages', { keyPath: ['box', 'number'] });
    request.result.createObjectStore('last', { keyPath: 'box' });
  };
  return done(request);
}

/** The messages of a box, by number. */
const rangeOf = (box) => IDBKeyRange.bound([box, 0], [box, Infinity]);

class Outbox {
  constructor(store, { token, path, member, changed = () => {}, hold = 0, refuse = null }) {
    Object.assign(this, { store, token, path, member, changed, hold, refuse });
    this.seenAt = new Map(); // when this tab first saw a number, by a clock that nobody sets
    this.box = `${path} ${token}`;
    this.state = 'asking';
    this.trouble = null;
    this.others = new BroadcastChannel(`desks outbox ${this.box}`);
    this.others.onmessage = () => this.heard();
    addEventListener('online', () => this.wake?.());
  }

  /** Does something in one transaction, which is on the disk when it is over. */
  async change(work) {
    const transaction = this.store.transaction(['messages', 'last'], 'readwrite',
      { durability: 'strict' });
    const ended = new Promise((resolve, reject) => {
      transaction.oncomplete = resolve;
      transaction.onerror = transaction.onabort = () => reject(transaction.error);
    });
    const [found] = await Promise.all([
      work(transaction.objectStore('messages'), transaction.objectStore('last')), ended]);
    return found;
  }

  announce() {
    this.others.postMessage('changed');
    this.say();
  }

  /** Says it to this page, after what is under way: a fault there stops no sending. */
  say() {
    setTimeout(this.changed);
  }

  /** Another tab changed something: it may have been the first to know the last number. */
  async heard() {
    if (this.state !== 'ready' && await this.last() !== null) this.begin();
    this.say();
  }

  // ---- numbers

  /** The last number that was given in this browser; null where it knows of none. */
  async last() {
    const kept = await done(this.store.transaction('last').objectStore('last').get(this.box));
    return kept ? kept.number : null;
  }

  /** Goes on from what the browser keeps, and from the room's greatest number where it has it. */
  async open() {
    if (await this.last() !== null) this.begin();
    for (;;) {
      const answer = await ask('/last', undefined, { token: this.token });
      if (answer.ok) return this.startAfter(answer.content[this.member]);
      if (this.state === 'ready') return undefined;
      this.trouble = answer;
      if (answer.number === NO_PATH) this.state = 'unknown';
      this.say();
      if (answer.number === NO_PATH) return undefined;
      await this.pause();
      if (this.state === 'ready') return undefined;
    }
  }

  /** The next number is above this one, and above all that this browser gave. */
  async startAfter(number) {
    await this.change(async (_, last) => {
      const kept = await done(last.get(this.box));
      await done(last.put({ box: this.box, number: Math.max(number, kept?.number ?? 0) }));
    });
    this.begin();
    this.announce();
  }

  begin() {
    this.state = 'ready';
    this.trouble = null;
    this.send();
  }

  // ---- messages

  async put(content, about = null) {
    if (this.state !== 'ready') throw new Error('The last number is not known yet.');
    const number = await this.change(async (messages, last) => {
      const next = (await done(last.get(this.box))).number + 1;
      last.put({ box: this.box, number: next });
      await done(messages.add(this.message(next, content, about, [])));
      return next;
    });
    this.announce();
    this.send();
    return number;
  }

  message(number, content, about, passedOver) {
    const body = JSON.stringify({ ...content, [this.member]: number });
    return { box: this.box, number, content, about, body, passedOver, isTried: false,
      answer: null };
  }

  async messages() {
    const found = await done(this.store.transaction('messages').objectStore('messages')
      .getAll(rangeOf(this.box)));
    for (const { number } of found) {
      if (!this.seenAt.has(number)) this.seenAt.set(number, performance.now());
    }
    return found;
  }

  heldFor({ number, isTried, passedOver, answer }) {
    if (isTried || answer || passedOver.length) return 0;
    return Math.max(0, this.seenAt.get(number) + this.hold - performance.now());
  }

  async takeBack(number) {
    const isBack = await this.changeUntried(number, (messages) => messages.delete([this.box,
      number]));
    this.announce();
    return isBack;
  }

  /** Changes a message in the store, unless some tab has begun to send it. */
  changeUntried(number, work) {
    return this.change(async (messages) => {
      const found = await done(messages.get([this.box, number]));
      if (!found || found.isTried) return false;
      await done(work(messages, found));
      return true;
    });
  }

  /** Forgets what is kept, unless something waits; gives how many wait. */
  empty() {
    return this.change(async (messages, last) => {
      const all = await done(messages.getAll(rangeOf(this.box)));
      const waiting = all.filter((it) => !it.answer).length;
      if (waiting) return waiting;
      last.delete(this.box);
      await done(messages.delete(rangeOf(this.box)));
      return 0;
    });
  }

  alone(work) {
    return navigator.locks.request(this.others.name, work);
  }

  // ---- sending

  /** Sends what waits until nothing does. One tab does so at a time, a message at a time. */
  async send() {
    if (this.isSending) return;
    this.isSending = true;
    try {
      let next;
      while ((next = await this.alone(() => this.sendFirst())) !== null) {
        if (next) await this.pause(next);
      }
    } finally {
      this.isSending = false;
    }
    if ((await this.messages()).some((it) => !it.answer)) this.send();
  }

  /** Sends the first message that waits; gives the milliseconds until the next, null where none
      waits. */
  async sendFirst() {
    const first = (await this.messages()).find((it) => !it.answer);
    if (!first) return null;
    const held = this.heldFor(first);
    if (held) return held;
    const answer = await this.refuse?.(first) ?? await this.post(first);
    if (!answer) return 0; // it was taken back
    if (answer.isUnanswered || SENT_AGAIN.includes(answer.number)) {
      this.trouble = answer;
      this.say();
      return AGAIN_AFTER;
    }
    this.trouble = null;
    if (REUSED.includes(answer.number)) await this.passOver();
    else await this.keep(first, answer);
    this.announce();
    return 0;
  }

  /** Marks a message as one that may have reached the room, and sends it. */
  async post({ number, body, isTried }) {
    const isThere = isTried || await this.changeUntried(number, (messages, it) =>
      messages.put({ ...it, isTried: true }));
    if (!isThere) return null;
    this.announce();
    return ask(this.path, body, { token: this.token });
  }

  async keep(message, answer) {
    await this.change(async (messages) => {
      await done(messages.put({ ...message, answer }));
      const answered = (await done(messages.getAll(rangeOf(this.box)))).filter((it) => it.answer);
      for (const it of answered.slice(0, -ANSWERED_KEPT)) messages.delete([it.box, it.number]);
    });
  }

  /** Gives the first that waits and those behind it later numbers, in their order. */
  async passOver() {
    const answer = await ask('/last', undefined, { token: this.token });
    await this.change(async (messages, last) => {
      const waiting = (await done(messages.getAll(rangeOf(this.box)))).filter((it) => !it.answer);
      let number = Math.max(waiting[0].number, answer.ok ? answer.content[this.member] : 0);
      for (const it of waiting) await done(messages.delete([it.box, it.number]));
      for (const it of waiting) {
        number += 1;
        const passedOver = it === waiting[0] ? [...it.passedOver, it.number] : it.passedOver;
        await done(messages.add(this.message(number, it.content, it.about, passedOver)));
      }
      const kept = (await done(last.get(this.box))).number;
      await done(last.put({ box: this.box, number: Math.max(kept, number) }));
    });
  }

  pause(milliseconds = AGAIN_AFTER) {
    return new Promise((resolve) => {
      const timer = setTimeout(resolve, milliseconds);
      this.wake = () => { clearTimeout(timer); resolve(); };
    });
  }
}

/** Opens the outbox of a terminal. What waits in it is sent at once. */
export async function openOutbox(options) {
  navigator.storage?.persist?.(); // not to be thrown away where the disk gets full
  const outbox = new Outbox(await openStore(), options);
  outbox.open();
  return outbox;
}

/** Forgets all messages of a terminal and its numbers, unless some wait; gives how many wait. */
export async function emptyOutbox(token) {
  const boxes = PATHS.map((path) => new Outbox(null, { token, path }));
  const store = await openStore();
  const counts = await Promise.all(boxes.map((it) => Object.assign(it, { store }).empty()));
  return counts.reduce((all, it) => all + it);
}
