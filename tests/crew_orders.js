// Tries every order of events on the crew's page, without a browser: a room by the rules of
// docs/RULES.md, the outbox, two tabs, and a page that is given. It looks at each state for
//
//   untrue   the page shows another status, order or acknowledgement than the room would have once
//            all that was pressed has arrived, had the desk done nothing since the page last heard
//            the room; or another status than an answer that came after that
//   behind   it says so though it has just heard the room, and no answer was lost
//   unseen   a tap on the large button would end an order that no page has shown, and that has not
//            begun
//   shown    the same of an order that a page has shown
//   misread  the job is not that of the order as the page last heard it, or not all of it is marked
//            that came since the page had the order, or since the crew said that it saw it
//   untold   the page has just heard that the desk took an order away, and does not say so
//   false    it says so of one that the desk did not take away
//
// node crew_orders.js TABLE DEPTH EVERY [before]: TABLE is the table of buttons as JSON, a member
// for each status, with 'normal', 'skipped', 'stays' or 'wrong' for each button. Of the first EVERY
// events a press may be of any button; of the others, up to DEPTH, of those that change something
// where they are pressed, of Home and of Position. With 'before' it looks at the page as it was
// when it lost an order. Prints how many orders of so many events there are, through how many
// states they lead, and of each fault the shortest way to it. Orders that lead to one state go on
// as one. The page has no clock: to read one fails here.

import { readFileSync } from 'node:fs';
import { after, expected, isWithheld } from './crew-buttons.js';
import { buttonsOf, heard, nowOf, saw, view as viewOf } from './crew-view.js';

const BUTTONS = ['mobile', 'scene', 'leave', 'hospital', 'return', 'home', 'position'];
const SETS = { scene: 3, leave: 4, hospital: 5, return: 6, home: 1 };
const [file, depth, everyButton, which] = process.argv.slice(2).map((it, nth) =>
  ([1, 2].includes(nth) ? Number(it) : it));
const table = JSON.parse(readFileSync(file, 'utf8'));
for (const it of [Date, performance]) it.now = () => { throw new Error('the page reads a clock'); };

// ---- the room. A vehicle: status, its order (null: none), the last order, whether that is
// acknowledged or has begun otherwise, how many calls its incident has, and the orders that the
// desk took away. Each call makes the incident one class graver.

/** What a report that was not sent before comes to, and what the vehicle is at then. */
function judged(vehicle, { button, order }) {
  const { status, last, isAcknowledged } = vehicle;
  const isOfOrder = button !== 'home' && button !== 'position';
  if (isOfOrder && order !== last) return { outcome: 'stale', then: vehicle };
  const cell = table[status][button];
  if (cell === 'wrong') return { outcome: 'wrong', then: vehicle };
  const isSkipped = cell === 'skipped' || (status === 2 && button === 'scene' && !isAcknowledged);
  const outcome = isSkipped ? 'skipped' : 'normal';
  if (button === 'position') return { outcome, then: vehicle };
  const begun = { ...vehicle, hasBegun: true };
  if (button === 'mobile') return { outcome, then: { ...begun, isAcknowledged: true } };
  if (cell === 'stays') return { outcome, then: button === 'home' ? vehicle : begun };
  const isOver = button === 'return' || button === 'home';
  const left = isOver ? null : vehicle.order;
  return { outcome, then: { ...begun, status: SETS[button], order: left } };
}

const ordered = (it) => ({ ...it, status: 2, order: it.last + 1, last: it.last + 1,
  isAcknowledged: false, hasBegun: false, calls: 1 });
const at = (status) => (it) => ({ ...it, status, order: null });
const stoodDown = (it) => ({ ...at(6)(it), taken: [...it.taken, it.order] });

// What a desk does, at which statuses.
const DESK = [
  ['order', [1, 6], ordered], ['changed order', [2], (it) => ordered(stoodDown(it))],
  ['stand-down', [2], stoodDown], ['off duty', [1, 6], at(0)], ['on duty', [0], at(1)],
  ['offer', [1, 6], at(7)], ['withdrawn', [7], at(1)],
];

const MOST_CALLS = 3;
const classAfter = (calls) => 4 - calls;
// The calls in the order of their notes: the second comes from a position before the first's.
const notedOf = (calls) => [2, 1, 3].filter((it) => it <= calls);
const noteOf = (order, call) => `call ${call} of the incident of order ${order}`;

/** What /job answers. */
function contentOf({ status, order, calls }) {
  if (order === null) return { order: null, post: null, status };
  return { class: classAfter(calls), notes: notedOf(calls).map((it) => noteOf(order, it)),
    order: { class: classAfter(1), order }, post: null, status };
}

/** A function that finds once what it has to of a vehicle, whatever the numbers of its orders. */
function once(found) {
  const known = new Map();
  return (now) => {
    const { status, order, last, isAcknowledged, isBehind } = now;
    const key = [status, order && order - last, isAcknowledged, isBehind].join();
    if (!known.has(key)) known.set(key, found(now));
    return known.get(key);
  };
}

// ---- the page as it is, and as it was: it has what it kept or heard, and what it saw answered

const buttonsThen = once(buttonsOf);

const NOW = { open: (kept) => kept, changed: (it) => it, heard, nowOf, isWithheld, saw,
  view: (kept, box) => viewOf(kept, box, buttonsThen), more: () => [] };

const lastAnswered = (messages) => messages.filter((it) => it.answer).at(-1);

const BEFORE = {
  open: (kept) => ({ ...kept, answered: 0 }),
  changed(it, messages) {
    const last = lastAnswered(messages);
    if (!last || last.number <= it.answered) return it;
    return { ...it, answered: last.number,
      room: { ...it.room, status: last.answer.content?.status ?? it.room.status } };
  },
  heard: (before, room, messages) => ({ room, answered: lastAnswered(messages)?.number ?? 0,
    greatest: Math.max(before?.greatest ?? 0, room.order?.order ?? 0) }),
  view({ room, greatest }, messages) {
    const last = Math.max(greatest, ...messages.map((it) => it.content.order));
    const isAcknowledged = messages.some(({ content, answer }) => content.button === 'mobile'
      && content.order === last && (!answer || answer.content?.outcome === 'normal'));
    const comes = (it, button) => expected({ ...it, last, order: null }, { button, order: last });
    const now = messages.filter((it) => !it.answer).reduce((it, { content: { button } }) =>
      (comes(it, button) === 'wrong' ? it : { ...after(it, button), order: it.order }),
    { status: room.status, order: room.order?.order ?? null, isAcknowledged });
    const normal = BUTTONS.filter((it) => comes(now, it) === 'normal');
    const leads = (it) => after(now, it).status !== now.status
      || after(now, it).isAcknowledged !== now.isAcknowledged;
    const large = normal.find(leads) ?? normal[0];
    return { ...now, last, isBehind: false,
      buttons: BUTTONS.map((name) => ({ name, isLarge: name === large })) };
  },
  nowOf: (...given) => BEFORE.view(...given),
  isWithheld: () => false,
  more: ({ room, answered }, messages) =>
    [room.status, room.order?.order, answered < (lastAnswered(messages)?.number ?? 0),
      lastAnswered(messages)?.answer.content?.status],
};
const ACTS = ['normal', 'skipped'];
const page = which === 'before' ? BEFORE : NOW;

// ---- a state: the vehicle, the greatest number of its reports, the outbox, the request that is
// still under way though nobody waits for it, the page that one looks at, and what is kept, which
// another tab may have heard later. With what a page heard goes its twin: the vehicle as it would
// be had the desk done nothing since; its order before, and how much of the job the crew has seen.

/** A report reaches the room: the state then, and the answer. A repeated one, whose answer was
    lost, gets its first answer. */
function arrive(state, number) {
  const message = state.box.find((it) => it.number === number);
  const stray = state.stray?.number === number ? null : state.stray;
  if (message.got) return { state: { ...state, stray }, got: message.got };
  const judge = (vehicle) => (number < state.greatest ? { outcome: 'late', then: vehicle }
    : judged(vehicle, message.content));
  const { outcome, then } = judge(state.vehicle);
  const got = { outcome, status: then.status };
  const twin = (it) => (page.isWithheld(it.twin, message.content) ? it
    : { ...it, twin: judge(it.twin).then });
  const tab = twin(state.tab);
  return { got, state: { ...state, stray, vehicle: then, tab,
    kept: state.kept === state.tab ? tab : twin(state.kept),
    greatest: Math.max(state.greatest, number),
    box: state.box.map((it) => (it === message ? { ...it, got } : it)) } };
}

/** Of a new order the crew has seen its calls, and the class that it was given with. */
function knownOf({ order, calls }, before) {
  return before?.order === order ? before : { order, calls, classed: 1 };
}

const hear = ({ vehicle, box, next }, before) => ({ twin: vehicle, from: next,
  had: before.twin.order, known: knownOf(vehicle, before.known),
  page: page.heard(before.page, contentOf(vehicle), box) });

/** The crew says that it saw the job. */
function sawHere(state) {
  const { page: before, twin: { order, calls } } = state.tab;
  const tab = { ...state.tab, page: page.saw(before), known: { order, calls, classed: calls } };
  return { ...state, tab, kept: tab };
}

function heardHere(state) {
  const tab = hear(state, state.tab);
  return { ...state, tab, kept: tab };
}

const first = (state) => state.box.find((it) => !it.answer);
const change = (state, message, more) => ({ ...state,
  box: state.box.map((it) => (it.number === message.number ? { ...it, ...more } : it)) });

/** The first that waits is about to be sent. Before Home the room is asked for the order. */
function asked(state) {
  const message = first(state);
  if (message.content.button !== 'home' || page !== NOW) return { state, message };
  const heardThen = heardHere(state);
  return page.isWithheld(state.vehicle, message.content)
    ? { state: change(heardThen, message, { answer: { ok: false, isWithheld: true } }),
      message: null }
    : { state: heardThen, message };
}

/** It is sent, and its answer comes or is lost. */
function send(before, isLost) {
  const { state, message } = asked(before);
  if (!message) return state;
  const { state: then, got } = arrive(change(state, message, { isTried: true }), message.number);
  return isLost ? then : change(then, message, { answer: { ok: true, content: got } });
}

/** It is sent, and stays under way: an order that comes before it arrives is ended by Home. Only
    the room could refuse that, so the page's twin does not know of it. */
function sendSlowly(before) {
  const { state, message } = asked(before);
  if (!message) return state;
  const stray = { ...message, isTried: true };
  return { ...change(state, message, stray), stray };
}

// What a page shows, found once for each page and outbox: most events change neither.
const shownBy = new WeakMap();

function shownOf({ page: it }, box) {
  if (!shownBy.has(it)) shownBy.set(it, new WeakMap());
  const known = shownBy.get(it);
  if (!known.has(box)) known.set(box, page.view(it, box));
  return known.get(box);
}

const press = (state, button, order) => ({ ...state, next: state.next + 1, box: [...state.box,
  { number: state.next, content: { button, order }, isTried: false, got: null, answer: null }] });

function* presses(state, shown, buttons) {
  for (const it of buttons) yield [`press ${it}`, press(state, it, shown.last)];
  const other = shownOf(state.kept, state.box).last;
  if (other === shown.last) return;
  for (const it of buttons) yield [`other tab: press ${it}`, press(state, it, other)];
}

/** What the desk, the network and the tabs do; then what the crew presses. */
function* events(state, shown, buttons) {
  for (const [name, statuses, act] of DESK) {
    if (statuses.includes(state.vehicle.status)) {
      yield [name, { ...state, vehicle: act(state.vehicle), isShown: false }];
    }
  }
  if (state.vehicle.order !== null && state.vehicle.calls < MOST_CALLS) {
    yield ['a call', { ...state, vehicle: { ...state.vehicle, calls: state.vehicle.calls + 1 } }];
  }
  if (shown.job?.hasNews) yield ['seen', sawHere(state)];
  yield ['order heard', { ...heardHere(state), isFresh: true }];
  yield ['other tab: order heard', { ...state, kept: hear(state, state.kept) }];
  yield ['reload', { ...state, tab: { ...state.kept, page: page.open(state.kept.page) } }];
  const waits = first(state);
  if (waits) {
    yield ['answer', send(state, false)];
    yield ['lost answer', send(state, true)];
    if (!state.stray && !waits.got) yield ['request under way', sendSlowly(state)];
    const isLast = !state.box.at(-1).isTried;
    if (isLast) yield ['taken back', { ...state, box: state.box.slice(0, -1) }];
  }
  if (state.stray) yield ['request arrives', arrive(state, state.stray.number).state];
  yield* presses(state, shown, buttons);
}

/** The page sees the outbox. */
function seen(state) {
  const changed = page.changed(state.tab.page, state.box);
  return changed === state.tab.page ? state
    : { ...state, tab: { ...state.tab, page: changed } };
}

// ---- what is looked at

/** What the vehicle will be at once all that waits has arrived. */
function delivered(vehicle, box) {
  return box.filter((it) => !it.answer && !it.got).reduce((it, { content }) =>
    (page.isWithheld(it, content) ? it : judged(it, content).then), vehicle);
}

function isUntrue(state, shown) {
  const wanted = delivered(state.tab.twin, state.box);
  const latest = state.box.at(-1);
  const isContradicted = latest.answer?.ok && latest.number >= state.tab.from
    && latest.answer.content.status !== shown.status;
  const isOther = shown.status !== wanted.status || shown.order !== wanted.order
    || (shown.status === 2 && shown.isAcknowledged !== wanted.isAcknowledged);
  return !shown.isBehind && (isContradicted || isOther);
}

/** Whether the large button would end an order that has not begun. */
function isDropping(state, shown) {
  const before = delivered(state.vehicle, state.box);
  const large = shown.buttons.find((it) => it.isLarge);
  const content = { button: large?.name, order: shown.last };
  if (!large || before.order === null || page.isWithheld(before, content)) return false;
  return judged(before, content).then.order === null && !before.hasBegun;
}

/** Whether the job is another than the page heard, or not marked as it should be. */
function isMisread({ tab: { twin, known: { order, calls, classed } } }, { order: shown, job }) {
  if (shown === null) return job !== null;
  const now = classAfter(twin.calls);
  const notes = notedOf(twin.calls).map((it) => [noteOf(shown, it), it > calls]);
  const seen = job.notes.map((it) => [it.text, it.isNew]);
  return order !== shown || job.order !== shown || job.class !== now
    || job.isClassNew !== (classed < twin.calls) || String(seen) !== String(notes);
}

/** Whether the desk took away the order that the page had, which no button since may have ended,
    nor a Home that is under way, or was sent and then withheld: that does not lead to returning. */
function isTakenNow({ tab: { had, twin }, box, isFresh }) {
  const mayEnd = ({ content: { button, order }, isTried, answer }) =>
    (order >= had && (button === 'return' || button === 'home'))
    || (isTried && twin.status !== 6 && (answer?.isWithheld || (!answer && button === 'home')));
  return isFresh && twin.taken.includes(had) && !box.some(mayEnd);
}

function faultsOf(state, shown) {
  const { tab: { had, twin }, box, isFresh } = state;
  const isTried = box.some((it) => it.isTried && !it.answer?.ok);
  const isOfJob = page === NOW;
  const found = [
    ['untrue', isUntrue(state, shown)],
    ['behind', shown.isBehind && isFresh && !isTried],
    [state.isShown ? 'shown' : 'unseen', isDropping(state, shown)],
    ['misread', isOfJob && isMisread(state, shown)],
    ['untold', isOfJob && isTakenNow(state) && shown.taken !== had],
    ['false', isOfJob && shown.taken && !twin.taken.includes(shown.taken)],
  ];
  return found.filter(([, is]) => is).map(([name]) => name);
}

/** What decides all that comes: of what is answered only where it leaves each page, and orders from
    the last one. */
function keyOf(state) {
  const { box, vehicle: { last } } = state;
  const answered = box.filter((it) => it.answer);
  const vehicle = ({ status, order, isAcknowledged, hasBegun, calls }) =>
    [status, order && order - last, order && calls, isAcknowledged, hasBegun];
  const job = ({ page: { room: { order, status }, seen, taken }, twin: { calls }, known }) =>
    [order && [order.order - last, seen?.class, seen?.notes.length, calls, known.calls,
      known.classed], taken && [taken - last, status],
    order && state.vehicle.taken.includes(order.order)];
  const lastAnswer = answered.findLast((it) => it.answer.ok)?.number;
  const strayOf = (it) => it?.number > lastAnswer && it.content.order - last;
  const one = (it) => {
    const now = page.nowOf(it.page, answered);
    return [now.status, now.order && now.order - last, now.isAcknowledged, now.isBehind,
      now.last - last, it.page.acknowledged === last, strayOf(it.page.stray),
      it.page.tried > answered.at(-1).number,
      ...page.more(it.page, answered), it.twin.last - last, ...vehicle(it.twin), ...job(it)];
  };
  const message = ({ content: { button, order }, isTried, got }) =>
    [button, order - last, isTried, got?.outcome, got?.status];
  const isMobile = ({ content: { button, order }, got }) =>
    button === 'mobile' && order === last && ACTS.includes(got?.outcome);
  const latest = box.at(-1);
  const isSince = latest.number >= state.tab.from && latest.answer?.content?.status;
  const { had, twin } = state.tab;
  return [vehicle(state.vehicle), state.isShown, state.isFresh && [twin.taken.includes(had)],
    isSince, one(state.kept),
    state.tab === state.kept || one(state.tab),
    box.filter((it) => !it.answer).map(message), '/', state.stray && message(state.stray),
    state.stray?.number < state.greatest, answered.some(isMobile),
    strayOf(answered.findLast((it) => it.isTried && !it.answer.ok))].join();
}

/** A page at each status that heard the room, after the button that led there. */
function beginning(status, button, isAcknowledged = true) {
  const last = status === 2 && !isAcknowledged ? 2 : 1;
  const hasOrder = status >= 2 && status <= 5;
  const vehicle = { status, order: hasOrder ? last : null, last, isAcknowledged,
    hasBegun: isAcknowledged, calls: 1, taken: [] };
  const got = { outcome: 'normal', status: last === 2 ? 1 : status };
  const mobile = { number: 1, content: { button: 'mobile', order: 1 }, isTried: true,
    got: { outcome: 'normal', status: 2 } };
  const box = [mobile, { ...mobile, number: 2, content: { button, order: 1 }, got }]
    .map((it) => ({ ...it, answer: { ok: true, content: it.got } }));
  const tab = { twin: vehicle, known: null, page: null };
  return heardHere({ vehicle, greatest: 2, box, next: 3, stray: null, tab, isShown: hasOrder,
    isFresh: true });
}

const BEGINNINGS = [beginning(0, 'home'), beginning(1, 'home'), beginning(2, 'home', false),
  beginning(2, 'mobile'), beginning(3, 'scene'), beginning(4, 'leave'), beginning(5, 'hospital'),
  beginning(6, 'return'), beginning(7, 'home')];

/** The buttons that change something where they are pressed, and Position for all others. */
const telling = once((shown) => {
  const now = { ...shown, hasBegun: true };
  const acts = (button) => {
    const { then } = judged(now, { button, order: shown.last });
    return then.status !== now.status || then.order !== now.order
      || then.isAcknowledged !== now.isAcknowledged;
  };
  return BUTTONS.filter((it) => it === 'position' || it === 'home' || acts(it));
});

/** Looks at all states that so many events lead to. Of the last ones only faults are wanted. */
function search() {
  const [known, faults, leads] = [new Map(), {}, []];
  let states = [];
  const look = (node) => {
    const shown = shownOf(node.state.tab, node.state.box);
    for (const it of faultsOf(node.state, shown)) faults[it] ??= wayOf(node);
    return shown;
  };
  const numberOf = (node) => {
    const key = keyOf(node.state);
    if (known.has(key)) return known.get(key);
    const [shown, number] = [look(node), known.size];
    const isShown = node.state.isShown || shown.order === node.state.vehicle.order;
    states.push({ ...node, number, shown, state: { ...node.state, isShown, isFresh: false } });
    known.set(key, number);
    return number;
  };
  const begun = BEGINNINGS.map((it) =>
    numberOf({ state: it, before: null, name: `status ${it.vehicle.status}` }));
  for (let round = 1; round <= depth; round += 1) {
    const before = states;
    states = [];
    for (const node of before) {
      const buttons = round <= everyButton ? BUTTONS : telling(node.shown);
      const found = [...events(node.state, node.shown, buttons)]
        .map(([name, it]) => ({ state: seen(it), before: node, name }));
      leads[node.number] = round < depth ? found.map(numberOf) : { length: found.length };
      if (round === depth) found.forEach(look);
    }
  }
  return { states: known.size, orders: ordersOf(begun, leads), faults };
}

/** How many orders of so many events there are, by the states to which each state leads. */
function ordersOf(begun, leads) {
  let ways = new Map(begun.map((it) => [it, 1]));
  for (let round = 1; round < depth; round += 1) {
    const next = new Map();
    for (const [from, count] of ways) {
      for (const to of leads[from]) next.set(to, (next.get(to) ?? 0) + count);
    }
    ways = next;
  }
  return [...ways].reduce((sum, [from, count]) => sum + count * leads[from].length, 0);
}

const wayOf = ({ before, name }) => [...(before ? wayOf(before) : []), name];

console.log(JSON.stringify(search()));
