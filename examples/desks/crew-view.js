// What the crew's page shows: found from what the room said last and from what was pressed since,
// and from nothing else. No browser, no clock: tests/crew_orders.js tries every order of events.
//
//   heard(before, content, messages)   what to keep of an answer to /job or /order: `before` is
//                                      what was kept, `messages` the outbox as the room was asked
//   view(kept, messages)               what to show: status, order (its number, or null), the job
//                                      of that order as crew-job.js gives it, or null; taken (the
//                                      order that the desk took away, 0 if none), isAcknowledged,
//                                      isBehind, last, and the buttons
//   saw(kept)                          what to keep once the crew says that it saw the job
//
// An answer has what was answered before it was asked for. What was pressed later, or has no answer
// yet, is played after it by the rules. A report whose answer was lost before may have acted
// already: where playing it changes nothing all is well, for a button that acted stays where it
// led; where it changes something nobody knows, until the room is heard again.

import { BUTTONS, after, expected } from './crew-buttons.js';
import { allSeen, jobOf, seenOf } from './crew-job.js';

const ACTS = ['normal', 'skipped'];
const RETURNING = 6;

const isMobileFor = (order) => ({ content, answer }) => content.button === 'mobile'
  && content.order === order && ACTS.includes(answer?.content?.outcome);

// Whether a report was sent, and then withheld: what was sent of it may still arrive, until the
// room has answered a later one.
const isStray = ({ number, isTried, answer }, messages) => isTried && answer?.isWithheld
  && !messages.some((it) => it.number > number && it.answer?.ok);

// A Home that was sent, and may end any order when it arrives: it has no answer yet, or is stray.
const isHomeUnderWay = (messages) => (it) => it?.content.button === 'home' && it.isTried
  && (!it.answer || isStray(it, messages));

/** The order that the desk took away: the one that was shown before an answer that has another, or
    none. It is kept while order and status are those of that answer. A Home that is under way may
    have ended it too; that does not lead to returning. */
function takenOf(before, { order, status }, messages) {
  if (!before) return 0;
  const { room, stray, taken } = before;
  if (order?.order === room.order?.order) return status === room.status ? taken ?? 0 : 0;
  const mayBeOwn = [...messages, stray].some(isHomeUnderWay(messages));
  return mayBeOwn && status !== RETURNING ? 0 : nowOf(before, messages).order ?? 0;
}

/** What is kept: the answer, the number of the last report answered before it, that of one that was
    sent and not answered, one that was sent and withheld, the greatest order that was seen, the
    order that was acknowledged, which the room does not say, what the crew has seen of the job, and
    the order that was taken away. */
export function heard(before, content, messages) {
  const order = content.order?.order ?? 0;
  const isAcknowledged = before?.acknowledged === order || messages.some(isMobileFor(order));
  return { room: content,
    answered: Math.max(0, ...messages.filter((it) => it.answer).map((it) => it.number)),
    tried: messages.find((it) => it.isTried && !it.answer)?.number ?? 0,
    stray: messages.findLast((it) => isStray(it, messages)) ?? null,
    last: Math.max(order, before?.last ?? 0, ...messages.map((it) => it.content.order)),
    acknowledged: isAcknowledged ? order : 0,
    seen: seenOf(before?.seen, content),
    taken: takenOf(before, content, messages) };
}

export const saw = (kept) => ({ ...kept, seen: allSeen(kept.room) });

/** What the vehicle is at after a press. The page is behind where the answer is not as the rules
    have it after what the page knows, and where nobody knows whether it acted already. */
function then(now, { number, content, answer }) {
  if (answer && !answer.ok) return now;
  const outcome = expected(now, content);
  const next = ACTS.includes(outcome) ? after(now, content.button) : now;
  const isAsExpected = !answer
    || (answer.content.outcome === outcome && answer.content.status === next.status);
  const isUnsure = number === now.tried && next.status !== now.status;
  return { ...next, isBehind: now.isBehind || !isAsExpected || isUnsure };
}

/** What the room would say once all that was pressed has arrived, as far as this page has heard. */
export function nowOf({ room, answered, tried, stray, last, acknowledged }, messages) {
  const order = room.order?.order ?? null;
  const start = { status: room.status, order, last, tried, isAcknowledged: acknowledged === order,
    isBehind: false };
  const mayArrive = stray && isStray(stray, messages)
    && ACTS.includes(expected(start, stray.content));
  start.isBehind = Boolean(mayArrive) && leadsOn(start, stray.content.button);
  return messages.filter((it) => it.number > answered).reduce(then, start);
}

/** Whether a button leads on, and does not only say the same again. */
function leadsOn(now, button) {
  const next = after(now, button);
  return next.status !== now.status || next.isAcknowledged !== now.isAcknowledged;
}

/** The buttons as they are shown. Large is the first normal one that leads on, and none while the
    page is behind. */
export function buttonsOf(now) {
  const comes = BUTTONS.map((it) => expected(now, { button: it.name, order: now.last }));
  const large = now.isBehind ? undefined
    : BUTTONS.find(({ name }, nth) => comes[nth] === 'normal' && leadsOn(now, name));
  return BUTTONS.map((it, nth) => ({ ...it, comes: comes[nth], isLarge: it === large }));
}

/** What to show; `buttons` finds the buttons, for one that knows them already. */
export function view(kept, messages, buttons = buttonsOf) {
  const now = nowOf(kept, messages);
  const job = now.order === null ? null : jobOf(kept.room, kept.seen);
  return { ...now, job, taken: kept.taken, buttons: buttons(now) };
}
