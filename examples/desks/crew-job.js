// A crew's job: its order, and what the room says of its incident now. What came since the crew saw
// it is marked. No browser, no clock: tests/crew_orders.js tries every order of events.
//
//   seenOf(before, content)   what the crew has seen of an answer to /job: an order that is new is
//                             shown as such, and all of it is seen, but for another class than the
//                             order's; of one that it had `before`, what it had seen of it
//   allSeen(content)          all of it, which the crew says by a tap
//   jobOf(content, seen)      the order as it was given, with `ordered`, its class; `class`, that
//                             of its incident now; `notes`: [{ text, isNew }], those of the calls;
//                             `isClassNew`; and `hasNews`, whether anything is marked
//
// What a room without --history says, that is an answer to /order, has neither class nor notes.

export function seenOf(before, content) {
  if (!content.order) return null;
  const isNew = before?.order !== content.order.order;
  return isNew ? { ...allSeen(content), class: content.order.class } : before;
}

export function allSeen({ order, class: now = order.class, notes = [] }) {
  return { order: order.order, class: now, notes };
}

/** Notes only join the others, each at its call's place, so those that were seen stand in the order
    in which they stood. */
function marked(notes, seen) {
  let passed = 0;
  return notes.map((text) => {
    const isNew = text !== seen[passed];
    if (!isNew) passed += 1;
    return { text, isNew };
  });
}

export function jobOf(content, seen = allSeen(content)) {
  const { class: now, notes: all } = allSeen(content);
  const isClassNew = ![seen.class, content.order.class].includes(now);
  const notes = marked(all, seen.notes).filter(({ text }) => text);
  return { ...content.order, ordered: content.order.class, class: now, isClassNew, notes,
    hasNews: isClassNew || notes.some((it) => it.isNew) };
}
