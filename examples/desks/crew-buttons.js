// The seven buttons, and what the room's rules make of each (docs/RULES.md, "Reports"). The page
// only guesses by them what a press will come to; what it does is the room's to say.
//
//   expected({ status: 3, order: 7, last: 7, isAcknowledged: true }, { button: 'leave', order: 7 })
//            'normal', 'skipped', 'wrong', 'stale', or 'withheld', which this page does not send
//   after(now, 'leave')      what a vehicle is at once the button acted

// In the order of a turn; what the status is after each that acts, where it sets one.
export const BUTTONS = [
  { name: 'mobile', label: 'Mobile', words: 'on the way to the order' },
  { name: 'scene', label: 'Scene', words: 'arrived at the place', sets: 3 },
  { name: 'leave', label: 'Leave', words: 'leaving the scene', sets: 4 },
  { name: 'hospital', label: 'Hospital', words: 'arrived at the hospital', sets: 5 },
  { name: 'return', label: 'Return', words: 'free, on the way back', sets: 6 },
  { name: 'home', label: 'Home', words: 'back, or still available', sets: 1 },
  { name: 'position', label: 'Position', words: 'only reports the place' },
];

const [OFF_DUTY, MOBILISED, OFFERED] = [0, 2, 7];
const OF_ANY_ORDER = ['home', 'position'];
const ENDS_TURN = ['return', 'home'];

// What is normal and what is skipped beside it at a status; all else is wrong. `position` is normal
// but off duty, and at status 2 what is not normal is skipped.
const TABLE = {
  1: { normal: ['home'], skipped: [] },
  3: { normal: ['leave', 'return', 'scene'], skipped: ['hospital', 'home'] },
  4: { normal: ['hospital', 'leave'], skipped: ['return', 'home'] },
  5: { normal: ['return', 'hospital'], skipped: ['home'] },
  6: { normal: ['home', 'return'], skipped: [] },
  7: { normal: ['home'], skipped: [] },
};

/** Whether a press was made before the vehicle's order came, which it would end unseen: the room
    takes Home with any order. */
export const isWithheld = (now, { button, order }) =>
  button === 'home' && now.order !== null && order < now.order;

/** What a press comes to, with the order that the crew saw as it pressed. */
export function expected(now, { button, order }) {
  if (!OF_ANY_ORDER.includes(button) && order !== now.last) return 'stale';
  if (isWithheld(now, { button, order })) return 'withheld';
  if (now.status === OFF_DUTY) return 'wrong';
  if (button === 'position') return 'normal';
  if (now.status === MOBILISED) {
    return button === 'mobile' || (button === 'scene' && now.isAcknowledged) ? 'normal' : 'skipped';
  }
  const { normal, skipped } = TABLE[now.status];
  if (normal.includes(button)) return 'normal';
  return skipped.includes(button) ? 'skipped' : 'wrong';
}

/** What a vehicle is at after a button that acted. */
export function after(now, button) {
  if (button === 'mobile') return { ...now, isAcknowledged: true };
  const { sets } = BUTTONS.find((it) => it.name === button);
  if (sets === undefined || (now.status === OFFERED && button === 'home')) return now;
  return { ...now, status: sets, order: ENDS_TURN.includes(button) ? null : now.order };
}
