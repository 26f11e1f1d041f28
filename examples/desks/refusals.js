// What each refusal of the room means, in words for the person at the page (docs/HTTP.md has the
// numbers; 0 is no refusal, but no answer).
//
//   wordsOf(7)   "The incident needs no more vehicles of this kind."

const WORDS = {
  0: 'The room does not answer.',
  1: 'Your division has no incident with this number.',
  2: 'The incident is already closed or merged.',
  3: 'Your division does not hold this vehicle.',
  4: 'The vehicle is lent to another division.',
  5: "The vehicle's status does not allow this now.",
  6: "The vehicle's shift is over.",
  7: 'The incident needs no more vehicles of this kind.',
  8: 'More vehicles than that already serve the incident.',
  9: 'A vehicle still has an order for it.',
  10: 'An incident can not be merged into itself.',
  11: 'Your division has no standby point with this number.',
  12: 'The vehicle is borrowed. Only its own division can lend it.',
  13: 'There is no other division with this number.',
  14: 'The vehicle is not on loan.',
  15: 'This entry can not be cleared, or was cleared already.',
  16: 'The place lies in no division of this service. Check the place.',
  17: 'This serial was used for another call.',
  18: 'This number was used for another report.',
  19: 'The room has no numbers left. Tell the supervisor.',
  22: 'The offer is no longer there: it was withdrawn, accepted or declined.',
  30: 'The room could not read the request.',
  31: 'The request was too long for the room.',
  32: 'The message was too long for the room.',
  33: 'The request asked for something the room does not do.',
  34: 'The request came in a form the room does not take.',
  36: 'The room has no such thing, or not in this version.',
  37: 'The room does not do this there.',
  38: 'The room does not know this terminal. Sign in with its token.',
  39: 'This terminal may not do that. Sign in as the right kind of terminal.',
  40: 'Something in the form is not as the room needs it. Check each field.',
  41: 'The room is out of memory and has done nothing. Try again.',
  42: "The room's file failed. Look whether it was done before you try again.",
};

export function wordsOf(number) {
  return WORDS[number] ?? `The room refused this with number ${number}.`;
}
