// The ranks of a queue, the most urgent first, as crates/room_types/src/ranks.rt has them: their
// numbers in the room's answers, what the number of an entry is of, and after how many seconds the
// queue has it, where a rank has a limit of its own. tests/test_ranks.py compares them.

export const UNSERVED = 1;
export const UNACKNOWLEDGED = 2;
export const LATE_FOR_SCENE = 3;
export const OUT_OF_TURN = 4;
export const OVERDUE = 5;
export const SHIFT_OVER = 6;
export const UNCOVERED = 7;
export const UNANSWERED = 8;

export const SUBJECTS = {
  [UNSERVED]: 'Incident',
  [UNACKNOWLEDGED]: 'Incident',
  [LATE_FOR_SCENE]: 'Incident',
  [OUT_OF_TURN]: 'Report',
  [OVERDUE]: 'Division',
  [SHIFT_OVER]: 'Nothing',
  [UNCOVERED]: 'Point',
  [UNANSWERED]: 'Division',
};

export const LIMITS = { [UNSERVED]: 180, [UNACKNOWLEDGED]: 60, [UNANSWERED]: 300 };

/** Whether an entry has a moment that it counts from. */
export const isTimed = (rank) => rank !== UNCOVERED;
