// Asks for the crew's job: its order, with its incident's class and the notes of its calls; of a
// room without that path for the order only.

import { ask } from './room.js';

const NO_PATH = 36;
const AGAIN_AFTER = 60000; // milliseconds until a room without the path is asked for it again
let hasNoneUntil = 0; // by a clock that nobody sets

export async function askJob() {
  if (performance.now() >= hasNoneUntil) {
    const answer = await ask('/job');
    if (answer.number !== NO_PATH) return answer;
    hasNoneUntil = performance.now() + AGAIN_AFTER;
  }
  return ask('/order');
}
