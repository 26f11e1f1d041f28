// What a desk can do, each by a key. An action has
//
// key, name    the key, and what the list of keys says
// of           what a line needs to have: incident, vehicle, report; null where it needs none
// fits         whether it is normal at a line; the room decides, and is asked either way
// form         fields with a note, perhaps after asking; or a refusal
// confirm      the words to confirm, of what can't be taken back; empty where it can
// title        what stands over the form, and `button` on its button
// request      what is asked of the room, or { words } of what is wrong in the form
// done, undo   the words of what was done, and what takes it back
// already      the words where it was done by the same request before, whose answer was lost
// isRepeated   whether the form opens again after it was done

import { INCIDENTS } from './allocator-incidents.js';
import { LOANS } from './allocator-loans.js';
import { SENDING } from './allocator-sending.js';
import { VEHICLES } from './allocator-vehicles.js';

export const ACTIONS = [...SENDING, ...INCIDENTS, ...VEHICLES, ...LOANS];
