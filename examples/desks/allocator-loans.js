// Lending: what a desk does to offers and loans of both ways.

import { isFree, numberField, postBack, untilField, untilOf, vehicleAsk }
  from './allocator-forms.js';

const LOAN = 3600; // seconds that a loan lasts where nothing else is written

const isHeld = (room, it) => room.vehicleOf.has(it.vehicle);
const isOfferedAway = (room, it) => room.offerOf.has(it.vehicle) && isHeld(room, it);
const isOfferedHere = (room, it) => room.offerOf.has(it.vehicle) && !isHeld(room, it);
const isLentAway = (room, it) => room.loanOf.has(it.vehicle) && !isHeld(room, it);
const isLentHere = (room, it) => room.loanOf.has(it.vehicle) && isHeld(room, it);

const lendAsk = (it, to, until) => vehicleAsk(it, 'lend', { to, until });

/** Another division that this one lends to or borrows from now stands there first. */
function lendForm(_, room) {
  const others = [...room.offers, ...room.loans].flatMap((it) => [it.lender, it.borrower])
    .filter((it) => it !== room.division);
  return { fields: [numberField('to', 'To division', others[0]), untilField(room, LOAN)] };
}

function lendRequest(it, values, room) {
  const until = untilOf(values, room);
  return until.words ? until : lendAsk(it, Number(values.to), until.end);
}

/** What offers a vehicle again as it was offered. */
function offerAgain(it, _, room) {
  const offer = room.offerOf.get(it.vehicle);
  return offer && { words: `offer ${it.vehicle} again`,
    requests: [lendAsk(it, offer.borrower, offer.until)] };
}

export const LOANS = [
  { key: 'l', name: 'offer to lend', of: 'vehicle', button: 'Offer', fits: isFree, form: lendForm,
    title: (it) => `Offer ${it.vehicle} to another division`,
    request: lendRequest,
    done: (it, { to }) => `${it.vehicle} is offered to division ${Number(to)}.`,
    undo: (it, _, room) => ({ words: `withdraw ${it.vehicle}`,
      requests: [vehicleAsk(it, 'withdraw'), ...postBack(it, room)] }) },
  { key: 'w', name: 'withdraw the offer', of: 'vehicle', button: 'Withdraw', fits: isOfferedAway,
    request: (it) => vehicleAsk(it, 'withdraw'),
    done: (it) => `The offer of ${it.vehicle} is withdrawn.`,
    undo: offerAgain },
  { key: 'a', name: 'accept', of: 'vehicle', button: 'Accept', fits: isOfferedHere,
    request: (it) => vehicleAsk(it, 'accept'),
    done: (it) => `${it.vehicle} is lent to this division.`,
    undo: (it) => ({ words: `give ${it.vehicle} back`, requests: [vehicleAsk(it, 'giveback')] }) },
  { key: 'e', name: 'decline', of: 'vehicle', button: 'Decline', fits: isOfferedHere,
    confirm: (it) => `Decline ${it.vehicle}? Only the other desk can offer it again.`,
    request: (it) => vehicleAsk(it, 'decline'),
    done: (it) => `${it.vehicle} is declined.` },
  { key: 'r', name: 'recall', of: 'vehicle', button: 'Recall', fits: isLentAway,
    confirm: (it) => `Recall ${it.vehicle}? A recall can't be taken back.`,
    request: (it) => vehicleAsk(it, 'recall'),
    done: (it) => `${it.vehicle} is recalled.` },
  { key: 'b', name: 'give back', of: 'vehicle', button: 'Give back', fits: isLentHere,
    confirm: (it) => `Give ${it.vehicle} back? Only its own desk can offer it again.`,
    request: (it) => vehicleAsk(it, 'giveback'),
    done: (it) => `${it.vehicle} is given back.` },
];
