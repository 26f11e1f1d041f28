// The call taker's page: a call is numbered and kept before it is sent, and what the room answered
// to it is shown in large letters.

import { showAnswer, showCalls, showUnkept } from './calls.js';
import { toTheMetre } from './grid.js';
import { areasMap, divisionOf } from './map.js';
import { byId, setText } from './nodes.js';
import { openOutbox } from './outbox.js';
import { PlaceField, known } from './places.js';
import { signedIn } from './sign.js';

const NOTE_BYTES = 120;
const token = signedIn();
const form = byId('call');
const classes = [...document.getElementsByName('class')];
const counts = [...document.getElementsByName('needs')];
let outbox = null;
let isKeeping = false; // a call is being kept, which Enter can not begin twice
let unkept = ''; // why the call of the form could not be kept
let areas = [];
let showOnMap = () => {};

// ---- the form

const place = new PlaceField(byId('place'), byId('found'), (metres) => {
  showOnMap(metres);
  const division = metres && areas.length ? divisionOf(areas, metres) : null;
  const where = { null: '', 0: ' lies in no division.' }[division] ?? `, division ${division}`;
  say('place', metres ? `${toTheMetre(metres)}${where}` : '', division !== 0);
});

/** Says something below a field: what is wrong with it, where it is not fine. */
function say(name, words, isFine = false) {
  setText(byId(`${name}-says`), words);
  byId(`${name}-says`).classList.toggle('fine', isFine);
}

/** Counts the note's bytes in UTF-8, as the room does; gives how many are left. */
function count() {
  const left = NOTE_BYTES - new TextEncoder().encode(byId('note').value).length;
  const words = left < 0 ? `${-left} bytes too long` : `${left} of ${NOTE_BYTES} bytes left`;
  setText(byId('bytes'), words);
  byId('bytes').classList.toggle('bad', left < 0);
  return left;
}

const chosenClass = () => Number(classes.find((it) => it.checked)?.value ?? 0);
const needs = () => counts.map((it) => (it.value === '' ? NaN : Number(it.value)));
const isCount = (it) => Number.isInteger(it) && it >= 0 && it <= 9;

/** What is wrong with the form: the name of a field, its words, and what to turn to. */
function wrongs() {
  const found = [
    ['place', place.value().words, place.input],
    ['class', !chosenClass() && 'Choose a class: 1, 2 or 3.', classes[0]],
    ['needs', !(needs().every(isCount) && needs().some(Boolean))
      && 'At least one vehicle, and nine of a kind at most.', counts[0]],
    ['note', count() < 0 && 'The note is too long.', byId('note')],
  ];
  return found.filter(([, words]) => words);
}

/** Keeps the call of the form, which is sent then, and makes the form ready for the next one. */
async function submitted(event) {
  event.preventDefault();
  place.take();
  for (const name of ['class', 'needs', 'note']) say(name, '');
  const wrong = wrongs();
  for (const [name, words] of wrong) say(name, words);
  if (wrong.length) return wrong[0][2].focus();
  if (outbox?.state !== 'ready') return say('note', "The position's last serial is not known yet.");
  const { place: where, name } = place.value();
  return keep({ class: chosenClass(), needs: needs(), note: byId('note').value, place: where },
    { name, id: crypto.randomUUID(), made: Date.now() });
}

/** The form is cleared only once the call is kept: else it stays, and the page says so where the
    answer of the call before stood. */
async function keep(call, about) {
  if (isKeeping) return;
  isKeeping = true;
  try {
    await outbox.put(call, about);
    unkept = '';
    clear();
  } catch (fault) {
    unkept = fault.message || fault.name;
  }
  isKeeping = false;
  draw();
}

function clear() {
  form.reset();
  place.clear();
  count();
  place.input.focus();
}

/** Puts a call back into the form, for it was refused. */
function takeAgain({ content, about }) {
  place.set({ place: content.place, name: about.name });
  classes[content.class - 1].checked = true;
  content.needs.forEach((it, kind) => { counts[kind].value = it; });
  byId('note').value = content.note;
  count();
  place.input.focus();
}

/** A digit chooses a class, where the keys are with the classes. */
function digit(event) {
  const choice = classes.find((it) => it.value === event.key);
  if (!choice) return;
  event.preventDefault();
  choice.checked = true;
  choice.focus();
}

/** Enter sends the call from the note too. */
function entered(event) {
  if (event.key !== 'Enter' || event.shiftKey || event.isComposing) return;
  event.preventDefault();
  form.requestSubmit();
}

// ---- what became of the calls

async function draw() {
  if (!outbox) return;
  if (unkept) return showUnkept(byId('answer'), unkept);
  const calls = await outbox.messages();
  const waiting = calls.filter((it) => !it.answer);
  setText(byId('waiting'), waiting.length ? `Calls not yet answered: ${waiting.length}` : '');
  const again = waiting.length ? ' Calls are sent again by themselves.' : '';
  setText(byId('trouble'), outbox.trouble && outbox.state !== 'unknown'
    ? outbox.trouble.words + again : '');
  byId('start').hidden = outbox.state !== 'unknown';
  showAnswer(byId('answer'), calls.at(-1));
  showCalls(byId('calls'), calls.toReversed(), takeAgain);
}

async function open() {
  form.addEventListener('submit', submitted);
  byId('note').addEventListener('input', count);
  byId('note').addEventListener('keydown', entered);
  byId('class').addEventListener('keydown', digit);
  for (const it of counts) it.addEventListener('focus', () => it.select());
  byId('start').addEventListener('submit', (event) => {
    event.preventDefault();
    outbox.startAfter(Number(byId('last').value));
    place.input.focus();
  });
  place.input.focus();
  outbox = await openOutbox({ token, path: '/call', member: 'serial', changed: draw });
  draw();
  place.setPlaces(await known('places'));
  areas = await known('areas');
  showOnMap = areasMap(byId('map'), areas, (metres) => {
    place.set({ metres });
    place.input.focus();
  });
}

if (token !== null) open();
