// The allocator's page: reads the lists and draws them, and does what a key asks for.

import { Acting } from './allocator-acting.js';
import { ACTIONS } from './allocator-actions.js';
import { Alarm } from './allocator-alarm.js';
import { Drawer } from './allocator-drawer.js';
import { Exceptions } from './allocator-exceptions.js';
import { writeHandover } from './allocator-handover.js';
import { IncidentPage } from './allocator-incident.js';
import { drawKeys, isTyped, move, showKeys } from './allocator-keys.js';
import { incidentLines, loanLines, pointLines, queueLines, vehicleLines }
  from './allocator-lines.js';
import { Panel } from './allocator-panel.js';
import { LISTS, Reading, readOn } from './allocator-reading.js';
import { Stays } from './allocator-since.js';
import { unrankedLines } from './allocator-unranked.js';
import { clock, isEligible, lineWords, sum } from './allocator-words.js';
import { byId, element, setText } from './nodes.js';
import { signedIn } from './sign.js';

const STALE = 6; // seconds without an answer after which the page says so in large words
const BOUND = 120; // minutes that a vehicle may have one status of work, if nothing else was set
const BOUND_NAME = 'allocator bound';

const LINES = { queue: queueLines, unranked: unrankedLines, incidents: incidentLines,
  points: pointLines, vehicles: vehicleLines, loans: loanLines };
const panels = Object.fromEntries([
  ['queue', 'Queue', ['queue']],
  ['unranked', 'Not in the queue', LISTS],
  ['incidents', 'Incidents', ['incidents']],
  ['points', 'Points', ['points']],
  ['vehicles', 'Vehicles', ['vehicles']],
  ['loans', 'Offers and loans', ['offers', 'loans']],
].map(([name, title, lists], at) => [name, new Panel(name, at + 1, title, lists)]));

const reading = new Reading();
const drawer = new Drawer();
const acting = new Acting(reading, drawer);
const incidentPage = new IncidentPage(leave);
const alarm = new Alarm(byId('alarm'), () => press('v'));
const marks = { stays: new Stays(), exceptions: new Exceptions(), callsSeen: new Map(),
  get bound() { return 60 * Number(localStorage.getItem(BOUND_NAME) ?? BOUND); } };
let current = panels.queue;
let lines = Object.fromEntries(Object.keys(panels).map((it) => [it, []]));

const panel = () => (incidentPage.number === null ? current : incidentPage);

// ---- drawing

/** Draws what the lists have; keeps of which round it is, and how many milliseconds it took until
    it was shown. */
function draw() {
  const { round } = reading;
  const began = performance.now();
  const room = reading.room();
  for (const [name, linesOf] of Object.entries(LINES)) {
    lines[name] = linesOf(room, marks);
    const { lists } = panels[name];
    panels[name].show(lines[name], reading.age(...lists), reading.isOld(...lists));
  }
  drawHead(room);
  drawBar();
  requestAnimationFrame(() => setTimeout(() => {
    const { dataset } = document.documentElement;
    dataset.redrawMilliseconds = (performance.now() - began).toFixed(1);
    dataset.shown = round;
  }));
}

function drawHead({ division, vehicles, incidents, moment }) {
  setText(document.querySelector('h1'), division === null ? 'Allocator'
    : `Allocator of division ${division}`);
  const free = vehicles.filter((it) => isEligible(it, moment)).length;
  const short = incidents.filter((it) => sum(it.lack)).length;
  setText(byId('counts'), `${free} of ${vehicles.length} vehicles free, ${short} of `
    + `${incidents.length} incidents lack one`);
}

/** The selected line in full, and the keys that fit it. */
function drawBar() {
  const { line } = panel();
  setText(byId('line'), line?.what ? lineWords(line) : '');
  drawKeys(byId('keys'), reading.room(), line?.target ?? {}, PAGE_KEYS, press);
}

/** The clock, how old each list is, and whether the room answers at all. */
function tick() {
  setText(byId('clock'), clock(reading.moment));
  for (const it of Object.values(panels)) {
    it.showAge(reading.age(...it.lists), reading.isOld(...it.lists));
  }
  const age = reading.age(...LISTS);
  const isStale = age > STALE || reading.drawFault !== '';
  document.documentElement.classList.toggle('is-stale', isStale);
  setText(byId('stale'), isStale ? 'No new answer from the room since '
    + `${clock(reading.moment - age)}. ${reading.drawFault || reading.fault}` : '');
  byId('stale').hidden = !isStale;
}

// ---- rounds

async function afterRound() {
  const room = reading.room();
  if (reading.isWhole) {
    marks.stays.note(room);
    noteCalls(room);
    alarm.note(room);
  }
  draw();
  await incidentPage.read(reading);
  await marks.stays.askOne();
  if (await marks.exceptions.ask(room)) draw();
}

/** How many calls of each incident somebody has seen: those of an incident that is open now, and
    those that there were when this page first saw it. */
function noteCalls({ incidents }) {
  const isOpen = (it) => it.number === incidentPage.number;
  marks.callsSeen = new Map(incidents.map((it) =>
    [it.number, isOpen(it) ? it.calls : marks.callsSeen.get(it.number) ?? it.calls]));
}

// ---- incidents, and what somebody looked at

function openIncident(number) {
  if (!(number > 0)) return;
  location.hash = `incident-${number}`;
}

function turned() {
  const number = Number(/^#incident-([1-9]\d*)$/.exec(location.hash)?.[1] ?? NaN);
  drawer.close();
  incidentPage.turnTo(number > 0 ? number : null);
  byId('lists').hidden = number > 0;
  if (number > 0) {
    alarm.looked(number, reading.moment);
    noteCalls(reading.room());
    incidentPage.read(reading);
  }
  panel().focus();
  drawBar();
}

function leave() {
  location.hash = '';
}

/** Turns to the incident that calls, and proposes for it. */
function look() {
  const number = alarm.first;
  if (number === null) return panel().say('No alarm waits.');
  if (location.hash) leave();
  incidentPage.turnTo(null);
  byId('lists').hidden = false;
  turnTo(panels.incidents);
  panels.incidents.find((it) => it.target.incident === number);
  return begin(ACTIONS[0], panels.incidents, { incident: number });
}

function begin(action, where, target) {
  const { incident } = target ?? where.line?.target ?? {};
  if (action === ACTIONS[0] && incident) alarm.looked(incident, reading.moment);
  return acting.begin(action, where, target);
}

// ---- forms of the page itself

function form(title, field, button, send) {
  drawer.open(panel(), { title, fields: [field], button, send(values) {
    const words = send(Object.values(values)[0].trim());
    if (!words) drawer.close();
    return words;
  } });
}

const find = () => form('Find', { name: 'text', label: 'Callsign, or number of an incident' },
  'Find', (text) => {
    const wanted = text.toUpperCase();
    const where = [panels.vehicles, panels.incidents].find((it) =>
      it.find((line) => line.what === wanted || line.what === `Incident ${wanted}`));
    if (!where) return `Neither a vehicle of this desk nor an active incident is “${text}”.`;
    drawer.close(); // which gives the keys back to where it began
    if (location.hash) leave();
    turnTo(where);
    return '';
  });

const setBound = () => form('Vehicles that stay for long',
  { name: 'minutes', label: 'Minutes', value: String(marks.bound / 60), mode: 'numeric' }, 'Set',
  (text) => {
    if (!/^[1-9]\d{0,3}$/.test(text)) return 'Write whole minutes, 1 to 9999.';
    localStorage.setItem(BOUND_NAME, text);
    draw();
    return '';
  });

const openByNumber = () => form('Open an incident', { name: 'number', label: 'Number',
  value: String(panel().line?.target.incident ?? ''), mode: 'numeric' }, 'Open', (text) => {
  if (!/^[1-9]\d{0,9}$/.test(text)) return 'Write the number of an incident.';
  openIncident(Number(text));
  return '';
});

function open() {
  const { incident } = panel().line?.target ?? {};
  return incident ? openIncident(incident) : openByNumber();
}

// ---- keys

const PAGE_KEYS = [
  { key: 'o', name: "the incident's page", do: open },
  { key: 'i', name: 'an incident by its number', do: openByNumber },
  { key: 'u', name: 'take the last thing back', do: () => acting.undo(panel()) },
  { key: 'v', name: 'look at what sounds', do: look },
  { key: '/', name: 'find', do: find },
  { key: 'h', name: 'how long is too long', do: setBound },
  { key: '?', name: 'all keys', do: () => showKeys(byId('help'), PAGE_KEYS) },
];

function turnTo(one) {
  current = one;
  one.focus();
}

/** Does what a key stands for; says whether it stands for something. */
function press(key) {
  const action = ACTIONS.find((it) => it.key === key);
  const ofPage = PAGE_KEYS.find((it) => it.key === key);
  const numbered = Object.values(panels)[Number(key) - 1];
  if (action) begin(action, panel());
  else if (ofPage) ofPage.do();
  else if (numbered && incidentPage.number === null) turnTo(numbered);
  else return false;
  return true;
}

function pressed(event) {
  if (event.ctrlKey || event.altKey || event.metaKey || byId('help').open) return;
  if (event.key === 'Escape') {
    if (drawer.isOpen) drawer.close();
    else leave();
  } else if (!drawer.isOpen && !isTyped(event.target)) {
    const isButton = event.target.closest('button, a') && ['Enter', ' '].includes(event.key);
    const isDone = !isButton && (move(panel(), event.key) || (!event.repeat && press(event.key)));
    if (isDone) event.preventDefault();
  }
  drawBar();
}

// ---- the beginning

function start() {
  const { queue, incidents, ...others } = panels;
  byId('lists').append(queue.node, incidents.node, element('div', { class: 'others' },
    ...Object.values(others).map((it) => it.node)));
  byId('lists').after(incidentPage.node);
  for (const it of Object.values(panels)) {
    it.node.addEventListener('focusin', () => { current = it; });
    it.node.addEventListener('dblclick', () => press('Enter'));
  }
  addEventListener('keydown', pressed);
  addEventListener('click', drawBar);
  addEventListener('hashchange', turned);
  addEventListener('beforeprint', () => writeHandover(byId('handover'), reading.room(), lines));
  setInterval(tick, 500);
  turned();
  readOn(reading, afterRound);
}

if (signedIn() !== null) start();
