// The map of both sides on one clock, which the visitor moves. `told` has what was recorded.
'use strict';
// What a crew does, by the number of its stage, and its colour.
const STAGES = [['off duty', ''], ['free', '#9fb8d0'], ['on its way', '#2060a0'],
  ['at a scene', '#208040'], ['leaving', '#806020'], ['at a hospital', '#8050a0']];
const SIZE = 384;
const clock = document.getElementById('clock');
let followed = null;

/** A second of the day as text; of the next day, too. */
function time(second) {
  if (second === null) return 'never';
  const two = (it) => String(Math.floor(it)).padStart(2, '0');
  return `${two(second / 3600 % 24)}:${two(second / 60 % 60)}`;
}

/** Draws the crews of a step: where they are, by what they do. */
function drawCrews(on, step) {
  const marks = Uint8Array.from(atob(step.crews), (it) => it.charCodeAt(0));
  for (let at = 0; at < marks.length; at += 3) {
    if (marks[at + 2] === 0) continue;
    on.fillStyle = STAGES[marks[at + 2]][1];
    on.fillRect(marks[at] * SIZE / 256 - 2, marks[at + 1] * SIZE / 256 - 2, 4, 4);
  }
}

/** Draws who waits, the longer the larger; gives how many those are. */
function drawWaiting(on, emergencies, now) {
  let waiting = 0;
  for (const [at, x, y, , , reached] of emergencies) {
    if (at > now || reached !== null && reached <= now) continue;
    waiting += 1;
    on.strokeStyle = now - at > 840 ? '#c03020' : '#e0a000';
    on.beginPath();
    on.arc(x * SIZE / 256, y * SIZE / 256, 3 + Math.min(9, (now - at) / 300), 0, 7);
    on.stroke();
  }
  return waiting;
}

/** The share of a side's emergencies until now that was sent a vehicle in time. */
function sentInTime(emergencies, now) {
  const due = emergencies.filter(([at]) => at >= told.begins && at + 180 <= now);
  const sent = due.filter(([at, , , , ordered]) => ordered !== null && ordered - at <= 180);
  return due.length ? `${(100 * sent.length / due.length).toFixed(1)} % sent one in 180 s` : '';
}

/** What became of the call that is followed. */
function fate(emergencies) {
  const [at, , , grade, ordered, reached, incidents] = emergencies[followed];
  return `Emergency ${followed}, class ${grade}: called ${time(at)}, sent ${time(ordered)}, ` +
    `reached ${time(reached)}, incidents made of it: ${incidents}`;
}

function draw() {
  const now = Number(clock.value);
  document.getElementById('now').textContent = time(now);
  for (const [name, {steps, emergencies}] of Object.entries(told.sides)) {
    const step = steps[Math.min(steps.length - 1, Math.floor((now - told.begins) / told.step))];
    const on = document.getElementById(`map-${name}`).getContext('2d');
    on.clearRect(0, 0, SIZE, SIZE);
    drawCrews(on, step);
    const waiting = drawWaiting(on, emergencies, now);
    const [incidents, orders, busy, vain] = step.wrong;
    document.getElementById(`sum-${name}`).textContent =
      `${waiting} people wait, ${step.waiting} lines in the list. ${sentInTime(emergencies, now)}` +
      `\nSince midnight: ${incidents} second incidents, ${orders} orders upon an order, ` +
      `${busy} to busy crews, ${vain} journeys in vain`;
    document.getElementById(`lines-${name}`).textContent = step.lines.join('\n');
    document.getElementById(`fate-${name}`).textContent =
      followed === null ? '' : fate(emergencies);
  }
}

/** Follows the nearest emergency of by now to a press on a map: the same on both sides. */
function follow(event) {
  const box = event.target.getBoundingClientRect();
  const x = (event.clientX - box.left) / box.width * 256;
  const y = (event.clientY - box.top) / box.height * 256;
  const far = ([at, east, north]) =>
    at > Number(clock.value) || at < Number(clock.value) - 7200
      ? Infinity : (east - x) ** 2 + (north - y) ** 2;
  const all = Object.values(told.sides)[0].emergencies;
  followed = all.reduce((best, it, nth) => far(it) < far(all[best]) ? nth : best, 0);
  draw();
}

for (const [name, colour] of STAGES.slice(1)) {
  const mark = document.createElement('i');
  mark.style.background = colour;
  document.getElementById('stages').append(mark, ` ${name}; `);
}
clock.addEventListener('input', draw);
for (const name of Object.keys(told.sides)) {
  document.getElementById(`map-${name}`).addEventListener('click', follow);
}
draw();
