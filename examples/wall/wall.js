// The wall: asks its server every two seconds for the last picture and draws it. It says in its
// largest words when the room has not answered, whoever failed on the way.

import { drawKey } from './key.js';
import { drawMap } from './map.js';
import { htmlNode, keep, setText } from './nodes.js';
import { Pages } from './pages.js';
import { timeOf } from './words.js';

const ASK_EVERY = 2000; // milliseconds
const ANSWER_WITHIN = 5000; // milliseconds
const STALE_AFTER = 6; // seconds

const byId = (id) => document.getElementById(id);
const page = document.documentElement;
// The last answer of the wall's server, and when it came; before the first, the page's own clock.
let last = { desks: null, areas: [], age: 0, fault: null, came: performance.now(),
  now: Date.now() / 1000, since: Date.now() / 1000, offset: -60 * new Date().getTimezoneOffset() };
let trouble = ''; // why nothing newer came to this page, where it is not the room's fault

const pages = new Pages({ bar: byId('pages'), urgent: byId('urgent'), sheet: byId('queues') },
  () => draw(last));
const elapsed = () => (performance.now() - last.came) / 1000;

// ---- drawing

/** Draws a picture, and keeps how many milliseconds it took until it was shown. */
function draw(picture) {
  const began = performance.now();
  const desks = picture.desks ?? [];
  const shown = pages.chosen(desks);
  setText(document.querySelector('h1'), shown === desks ? 'Control room'
    : `Division ${shown[0].division}`);
  drawCounts(byId('counts'), shown);
  drawMap(byId('map'), shown, picture);
  pages.draw(desks, picture.offset);
  requestAnimationFrame(() => setTimeout(() => {
    page.dataset.redrawMilliseconds = (performance.now() - began).toFixed(1);
  }));
}

function drawCounts(list, desks) {
  const vehicles = desks.flatMap((desk) =>
    desk.vehicles.map((it) => ({ ...it, isOver: it.shift_end <= desk.moment })));
  const incidents = desks.flatMap((it) => it.incidents);
  const counts = [
    ['available', vehicles.filter((it) => [1, 6].includes(it.status) && !it.isOver).length],
    ['at work', vehicles.filter((it) => it.status >= 2 && it.status <= 5).length],
    ['incidents', incidents.length],
    ['short', incidents.filter((it) => it.lack.some(Boolean)).length],
  ];
  keep(list, counts, ([name]) => name, ([name]) => {
    const number = htmlNode('b');
    return Object.assign(htmlNode('li', '', number, ` ${name}`), { number });
  }, (node, [, number]) => setText(node.number, String(number)));
}

// ---- how old it is

/** Says since when the room has not answered, and greys what is shown. */
function showAge() {
  const isStale = elapsed() + last.age > STALE_AFTER;
  const box = byId('stale');
  setText(byId('clock'), timeOf(last.now + elapsed(), last.offset));
  if (isStale) {
    setText(box.querySelector('time'), timeOf(last.since, last.offset));
    setText(box.querySelector('small'), trouble || (last.fault ?? ''));
  }
  if (box.hidden === isStale) {
    box.hidden = !isStale;
    page.classList.toggle('stale', isStale);
    document.title = isStale ? 'NO ANSWER' : 'Control room';
  }
}

// ---- asking

async function nextPicture() {
  const answer = await fetch('picture', { cache: 'no-store',
    signal: AbortSignal.timeout(ANSWER_WITHIN) });
  if (!answer.ok) throw new Error(`status ${answer.status}`);
  return { ...await answer.json(), came: performance.now() };
}

/** Gets the next picture and draws it. What could not be drawn does not count as come. */
async function ask() {
  let doing = "The wall's own server does not answer.";
  try {
    const picture = await nextPicture();
    doing = 'The page can not draw what the room answers.';
    draw(picture);
    last = picture;
    trouble = '';
    page.dataset.pictures = Number(page.dataset.pictures ?? 0) + 1;
  } catch (fault) {
    trouble = doing;
    console.warn(String(fault));
  }
  setTimeout(ask, ASK_EVERY);
}

drawKey(byId('key'));
new ResizeObserver(() => draw(last)).observe(byId('map'));
setInterval(showAge, 250);
ask();
