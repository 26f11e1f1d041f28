// Asks the room. It never throws: each question has one of three answers.
//
//   await ask('/queue')                                     GET
//   await ask('/incidents/7/mobilise', { vehicle: 'A1' })   POST with a body
//   await ask('/incidents/7/close', null)                   POST without one
//
//   { ok: true, status, content, moment }                   moment: the room's Date, seconds of UTC
//   { ok: false, status, number, name, words, moment }      a refusal, with its words for people
//   { ok: false, isUnanswered: true, number: 0, .. }        nothing came: what was asked may have
//                                                           been done, or not
//
// The token is that of the page's terminal, or the one given: ask(path, body, { token }).

import { wordsOf } from './refusals.js';
import { token as kept } from './sign.js';

const ANSWER_WITHIN = 5000; // milliseconds; the servers between wait 3 s for the room

export async function ask(path, body, { token = kept() } = {}) {
  try {
    const answer = await fetch(`/room${path}`, requestOf(body, token));
    return read(answer, await answer.json());
  } catch {
    return unanswered();
  }
}

function requestOf(body, token) {
  const request = { cache: 'no-store', credentials: 'omit', redirect: 'error',
    headers: { 'X-Terminal': token ?? '' }, signal: AbortSignal.timeout(ANSWER_WITHIN) };
  if (body === undefined) return request;
  if (body === null) return { ...request, method: 'POST' };
  request.headers['Content-Type'] = 'application/json';
  const text = typeof body === 'string' ? body : JSON.stringify(body);
  return { ...request, method: 'POST', body: text };
}

/** An answer of the room. What has not the room's form is of a server between: no answer. */
function read(answer, content) {
  const { status } = answer;
  const moment = Math.floor(Date.parse(answer.headers.get('Date')) / 1000);
  if (answer.ok) return { ok: true, status, content, moment };
  const { number, error: name } = content;
  if (!(number > 0)) return unanswered();
  return { ok: false, isUnanswered: false, status, number, name, words: wordsOf(number), moment };
}

function unanswered() {
  return { ok: false, isUnanswered: true, status: 0, number: 0, name: 'Unanswered',
    words: wordsOf(0), moment: NaN };
}
