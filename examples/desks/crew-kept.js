// What the crew's page keeps for when it is opened without a network: its own files, and what it
// heard last. What was pressed is in the outbox.
//
//   keepFiles()                keeps the page's files; crew-worker.js gives them back
//   keepRoom(token, kept, ago) keeps what crew-view.js made of the room's last answer, which was
//                              heard so many milliseconds ago
//   lastRoom(token)            gives it back: { kept, ago }; null and 0 if none
//   roomName(token)            the name under which it is kept
//   forgetRoom(token)          forgets it

const FILES = 'desks crew';

export const roomName = (token) => `desks crew heard ${token}`;

/** A browser that keeps no files shows the page only with a network. */
export async function keepFiles() {
  try {
    await navigator.serviceWorker.register('crew-worker.js', { scope: 'crew.html' });
    const isFile = (it) => !new URL(it).pathname.startsWith('/room/');
    const loaded = performance.getEntriesByType('resource').map((it) => it.name).filter(isFile);
    await (await caches.open(FILES)).addAll(new Set([location.pathname, ...loaded]));
  } catch (fault) {
    console.warn(`The page's files are not kept: ${fault}`);
  }
}

/** A browser whose store is full shows the page only once the room answers. */
export function keepRoom(token, kept, ago) {
  try {
    localStorage.setItem(roomName(token), JSON.stringify({ kept, at: Date.now() - ago }));
  } catch (fault) {
    forgetRoom(token);
    console.warn(`What the room said is not kept: ${fault}`);
  }
}

export function forgetRoom(token) {
  localStorage.removeItem(roomName(token));
}

/** The phone's clock may have been set back meanwhile: then it is as if it had just been heard. */
export function lastRoom(token) {
  const found = JSON.parse(localStorage.getItem(roomName(token)));
  return found ? { kept: found.kept, ago: Math.max(0, Date.now() - found.at) }
    : { kept: null, ago: 0 };
}
