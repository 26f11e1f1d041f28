// The crew's page where there is no network: its files as they were kept, and never the room's
// answers. While there is a network, each comes from the server.

const KEPT = 'desks crew';
const ANSWER_WITHIN = 4000; // milliseconds

async function fromServerOrKept(request) {
  try {
    return await fetch(request, { signal: AbortSignal.timeout(ANSWER_WITHIN) });
  } catch (fault) {
    const kept = await (await caches.open(KEPT)).match(request, { ignoreSearch: true });
    if (kept) return kept;
    throw fault;
  }
}

addEventListener('install', () => skipWaiting());
addEventListener('fetch', (event) => {
  const { method, url } = event.request;
  const isFile = method === 'GET' && !new URL(url).pathname.startsWith('/room/');
  if (isFile) event.respondWith(fromServerOrKept(event.request));
});
