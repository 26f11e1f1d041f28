// Which terminal this browser is: the token of a call taker's position, a desk or a crew.
//
// A page names its kind in <html data-terminal="taker">, "desk" or "crew", and calls
// `signedIn()` first: it gives the token, or turns to the page on which one signs in.
//
// Tokens are kept in localStorage, one a kind, and not in sessionStorage: what waits in the outbox
// has to be sent with the same token by a page that was closed and is opened again. So whoever has
// the machine's account has its terminals; sign out on a machine that others use. Then the browser
// forgets the token and all that was kept with it; while something waits, it can not be done.

export const KINDS = ['taker', 'desk', 'crew'];
const nameOf = (kind) => `desks token ${kind}`;

/** The kind of terminal that this page is for. */
export const pageKind = () => document.documentElement.dataset.terminal;

/** The token that is kept for a kind of terminal; null where nobody signed in. */
export const token = (kind = pageKind()) => localStorage.getItem(nameOf(kind));

export function signIn(kind, text) {
  localStorage.setItem(nameOf(kind), text);
}

export function signOut(kind) {
  localStorage.removeItem(nameOf(kind));
}

/** The token of this page's terminal. A page without one turns to where one signs in. */
export function signedIn() {
  addEventListener('storage', ({ key }) => key === nameOf(pageKind()) && location.reload());
  const kept = token();
  if (kept === null) location.replace(`index.html#${pageKind()}`);
  return kept;
}
