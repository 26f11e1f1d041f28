// Nodes of the page that are kept from one picture to the next, so that nothing flickers. Text is
// set only as text, never as markup.

const SVG = 'http://www.w3.org/2000/svg';

export function svgNode(name, attributes = {}, ...children) {
  const node = document.createElementNS(SVG, name);
  set(node, attributes);
  node.append(...children);
  return node;
}

export function htmlNode(name, className = '', ...children) {
  const node = document.createElement(name);
  if (className) node.className = className;
  node.append(...children);
  return node;
}

/** Sets the attributes that differ from what was set before. */
export function set(node, attributes) {
  node.lastSet ??= {};
  for (const name in attributes) {
    if (node.lastSet[name] === attributes[name]) continue;
    node.lastSet[name] = attributes[name];
    node.setAttribute(name, attributes[name]);
  }
}

/** Sets the text where it differs from what was set before. */
export function setText(node, text) {
  if (node.lastText === text) return;
  node.lastText = text;
  node.textContent = text;
}

/**
 * Makes the children of a node those of the things, in their order: each thing keeps its node by
 * its key, and what has gone goes, but for what another node has taken.
 */
export function keep(parent, things, keyOf, make, update) {
  const before = parent.kept ?? new Map();
  const kept = new Map();
  for (const thing of things) {
    const key = keyOf(thing);
    kept.set(key, before.get(key) ?? kept.get(key) ?? make(thing));
  }
  for (const [key, node] of before) {
    if (!kept.has(key) && node.parentNode === parent) node.remove();
  }
  let next = parent.firstChild;
  for (const node of kept.values()) {
    if (node === next) next = next.nextSibling;
    else parent.insertBefore(node, next);
  }
  parent.kept = kept;
  for (const thing of things) update(kept.get(keyOf(thing)), thing);
}
