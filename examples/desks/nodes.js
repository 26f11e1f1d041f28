// Elements of the pages. Text is set only as text, so nothing that a person typed becomes markup.
//
//   element('button', { class: 'main', onclick: send }, 'Send ', element('kbd', {}, 'Enter'))
//   keep(list, things, (it) => it.key, () => element('li'), (node, it) => setText(node, it.what))
//
// `keep`, `set` and `setText` are the wall's: nodes are kept from one drawing to the next.

import { keep, set, setText, svgNode } from '../wall/nodes.js';

export { keep, set, setText, svgNode };

export const byId = (id) => document.getElementById(id);

/**
 * An element with attributes and children; a child that is no node becomes text. A function named
 * `onclick` or the like listens; `true` sets an attribute without a value; what is false, null or
 * undefined is left out.
 */
export function element(name, attributes = {}, ...children) {
  const node = document.createElement(name);
  for (const [key, value] of Object.entries(attributes)) {
    if (typeof value === 'function') node.addEventListener(key.replace(/^on/, ''), value);
    else if (value === true) node.setAttribute(key, '');
    else if (value !== false && value != null) node.setAttribute(key, value);
  }
  node.append(...children.filter((it) => it !== null && it !== undefined && it !== false));
  return node;
}

/** Makes the children of a node these, and nothing else. */
export function fill(node, ...children) {
  node.replaceChildren(...children.filter((it) => it !== null && it !== undefined && it !== false));
}
