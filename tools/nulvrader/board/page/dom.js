// Elements of the page: made, and changed only where something differs.

const SVG = 'http://www.w3.org/2000/svg';

function filled(node, attributes, children) {
  for (const [name, value] of Object.entries(attributes)) {
    if (name.startsWith('on')) node.addEventListener(name.slice(2), value);
    else if (value === true) node.setAttribute(name, '');
    else if (value !== false && value !== null && value !== undefined) node.setAttribute(name, value);
  }
  node.append(...children.filter((child) => child !== null && child !== undefined));
  return node;
}

/** An element of HTML. `attributes` may have listeners, as `onclick`; a false one is left out. */
export function el(tag, attributes = {}, ...children) {
  return filled(document.createElement(tag), attributes, children);
}

/** An element of SVG. */
export function svg(tag, attributes = {}, ...children) {
  return filled(document.createElementNS(SVG, tag), attributes, children);
}

/** A button with a title. */
export function button(title, onclick, attributes = {}) {
  return el('button', { type: 'button', onclick, ...attributes }, title);
}

/** An element of a class, with a text. */
export function part(tag, style, words = '') {
  return el(tag, { class: style }, words);
}

/** Sets the text of an element. */
export function text(node, words) {
  if (node.textContent !== words) node.textContent = words;
}

/** Sets an attribute; null takes it away. */
export function set(node, name, value) {
  if (value === null) {
    if (node.hasAttribute(name)) node.removeAttribute(name);
  } else if (node.getAttribute(name) !== String(value)) {
    node.setAttribute(name, value);
  }
}

/** Shows an element or not. */
export function show(node, shown) {
  if (node.hidden === shown) node.hidden = !shown;
}

/**
 * Has a parent show one child for each row, in their order. A row has a `key`, by which its child is kept from one time
 * to the next; `make(row)` makes a child, and `change(child, row)` brings it up to date.
 */
export function keyed(parent, rows, make, change) {
  const before = parent.kept ?? new Map();
  const after = new Map();
  let at = null;
  for (const row of rows) {
    const child = before.get(row.key) ?? make(row);
    before.delete(row.key);
    after.set(row.key, child);
    change(child, row);
    const next = at ? at.nextSibling : parent.firstChild;
    if (child !== next) parent.insertBefore(child, next);
    at = child;
  }
  for (const child of before.values()) child.remove();
  parent.kept = after;
}
