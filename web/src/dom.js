// @ts-check
// Elements. Texts are always text nodes or attributes, never markup.

/** @typedef {Record<string, any>} Props @typedef {any} Kid */

/**
 * @param {string} id
 * @returns {any}
 */
export const $ = id => document.getElementById(id);

/**
 * @template {Element} E
 * @param {E} element
 * @param {Props | null} props
 * @param {Kid[]} kids
 * @returns {E}
 */
function fill(element, props, kids) {
  for (const [name, value] of Object.entries(props || {})) {
    if (name.startsWith('on')) element.addEventListener(name.slice(2), value);
    else if (value === true) element.setAttribute(name, '');
    else if (value !== false && value !== null && value !== undefined) element.setAttribute(name, value);
  }
  element.append(...some(kids));
  return element;
}
/**
 * @param {Kid[]} kids
 * @returns {any[]}
 */
const some = kids => /** @type {any[]} */ (
  kids.flat(Infinity)).filter(kid => kid !== null && kid !== undefined && kid !== false && kid !== '');
/**
 * @param {string} tag
 * @param {Props | null} props
 * @param {Kid[]} kids
 * @returns {any}
 */
export const h = (tag, props, ...kids) =>
  fill(document.createElement(tag), tag === 'button' ? {type: 'button', ...props} : props, kids);
/**
 * @param {string} tag
 * @param {Props | null} props
 * @param {Kid[]} kids
 * @returns {any}
 */
export const svg = (tag, props, ...kids) =>
  fill(document.createElementNS('http://www.w3.org/2000/svg', tag), props, kids);
/**
 * @param {string} id
 * @param {Kid[]} kids
 */
export const put = (id, ...kids) => $(id).replaceChildren(...some(kids));
/**
 * An element that is wanted at a place: its key has all that it shows of its own, `make` makes it, `kids` come into it.
 * @typedef {{key: string, make: () => any, kids?: Wanted[]}} Wanted
 */
/** @type {WeakMap<Node, string>} */
const madeFrom = new WeakMap();
/**
 * Makes the children of an element those that are wanted. One that is there already, by the same key, is kept; keys
 * differ, and keep their order.
 * @param {any} parent
 * @param {Wanted[]} wanted
 */
export function patch(parent, wanted) {
  let at = parent.firstChild, keys = /** @type {Set<string | undefined> | null} */ (null);
  for (const {key, make, kids} of wanted) {
    while (at && madeFrom.get(at) !== key) {
      keys = keys || new Set(wanted.map(item => item.key));
      if (keys.has(madeFrom.get(at))) break;
      at = without(at);
    }
    const there = at && madeFrom.get(at) === key, child = there ? at : parent.insertBefore(make(), at);
    if (!there) madeFrom.set(child, key);
    if (kids) patch(child, kids);
    at = child.nextSibling;
  }
  while (at) at = without(at);
}
/**
 * The node after one that is removed.
 * @param {any} node
 */
function without(node) {
  const next = node.nextSibling;
  node.remove();
  return next;
}
/**
 * @param {Kid} text
 * @param {string} title
 * @param {(e: any) => any} onclick
 * @param {Props} props
 * @returns {any}
 */
export const button = (text, title, onclick, props = {}) => h('button', {title, onclick, ...props}, text);
/**
 * A button within a text or a table.
 * @param {Kid} text
 * @param {string} title
 * @param {(e: any) => any} onclick
 * @param {Props} props
 * @returns {any}
 */
export const smallButton = (text, title, onclick, props) => button(text, title, onclick, {class: 'chip act', ...props});

/**
 * The head of a panel, with the button that closes it.
 * @param {string} title
 * @param {() => any} close
 * @param {string} id
 */
export const panelHead = (title, close, id) =>
  h('div', {class: 'row'}, h('h2', {}, title), h('span', {class: 'gap'}), button('Close', 'Escape', close, {id}));
/** @type {typeof document.addEventListener} */
export const onDocument = (/** @type {any} */ kind, /** @type {any} */ act) => document.addEventListener(kind, act);

/**
 * A text or bytes as a file for the user.
 * @param {string} name
 * @param {BlobPart} content
 */
export function download(name, content) {
  const link =
    h('a', {href: URL.createObjectURL(new Blob([content], {type: 'application/octet-stream'})), download: name});
  link.click();
  setTimeout(() => URL.revokeObjectURL(link.href), 10000);
}
