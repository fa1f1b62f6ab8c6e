// @ts-check
// Tables: long ones in slices, and headings by which a list is sorted.
import {button, h} from './dom.js';
/** @typedef {{by: string, back: boolean}} Order */
/** @typedef {{kid: any, sort: string}} SortHead */

const FIRST = 60, SLICE = 300;
/** @param {any} head */
const headView = head =>
  (head && head.sort ? h('th', {scope: 'col', 'aria-sort': head.sort}, head.kid) : h('th', {scope: 'col'}, head));
/**
 * Has more rows drawn as soon as the button for them comes into sight.
 * @param {any} more
 * @param {() => void} on
 */
function whenSeen(more, on) {
  if (!globalThis.IntersectionObserver) return;
  const watch = new IntersectionObserver(seen => {
    if (!more.isConnected) watch.disconnect();
    else if (seen.some(({isIntersecting}) => isIntersecting)) on();
  });
  watch.observe(more);
}
/**
 * A table; of a long one the first rows, and more as one scrolls down to their end, or by a button there.
 * @template T
 * @param {(SortHead | string)[]} head
 * @param {T[]} items
 * @param {(item: T) => any[]} cells
 */
export function table(head, items, cells) {
  const row = (/** @type {T} */ item) => {
    const all = cells(item), last = all.length - 1, wide = head.length - last;
    return h('tr', {}, all.map((cell, i) => h('td', {colspan: i === last && wide > 1 && wide}, cell)));
  };
  const body = h('tbody', {}, items.slice(0, FIRST).map(row));
  let shown = FIRST;
  const on = () => {
    body.append(...items.slice(shown, shown + SLICE).map(row));
    shown += SLICE;
    if (shown >= items.length) more.remove();
    else more.textContent = left();
  };
  const left = () => `Show ${Math.min(SLICE, items.length - shown)} more of ${items.length - shown}`;
  const more = h('button', {class: 'chip act more', onclick: on}, left());
  if (items.length > FIRST) whenSeen(more, on);
  return h('div', {class: 'scroll'}, h('table', {}, h('thead', {}, h('tr', {}, head.map(headView))), body),
    items.length > FIRST && more);
}
/**
 * A heading that sorts a list by its column; once more, the other way round.
 * @param {string} text
 * @param {string} by
 * @param {Order} now
 * @param {(order: Order) => any} set
 * @returns {SortHead}
 */
export function sortHead(text, by, now, set) {
  const here = now.by === by, sign = here ? (now.back ? ' ↑' : ' ↓') : '';
  return {
    kid:
      button(text + sign, 'sort by this', () => set({by, back: here && !now.back}), {class: 'link', 'data-sort': by}),
    sort: here ? (now.back ? 'descending' : 'ascending') : 'none'
  };
}
