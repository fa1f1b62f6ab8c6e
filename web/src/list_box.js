// @ts-check
// The box in which the list of entries is scrolled: how far, and which rows of a long list stand in it.
import {$} from './dom.js';

/** Rows behind these are drawn only by the button for more. */
const FAR = 660;
/** @returns {any} */
const box = () => $('rows') && $('rows').querySelector('.scroll');
const rows = () => box().querySelectorAll('tbody tr').length;
/**
 * Has a long list drawn down to a row.
 * @param {number} count
 */
function drawDown(count) {
  for (let more = box().querySelector('.more'); more && rows() < count; more = box().querySelector('.more'))
    more.click();
}
/**
 * Draws the rows anew, as far down as they were, and scrolled as far, if the same ones are wanted.
 * @param {() => void} draw
 * @param {boolean} same
 */
export function drawnAgain(draw, same) {
  const before = same && box() ? {top: box().scrollTop, count: rows()} : {top: 0, count: 0};
  draw();
  if (!box()) return;
  drawDown(before.count);
  box().scrollTop = before.top;
}
/**
 * The number of the study at a place, which its row begins with.
 * @param {number} at
 * @returns {any}
 */
const numberAt = at => box().querySelector(`[data-at="${at}"]`);
let last = '';
/**
 * Marks the study that is looked at, and brings its row into view if another one was looked at before: within the box
 * alone, the page stays where it is.
 * @param {string} id      of the document
 * @param {number} at
 */
export function markAt(id, at) {
  const anew = last !== `${id} ${at}`;
  last = `${id} ${at}`;
  if (!box()) return;
  if (anew && !numberAt(at) && at < FAR) drawDown(at + 1);
  for (const marked of box().querySelectorAll('[aria-current]')) marked.removeAttribute('aria-current');
  const number = numberAt(at);
  if (!number) return;
  number.setAttribute('aria-current', 'true');
  if (anew) intoView(number.closest('tr'));
}
/** @param {any} row */
function intoView(row) {
  const {top, bottom} = row.getBoundingClientRect(), frame = box().getBoundingClientRect().top,
              from = frame + box().querySelector('thead').offsetHeight, end = frame + box().clientHeight;
  if (top < from) box().scrollTop -= from - top;
  else if (bottom > end) box().scrollTop += bottom - end;
}
