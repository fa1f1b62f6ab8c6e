// @ts-check
// What a screen reader hears: one polite region for the whole page, in which texts that come together are said one
// after the other. Only a refusal is an alert of its own.
import {$} from './dom.js';

/** Texts come together within so many milliseconds. */
const TOGETHER = 150;
const waiting = /** @type {Map<string, string>} */ (new Map()), heard = /** @type {Map<string, string>} */ (new Map());
let timer = /** @type {any} */ (0), before = '';
/**
 * Texts as one; a text that stood there already is said again.
 * @param {string[]} texts
 * @param {string} last      what stands there
 */
export function together(texts, last) {
  const text = texts.map(one => one.replace(/[.\s]+$/, '')).join('. ');
  return text === last ? `${text}\u00a0` : text;
}
function flush() {
  before = together([...waiting.values()], before);
  waiting.clear();
  $('spoken').textContent = before;
}
/**
 * A text of some kind is said soon; of one kind only the newest.
 * @param {string} kind
 * @param {string} text
 */
export function hear(kind, text) {
  waiting.delete(kind);
  if (!text) return;
  waiting.set(kind, text);
  clearTimeout(timer);
  timer = setTimeout(flush, TOGETHER);
}
/**
 * The same, unless it was the last one of its kind, by its text or another key.
 * @param {string} kind
 * @param {string} text
 * @param {string} [key]
 */
export function hearNew(kind, text, key = text) {
  if (heard.get(kind) === key) return;
  heard.set(kind, key);
  hear(kind, text);
}
