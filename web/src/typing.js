// @ts-check
// What is being typed stays in its field, whatever is drawn anew around it, and is handed over as the browser would.
import {idle} from './actions.js';
import {keepLooked, mended, placeHere, unfinished} from './documents.js';
import {$, onDocument} from './dom.js';
import {app, doc} from './state.js';
/** @typedef {HTMLInputElement | HTMLTextAreaElement} Field */
/** @typedef {{id: string, value: string, start: number | null, end: number | null, of: string, at: number}} Typed */

/** The field with words that were not handed over yet. */
let typing = /** @type {Field | null} */ (null);
/** Fields that were drawn with such words: the browser does not know that the user typed them. */
const owed = /** @type {WeakSet<Field>} */ (new WeakSet());
/** What the page had before it was loaded again, until its field is there. */
let before = unfinished.kept();
/** Whether the page is being drawn: a field that goes then was not left. */
let drawing = false;
/** @param {any} element */
const isField = element => element instanceof HTMLTextAreaElement ||
  (element instanceof HTMLInputElement && /^(text|search)$/.test(element.type));
/**
 * Words that are typed at a position which was only looked at make it a document.
 * @param {Field} field
 */
function keepTyped({id, value}) {
  if (unfinished.keep({id, value, of: placeHere(), at: doc().at, path: doc().path})) keepLooked();
}
/** @param {Field} field */
function handOver(field) {
  if (owed.has(field) && field.isConnected && !drawing) field.dispatchEvent(new Event('change', {bubbles: true}));
}
export function watchTyping() {
  // A browser hands over what stands in a field that is taken out while it is typed in.
  document.addEventListener('change', e => drawing && e.stopImmediatePropagation(), true);
  onDocument('input', e => {
    if (!isField(e.target)) return;
    typing = /** @type {Field} */ (e.target);
    keepTyped(typing);
  });
  onDocument('change', e => {
    const field = /** @type {Field} */ (e.target);
    owed.delete(field);
    if (typing === field) typing = null;
    const kept = unfinished.kept();
    const stays = field.id === 'script' || (field.id === 'san' && field.value);
    if (kept && kept.id === field.id && !stays) idle().then(() => unfinished.drop(kept.id, kept.value));
  });
  // Words that were neither handed over nor kept yet would be lost: the browser asks.
  addEventListener('beforeunload', e => {
    const open = typing && typing.isConnected && /^(note|tag|cutText|gameText|script)/.test(typing.id);
    if (open && typing && !mended.has(typing.value)) e.preventDefault();
  });
  onDocument('focusout', e => handOver(/** @type {Field} */ (e.target)));
  onDocument('keydown', e => {
    if (e.key === 'Enter' && e.target instanceof HTMLInputElement) setTimeout(handOver, 0, e.target);
  });
}
/**
 * What is being typed in the field with the focus, before the page is drawn.
 * @returns {Typed | null}
 */
export function typedNow() {
  drawing = true;
  if (!typing || typing !== document.activeElement || !typing.id) return null;
  const {id, value, selectionStart: start, selectionEnd: end} = typing;
  return {id, value, start, end, of: doc().id, at: doc().at};
}
export function drawn() { drawing = false; }
/**
 * The same in the field that was drawn in its place, of the same study.
 * @param {any} field
 * @param {Typed | null} typed
 */
export function typeAgain(field, typed) {
  if (!typed || !isField(field) || field.id !== typed.id || doc().at !== typed.at) return;
  if (typed.of && doc().id !== typed.of) return;
  field.value = typed.value;
  field.setSelectionRange(typed.start, typed.end);
  typing = field;
  owed.add(field);
  keepTyped(field);
}
/**
 * What was typed before a reload stands in its field again, as if it had just been typed there.
 * @param {Field} field
 * @param {string} value
 */
function typeOn(field, value) {
  const box = field.closest('details');
  if (box && !box.open) box.querySelector('summary')?.click();
  field.value = value;
  field.focus({preventScroll: true});
  field.dispatchEvent(new Event('input', {bubbles: true}));
  owed.add(field);
}
/**
 * What was typed before a reload is handed over once its field is drawn, but for a move, and a script, which are not
 * entered and not run before the user does so; elsewhere it is forgotten.
 */
export function handOverKept() {
  if (!before) return;
  const {id, value, of, at, path} = before, field = $(id), isScript = id === 'script';
  if (of && (!doc().id || (app.setup && !isScript))) return;
  const isThere = of === placeHere() && (isScript || (at === doc().at && (id === 'san' || path === doc().path)));
  if (isThere && !field) return;
  before = null;
  if (!isThere || field.value === value) return unfinished.drop(id, value);
  if (isScript || id === 'san') return typeOn(field, value);
  field.value = value;
  field.dispatchEvent(new Event('change', {bubbles: true}));
}
