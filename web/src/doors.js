// @ts-check
// The ways by which a text or a file comes in: pasted, dropped, or in the address of the page.
import {onDocument} from './dom.js';
import {refuseLong} from './limits.js';
import {scriptIn} from './links.js';
import {lookOf} from './looks.js';
import {openFiles as openEach, openText} from './opening.js';
import {app, doc, say, services} from './state.js';

/**
 * The field that a text goes into, if it is one.
 * @param {any} target
 * @returns {HTMLInputElement | HTMLTextAreaElement | null}
 */
const fieldOf = target => {
  const field = target && target.closest ? target.closest('input:not([type=checkbox]), textarea') : null;
  return field && !field.readOnly ? field : null;
};
/** Whether a text in the field for a position is to be opened instead. */
const isDocument = (/** @type {string} */ text) => /^(pgn|script)$/.test(lookOf(text));
/** @param {string} text */
function openPlain(text) {
  if (!refuseLong({id: 'page', value: ''}, text)) openText(text, 'board');
}
/**
 * Text in a field stays there, but for a PGN or a script in the field for a position; elsewhere it is opened.
 * @param {Event} e
 * @param {string} text
 */
function takeText(e, text) {
  const field = fieldOf(e.target);
  if (field && !(field.id === 'fen' && isDocument(text))) {
    if (refuseLong(field, text)) e.preventDefault();
    return;
  }
  e.preventDefault();
  if (text.trim()) openPlain(text);
}
/** @typedef {(files: File[]) => void} OpenFiles */
/**
 * @param {ClipboardEvent} e
 * @param {OpenFiles} openFiles
 */
function onPaste(e, openFiles) {
  const data = e.clipboardData, text = data ? data.getData('text/plain') : '';
  if (!data || text || fieldOf(e.target)) return takeText(e, text);
  e.preventDefault();
  openFiles([...data.files]);
}
/**
 * What is being typed elsewhere is handed over first, before another study takes the place of its own.
 * @param {DragEvent} e
 * @param {OpenFiles} openFiles
 */
function onDrop(e, openFiles) {
  const data = e.dataTransfer, field = document.activeElement;
  document.body.classList.remove('dropping');
  if (field instanceof HTMLElement && field !== e.target) field.blur();
  if (!data || !data.files.length) return takeText(e, data ? data.getData('text/plain') : '');
  e.preventDefault();
  openFiles([...data.files]);
}
/** @param {(files: File[]) => any} openTables */
export function listenToDoors(openTables) {
  const openFiles = /** @type {OpenFiles} */ (files => {
    const tables = files.filter(file => /\.dtm$/i.test(file.name));
    if (tables.length) openTables(tables);
    else openEach(files);
  });
  onDocument('paste', e => onPaste(e, openFiles));
  onDocument('dragover', e => {
    e.preventDefault();
    document.body.classList.add('dropping');
  });
  onDocument('dragleave', () => document.body.classList.remove('dropping'));
  onDocument('drop', e => onDrop(e, openFiles));
  addEventListener('hashchange', openHash);
}
/**
 * Opens the script that the address has, and says so.
 * @returns {Promise<boolean>} whether it has one
 */
export async function openHash() {
  const text = scriptIn(location.hash), before = doc(), draft = app.setup;
  if (text === null) return false;
  history.replaceState(null, '', location.pathname + location.search);
  await openText(text, 'board');
  if (doc() === before && app.setup === draft) return true;
  const more = app.say && app.say.where === 'board' ? app.say : {text: '', good: true};
  say('board', `Opened by the link in the address of this page. ${more.text}`.trim(), more.good);
  services.show();
  return true;
}
