// @ts-check
// What keys do.
import {$, onDocument} from './dom.js';
import {go, goTo, redo, undo} from './actions.js';
import {app, doc, node} from './state.js';
import {flip, focusBoard, showBoard} from './board.js';
import {closeChoice, setupKey} from './board_input.js';
import {close} from './documents_view.js';
import {close as closeEarlier} from './earlier_view.js';
import {close as closeFinding} from './finding_view.js';
import {hitsHere, stepHit} from './hits.js';
import {studyBeside} from './list_view.js';
import {endOf, remove} from './node_view.js';
import {draftFen, stepDraft} from './setup.js';
import {hideSurvey} from './survey.js';

/** @param {number} d */
function neighbour(d) {
  const n = node(), row = n && n.parent ? n.parent.children : [], m = n ? row[row.indexOf(n) + d] : null;
  if (m) go(m.path);
}
/**
 * The next study of the list as it is shown, or the one before.
 * @param {1 | -1} by
 */
export const goBeside = by => goTo(() => studyBeside(by));
/** Whether what is shown is one study, of those that were found. */
const isHit = () => hitsHere() !== null && doc().studies.length < 2;
/** @type {Record<string, (n: import('./types.js').TreeNode) => any>} */
const KEYS = {
  ArrowLeft: n => n.parent && go(n.parent.path),
  ArrowRight: n => n.children[0] && go(n.children[0].path),
  ArrowUp: () => neighbour(-1),
  ArrowDown: () => neighbour(1),
  Home: () => go('root'),
  End: n => go(endOf(n).path),
  Delete: n => remove(n.path),
  m: () => $('san').focus(),
  PageUp: () => (isHit() ? stepHit(-1) : goBeside(-1)),
  PageDown: () => (isHit() ? stepHit(1) : goBeside(1)),
};
/** Of a set-up that is open the men that were put down, else the document. */
export const back = () => (app.setup ? stepDraft(true) : undo());
export const forth = () => (app.setup ? stepDraft(false) : redo());
/** Closes the menu of what is saved; whether it was open. */
export function closeMenu() {
  const menu = $('saveMenu'), was = menu.open;
  if (was && menu.contains(document.activeElement)) menu.firstElementChild.focus();
  menu.open = false;
  return was;
}
/**
 * In a field Escape leaves it, and what was typed and not taken yet is dropped.
 * @param {KeyboardEvent} e
 * @param {any} field
 */
function inField(e, field) {
  if (e.key === 'Escape') {
    if (field.tagName === 'INPUT') field.value = field.id === 'san' ? '' : field.defaultValue;
    if (field.id === 'san') field.dispatchEvent(new Event('change', {bubbles: true}));
    focusBoard();
  }
  if (e.key === 'Enter' && field.id === 'fen' && field.value === draftFen()) start(e);
}
/**
 * Enter in a set-up is its first button.
 * @param {KeyboardEvent} e
 */
function start(e) {
  const button = $('start');
  e.preventDefault();
  if (button && !button.disabled) button.click();
}
/** Escape closes what is open, or lets go of a man. */
function onEscape() {
  if (closeChoice() || hideSurvey()) return;
  app.chosen = null;
  showBoard();
}

/** @param {KeyboardEvent} e */
function onKey(e) {
  const target = /** @type {Element} */ (e.target), ctrl = e.ctrlKey || e.metaKey, n = node();
  if (e.key === 'Escape' && (closeMenu() || close() || closeFinding() || closeEarlier())) return;
  // The field for moves is empty after its moves were taken: Ctrl-Z there means them.
  const taken = ctrl && target.id === 'san' && !(/** @type {HTMLInputElement} */ (target).value);
  if (!taken && /INPUT|TEXTAREA|SELECT/.test(target.tagName)) return inField(e, target);
  if (ctrl && /^[zy]$/i.test(e.key)) {
    e.preventDefault();
    return void (e.key.toLowerCase() === 'y' || e.shiftKey ? forth() : back());
  }
  if (setupKey(e)) return e.preventDefault();
  if (e.key === 'Escape') return onEscape();
  if (ctrl || e.altKey || target.closest('.choose, .panel')) return;
  if (e.key === 'f') {
    e.preventDefault();
    return flip();
  }
  if (e.key === 'Enter' && app.setup && !target.closest('button, summary, a')) return start(e);
  if (app.setup || !n || !KEYS[e.key] || (/^Page/.test(e.key) && doc().studies.length < 2 && !isHit())) return;
  e.preventDefault();
  KEYS[e.key](n);
}
export const listenToKeys = () => onDocument('keydown', onKey);
