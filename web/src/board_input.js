// @ts-check
// The way from fingers and keys to squares and moves.
import {$, button, h, onDocument} from './dom.js';
import {corner, man, movesFrom, showBoard, shownFen} from './board.js';
import {manIcon, WIDTH, X, Y} from './drawing.js';
import {isWhite, manName, menOf, sideOf, squareName, NAMES} from './fen.js';
import {prefetchMoves} from './prefetch.js';
import {change} from './actions.js';
import {app, doc, services, say} from './state.js';
import {insertMoves} from './edits.js';
import {draftFen, moveDraft, placeAt, removeAt} from './setup.js';
import {overTree} from './tree_room.js';
import {hear} from './voice.js';
/** @typedef {import('./types.js').Move} Move */

// ---- fingers
const box = () => $('board').firstChild.getBoundingClientRect();
/** @param {PointerEvent} e */
function squareOf(e) {
  const b = box(), unit = WIDTH / b.width;
  const f = Math.floor(((e.clientX - b.left) * unit - X) / 45),
        r = 7 - Math.floor(((e.clientY - b.top) * unit - 2 - Y) / 45);
  if (f < 0 || f > 7 || r < 0 || r > 7) return null;
  return app.flip ? 8 * (7 - r) + 7 - f : 8 * r + f;
}
/** @type {{from: number | null, letter: string, use?: any, at?: [number, number], over?: number | null} | null} */
let hold = null;  // the man under the finger
/**
 * A man of the palette is taken up.
 * @param {string} letter
 */
export function takeUp(letter) { hold = {from: null, letter}; }
/** @param {PointerEvent} e */
function onPress(e) {
  const s = squareOf(e);
  if (s === null || e.button > 0) return;
  e.preventDefault();
  $('board').firstChild.focus({preventScroll: true});
  const letter = menOf(shownFen())[s];
  const d = app.setup;
  if (d) {
    const there =
      d.survey && d.man !== null ? d.men[d.man] : '';  // while its squares are shown, a press moves this man
    if (letter) hold = {from: s, letter, at: [e.clientX, e.clientY]};
    else if (there) moveDraft(d.man, s, there, true);
    else placeAt(s);
    return;
  }
  if (app.chosen !== null && app.chosen !== s && play(app.chosen, s)) return;
  app.chosen = letter && movesFrom(s).length && app.chosen !== s ? s : null;
  if (app.chosen === null) notMovable(letter, s);
  if (app.chosen !== null) {
    hold = {from: s, letter, at: [e.clientX, e.clientY], over: s};
    prefetchMoves(movesFrom(s), null);
  }
  showBoard();
}
/**
 * Why a man cannot be taken up, where that is plain.
 * @param {string | undefined} letter
 * @param {number} s
 */
function notMovable(letter, s) {
  const view = app.view, side = sideOf(shownFen());
  if (!letter || !view || app.chosen === s || view.over || movesFrom(s).length) return;
  say('board',
    isWhite(letter) === (side === 'White')
      ? `The ${manName(letter).split(' ')[1]} on ${squareName(s)} has no legal move.`
      : `It is ${side}'s move.`);
  services.show();
}
/** @param {PointerEvent} e */
function onDrag(e) {
  if (!hold) return;
  if (!hold.use && hold.at && Math.hypot(e.clientX - hold.at[0], e.clientY - hold.at[1]) < 5) return;
  const b = box(), unit = WIDTH / b.width, board = $('board').firstChild;
  const use = hold.use = hold.use ||
    (hold.from === null ? board.appendChild(man(hold.letter, 0)) : board.querySelector(`use[data-at="${hold.from}"]`));
  if (!use) return;
  use.classList.add('drag');
  if (use.nextSibling) use.parentNode.append(use);
  const over = squareOf(e);
  if (hold.over !== over && hold.from !== null && !app.setup) prefetchMoves(movesFrom(hold.from), over);
  hold.over = over;
  use.setAttribute('x', (e.clientX - b.left) * unit - 22);
  use.setAttribute('y', (e.clientY - b.top) * unit - 24);
}
/** @param {PointerEvent} e */
function onRelease(e) {
  if (!hold) return;
  const {from, letter, use} = hold, s = squareOf(e);
  hold = null;
  if (app.setup) return moveDraft(from, s, letter, Boolean(use));
  if (from === null) return;
  if (s === null || s === from || play(from, s)) return showBoard();
  app.chosen = null;
  say('board', `${letter.toUpperCase().replace('P', '')}${squareName(s)}: not a legal move here.`);
  services.show();
}
export function listen() {
  $('board').addEventListener('pointerdown', onPress);
  onDocument('pointermove', onDrag);
  onDocument('pointerup', onRelease);
  onDocument('pointercancel', () => {
    hold = null;
    services.show();
  });
  onDocument('pointerdown', e => {
    if (!(/** @type {Element} */ (e.target).closest('.choose'))) closeChoice();
  }, true);
}

// ---- moves
/**
 * Moves are put in below a node, if the tree has room for them.
 * @param {string} path
 * @param {string[]} sans
 */
export function insert(path, sans) {
  const over = app.view ? overTree(app.view.root, path, sans) : '';
  if (!over)
    return change(now => {
      const s = now.studies[now.at];
      return s && app.view ? insertMoves(now.lines, s, app.view.root, path, sans) : null;
    });
  say('board', over);
  services.show();
  return Promise.resolve(false);
}
/**
 * Plays the move between two squares, if there is one; asks which man where a pawn promotes.
 * @param {number} from
 * @param {number} to
 */
function play(from, to) {
  const found = movesFrom(from).filter(m => m.to === to);
  if (!found.length) return false;
  app.chosen = null;
  if (found.length > 1) choose(found, to);
  else insert(doc().path, [found[0].san]);
  return true;
}
export function closeChoice() {
  const open = document.querySelector('.choose');
  if (open) open.remove();
  return open !== null;
}
/**
 * @param {Move[]} found
 * @param {number} to
 */
function choose(found, to) {
  const [x, y] = corner(to), b = box(), unit = b.width / WIDTH, path = doc().path,
            white = sideOf(shownFen()) === 'White';
  const take = (/** @type {string} */ san) => {
    list.remove();
    insert(path, [san]);
  };
  const choice = (/** @type {Move} */ m) => {
    const icon = manIcon(white ? m.promoted : m.promoted.toLowerCase());
    return button(icon, m.san, () => take(m.san), {'aria-label': NAMES[m.promoted], 'data-san': m.san});
  };
  const list = h('div', {class: 'choose', role: 'group', 'aria-label': 'Promote to'}, found.map(choice));
  closeChoice();
  document.body.append(list);
  list.style.left = `${Math.max(4, Math.min(b.left + x * unit - 80, innerWidth - 240))}px`;
  list.style.top = `${b.top + y * unit}px`;
  showBoard();
  list.firstChild.focus();
}

// ---- keys on the board while men are set up: arrows move a cursor, letters put men down (with Shift white ones)
/**
 * @param {KeyboardEvent} e
 * @returns {boolean}
 */
export function setupKey(e) {
  const d = app.setup,
        steps = /** @type {Record<string, number>} */ ({ArrowLeft: -1, ArrowRight: 1, ArrowUp: 8, ArrowDown: -8});
  if (!d || document.activeElement !== $('board').firstChild || e.ctrlKey || e.metaKey || e.altKey) return false;
  const at = d.cursor === null ? (app.flip ? 63 : 0) : d.cursor;
  if (steps[e.key] !== undefined) {
    const by = (app.flip ? -1 : 1) * steps[e.key], to = at + by;
    if (d.cursor !== null && (to < 0 || to > 63 || (Math.abs(by) === 1 && Math.floor(to / 8) !== Math.floor(at / 8))))
      return true;
    d.cursor = d.cursor === null ? at : to;
    showBoard();
    const letter = menOf(draftFen())[d.cursor];
    hear('square', `${squareName(d.cursor)} ${letter ? manName(letter) : 'empty'}`);
    return true;
  }
  if (/^[kqrbnpKQRBNP]$/.test(e.key) && d.cursor !== null) {
    placeAt(d.cursor, e.key);
    hear('square', `${manName(e.key)} ${squareName(d.cursor)}`);
    return true;
  }
  if (/^(Delete|Backspace| )$/.test(e.key) && d.cursor !== null) {
    if (e.key === 'Delete' || e.key === 'Backspace') {
      removeAt(d.cursor);
      hear('square', `${squareName(d.cursor)} empty`);
    } else placeAt(d.cursor);
    return true;
  }
  return false;
}
