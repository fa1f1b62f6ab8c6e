// @ts-check
// Below the board: the way through the tree, and the legal moves of the node by what each leaves.
import {button, h} from './dom.js';
import {control, other, sideOf, squareName} from './fen.js';
import {change, go, idle} from './actions.js';
import {app, doc, node, services, say} from './state.js';
import {flip} from './board.js';
import {shownText, wordsIn} from './comments.js';
import {insert} from './board_input.js';
import {earlierButton} from './earlier_view.js';
import {promoteNode, removeNode} from './edits.js';
import {refuseLong} from './limits.js';
import {nodeAt} from './parse_answers.js';
import {openSetup} from './setup.js';
import {movesTo} from './tree_room.js';
import {typedMoves as movesIn} from './typed.js';
import {atStart} from './wording.js';
import {
  counted,
  letsGo,
  markMeaning,
  markSign,
  moveName,
  numberedLast,
  valueSign,
  valueText,
  zugzwangText
} from './words.js';
/** @typedef {import('./types.js').TreeNode} TreeNode @typedef {import('./types.js').Move} Move */
/** @typedef {import('./types.js').Study} Study */

/** @param {TreeNode | null} n */
const to = n => () => {
  if (n) go(n.path);
};
/** @param {TreeNode} n */
export function endOf(n) {
  let end = n;
  while (end.children[0]) end = end.children[0];
  return end;
}
/**
 * What was typed and refused stays in its field.
 * @param {string} id
 * @param {string} text
 */
export const typedOr = (id, text) => (app.say && app.say.field === id ? app.say.typed : text);

/** The moves that were typed in a document and are not entered: they stay in their field. */
let unentered = {text: '', of: ''};
/** @param {string} text */
const stays = text => {
  unentered = {text, of: doc().id};
};
/**
 * Typed moves are entered by Enter; a field that is left keeps them.
 * @param {HTMLInputElement} field
 */
function handIn(field) {
  const text = field.value;
  if (document.activeElement !== field) return stays(text);
  field.value = '';
  stays('');
  typedMoves(text);
}
/** @param {TreeNode} n */
export function navView(n) {
  const view = app.view, up = n.parent, next = n.children[0] || null, root = view ? view.root : null;
  const input = h('input', {
    id: 'san',
    size: 6,
    placeholder: 'a move',
    'aria-label': 'Type a move, as Kb6',
    autocomplete: 'off',
    autocapitalize: 'off',
    spellcheck: 'false',
    value: unentered.of === doc().id ? unentered.text : '',
    onkeydown: (/** @type {KeyboardEvent} */ e) => {
      const field = /** @type {HTMLInputElement} */ (e.target);
      if (e.key === 'Enter' && field.value && field.value === unentered.text)
        field.dispatchEvent(new Event('change', {bubbles: true}));
    },
    onchange: (/** @type {any} */ e) => handIn(e.target)
  });
  return [
    h('div', {class: 'group'},
      button('«', 'to the start (Home)', to(root), {id: 'first', disabled: !up, 'aria-label': 'To the start'}),
      button('‹', 'back (←)', to(up), {id: 'back', disabled: !up, 'aria-label': 'Back'}),
      button('›', 'on (→)', to(next), {id: 'on', disabled: !next, 'aria-label': 'On'}),
      button('»', 'to the end (End)', to(endOf(n)), {id: 'end', disabled: !next, 'aria-label': 'To the end'}),
      button('⇅', 'turn the board (f)', flip, {id: 'flip', 'aria-label': 'Turn the board'})),
    input, button('Delete', 'this move and all below it (Delete)', () => remove(n.path), {id: 'delete', disabled: !up}),
    button('Promote', 'this move one place up among its variations', () => promote(n),
      {id: 'promote', disabled: !up || up.children[0] === n}),
    button('Set up', 'change the position', () => openSetup(false), {id: 'setUp'})
  ];
}
/**
 * Both squares of a move that is written with them, as `c7c8Q`.
 * @param {string | undefined} san
 */
const squares = san => (san || '').replace(/^[KQRBN]|[+#!?=x]/g, '');
let entering = Promise.resolve();
/**
 * Moves are played behind those that are under way.
 * @param {string} text
 */
function typedMoves(text) {
  if (!refuseLong({id: 'san', value: ''}, text)) entering = entering.then(() => enter(text));
}
/** @param {string} text */
async function enter(text) {
  await idle();
  const sans = movesIn(text), [first] = sans,
        named =
          app.view && app.view.moves.find(m => squareName(m.from) + squareName(m.to) + m.promoted === squares(first));
  if (!sans.length && text.trim()) {
    stays(text);
    services.show();
  }
  if (!sans.length) return;
  const moves = named ? [named.san, ...sans.slice(1)] : sans, view = app.view, from = node();
  await insert(doc().path, moves);
  if (app.say) {
    stays(text);
    if (view && from && moves.length > 1) sayWhich(movesTo(view.root, from.path, moves, app.say.line || ''), from.fen);
    services.show();
  }
}
/**
 * Of several typed moves the refused one has its number and the move before it.
 * @param {string[]} moves      up to that one
 * @param {string} fen      before the first
 */
function sayWhich(moves, fen) {
  if (!app.say || !moves.length) return;
  const after = moves.length > 1 ? `, after ${numberedLast(fen, moves.slice(0, -1))}` : '',
        why = app.say.text.slice(moves[moves.length - 1].length);
  app.say.text = `${numberedLast(fen, moves)}${after}${why} None of the moves was entered.`;
}
/** @param {string} path */
export function remove(path) {
  const n = node();
  if (path === 'root' || !n) {
    say('board', 'The start cannot be deleted; choose a move.');
    return services.show();
  }
  return change(now => {
    const s = now.studies[now.at], found = app.view ? nodeAt(app.view.root, path) : null;
    return s && found ? removeNode(now.lines, s, found) : null;
  });
}
/**
 * @param {TreeNode} n
 * @param {boolean} [front]
 */
export const promote = (n, front = false) =>
  change(now => (now.studies[now.at] ? promoteNode(now.lines, now.studies[now.at], n, front) : null));

/**
 * @param {Study} s
 * @param {TreeNode} n
 */
export function hereView(s, n) {
  const view = app.view, mover = sideOf(n.fen), over = view ? view.over : '', meaning = markMeaning(n, s.aim);
  const caption = h('p', {class: 'caption'},
    h('b', {id: 'value'},
      n.parent ? `After ${moveName(n)}: ${valueText(mover, n.value)}` : atStart(valueText(mover, n.value))),
    meaning && h('span', {class: 'mark ' + n.mark}, meaning),
    n.zugzwang && h('span', {class: 'tag', title: zugzwangText(n.zugzwang)}, 'mutual zugzwang'), h('br', {}),
    h('small', {},
      over ? `${mover} is ${over === 'mate' ? 'mated' : 'stalemated'}`
           : `${mover} to move, ${counted(view ? view.moves.length : 0, 'legal move')}`,
      ' · ', control(n.fen)));
  return [caption, saidView(s, n), movesView(s, n), !n.parent && h('p', {class: 'act'}, earlierButton())];
}
/**
 * The author's words at a node, on a phone, where the field that has them is far below the board.
 * @param {Study} s
 * @param {TreeNode} n
 */
function saidView(s, n) {
  const words = app.view && wordsIn(doc().lines, s, app.view.root).get(n.path),
        text = words && shownText(words.comments);
  return text && h('p', {class: 'said near'}, text);
}
/**
 * All legal moves, by outcome, the best first; those of the tree are bold.
 * @param {Study} s
 * @param {TreeNode} n
 */
function movesView(s, n) {
  const mover = sideOf(n.fen), view = app.view;
  const names =
    /** @type {[string, string][]} */ ([['loss', `${mover} wins`], ['draw', 'Draw'], ['win', `${other(mover)} wins`]]);
  const key = (/** @type {Move} */ m) => (m.value.kind === 'loss' ? m.value.n
      : m.value.kind === 'draw'                                   ? 0
                                                                  : -m.value.n);
  return h('div', {class: 'moves', role: 'group', 'aria-label': 'Legal moves'}, ...names.map(([kind, name]) => {
    const list = (view ? view.moves : []).filter(m => m.value.kind === kind).sort((x, y) => key(x) - key(y));
    return list.length > 0 && h('p', {class: 'chips'}, h('span', {}, name), list.map(m => chip(s, n, m)));
  }));
}
/**
 * @param {Study} s
 * @param {TreeNode} n
 * @param {Move} m
 */
function chip(s, n, m) {
  const sign = markSign(m), after = other(sideOf(n.fen)), there = n.children.find(c => c.san === m.san);
  const meaning = {
    only: 'the only one that works',
    dual: `one of ${m.duals + 1} that work`,
    mistake: s.aim && sideOf(n.fen) === s.aim.hero ? letsGo() : 'gives it back'
  }[m.mark];
  const title = [`${m.san}: ${valueText(after, m.value)}`, meaning, there && 'in the tree'].filter(Boolean).join('; ');
  return h('button', {
    class: `chip m ${m.mark}${there ? ' in' : ''}`,
    'data-san': m.san,
    title,
    'aria-label': title,
    onclick: () => insert(n.path, [m.san])
  },
    m.san, h('b', {}, sign), s.aim && h('sub', {}, valueSign(s.aim.hero, after, m.value)));
}
