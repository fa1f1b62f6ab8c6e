// @ts-check
// The solution, as it is printed: first children in a line, variations below the move that they replace.
import {$, h, patch} from './dom.js';
import {moveNumber, sideOf} from './fen.js';
import {go} from './actions.js';
import {app, doc} from './state.js';
import {shownSigns} from './comments.js';
import {commentText, wordsAt} from './comments_view.js';
import {allNodes} from './parse_answers.js';
import {editsTo} from './script.js';
import {bareTree} from './unmarked.js';
import {counted, letsGo, markMeaning, markSign, moveName, valueSign, valueText, zugzwangText} from './words.js';
/** @typedef {import('./types.js').TreeNode} TreeNode @typedef {import('./types.js').Study} Study */

/**
 * @param {Study} s
 * @param {TreeNode} n
 * @param {boolean} first
 */
function moveView(s, n, first) {
  const before = n.parent ? n.parent.fen : n.fen,
        num = first || sideOf(before) === 'White' ? moveNumber(before).replace(' ', '\u00a0') : '';
  const sign = markSign(n), own = shownSigns(wordsAt(s, n), sign).join(' ');
  const title = [valueText(sideOf(n.fen), n.value), markMeaning(n, s.aim)].filter(Boolean).join('; ');
  return h('span', {class: 'mv'},
    h('button', {class: `m ${n.mark}`, 'data-path': n.path, title, 'aria-label': `${moveName(n)}: ${title}`},
      num + n.san, sign && h('b', {}, sign)),
    own && h('span', {class: 'sign', title: 'the author\'s sign'}, `[${own}]`),
    s.aim && h('sub', {}, valueSign(s.aim.hero, sideOf(n.fen), n.value)),
    n.mark === 'dual' && h('span', {class: 'tag'}, `dual ${n.duals}`),
    n.zugzwang && h('span', {class: 'tag zugzwang', title: `mutual zugzwang: ${zugzwangText(n.zugzwang)}`}, '⊙'));
}
/**
 * A move, by all that its view is made from: the hero, of the position before it the side to move and the number, and
 * the author's words; and a space.
 * @param {Study} s
 * @param {TreeNode} n
 * @param {boolean} first
 * @returns {import('./dom.js').Wanted[]}
 */
function moveItems(s, n, first) {
  const before = n.parent ? n.parent.fen : n.fen, number = before.slice(before.lastIndexOf(' ')),
        side = before[before.indexOf(' ') + 1];
  const {comments, glyphs} = wordsAt(s, n), said = commentText(comments);
  const key = [
    n.path, n.san, n.mark, n.duals, n.value.kind, n.value.n, side + number, first, n.zugzwang, s.aim ? s.aim.hero : '',
    ...glyphs
  ].join(' ');
  const space = (/** @type {string} */ name) => ({key: n.path + name, make: () => document.createTextNode(' ')});
  return [
    {key, make: () => moveView(s, n, first)}, space(''),
    ...(said ? [{key: `said ${n.path} ${comments.join(' ')}`, make: () => said}, space(' said')] : [])
  ];
}
/**
 * @param {Study} s
 * @param {TreeNode} from
 * @param {boolean} numberedFirst
 * @returns {import('./dom.js').Wanted[]}
 */
function lineItems(s, from, numberedFirst) {
  const out = [];
  let first = numberedFirst;
  for (let n = from; n.children.length; n = n.children[0]) {
    const items = moveItems(s, n.children[0], first), branches = n.children.length > 1;
    out.push(...items);
    first = branches || items.length > 2;
    if (branches)
      out.push({key: 'ul ' + n.path, make: () => h('ul', {}), kids: n.children.slice(1).map(c => variationItem(s, c))});
  }
  return out;
}
/**
 * @param {Study} s
 * @param {TreeNode} n
 */
function variationItem(s, n) {
  const items = moveItems(s, n, true);
  return {key: 'li ' + n.path, make: () => h('li', {}), kids: [...items, ...lineItems(s, n, items.length > 2)]};
}
/**
 * The author's words above the study.
 * @param {Study} s
 * @param {TreeNode} root
 * @returns {import('./dom.js').Wanted[]}
 */
function aboveItems(s, root) {
  const {comments} = wordsAt(s, root), said = commentText(comments);
  return said ? [{key: `said ${comments.join(' ')}`, make: () => h('p', {class: 'above'}, said)}] : [];
}
/**
 * The same, and its moves.
 * @param {Study} s
 * @param {TreeNode} root
 * @returns {import('./dom.js').Wanted[]}
 */
function treeItems(s, root) {
  const tree = () => h('div', {class: 'tree', role: 'group', 'aria-labelledby': 'solution'});
  return [...aboveItems(s, root), {key: 'tree', make: tree, kids: lineItems(s, root, true)}];
}
/**
 * The same for paper.
 * @param {Study} s
 * @param {TreeNode} root
 */
export function treeView(s, root) {
  const box = h('div', {});
  patch(box, treeItems(s, root));
  return box;
}
/** @typedef {import('./unmarked.js').Bare} Bare */
/**
 * Moves as the script has them, with no mark and no board: they lead nowhere yet.
 * @param {Bare} from
 * @param {number} ply      of the first one
 * @param {boolean} numberedFirst
 * @returns {any[]}
 */
function bareLine(from, ply, numberedFirst) {
  const out = [];
  let first = numberedFirst, n = from;
  for (; n.children.length; n = n.children[0], ply++) {
    out.push(bareMove(n.children[0], ply, first));
    first = n.children.length > 1;
    if (first)
      out.push(
        h('ul', {}, n.children.slice(1).map(c => h('li', {}, bareMove(c, ply, true), bareLine(c, ply + 1, false)))));
  }
  return out;
}
/**
 * @param {Bare} n
 * @param {number} ply
 * @param {boolean} first
 */
function bareMove(n, ply, first) {
  const number = first || ply % 2 === 0 ? `${Math.floor(ply / 2)}${ply % 2 ? '...' : '.'}\u00a0` : '';
  return [h('span', {class: 'mv m'}, number, n.san), ' '];
}
/**
 * @param {Study} s
 */
export function bareView(s) {
  const root = bareTree(editsTo(doc().lines, s)), fields = s.fen.split(' ');
  return root.children.length > 0 &&
    h('div', {class: 'tree bare'}, bareLine(root, 2 * (Number(fields[5]) || 1) + (fields[1] === 'b' ? 1 : 0), true));
}
/**
 * @param {Study} s
 * @returns {import('./dom.js').Wanted[]}
 */
function bareItems(s) {
  const tree = bareView(s), title = () => h('h2', {id: 'solution'}, 'Solution ', h('small', {}, 'not marked yet'));
  return tree ? [{key: 'bare ' + editsTo(doc().lines, s).join(' '), make: () => h('div', {}, title(), tree)}] : [];
}
/**
 * Of a tree that stands there already only what has changed is drawn.
 * @param {Study | undefined} s
 */
export function showTree(s) {
  const view = app.view, nodes = s && view ? allNodes(view.root).length - 1 : 0;
  if (!s || !view) return patch($('tree'), s ? bareItems(s) : []);
  const title = () => h('h2', {id: 'solution'}, 'Solution ', nodes > 0 && h('small', {}, counted(nodes, 'move')));
  const none = () => h('p', {class: 'note'}, 'Play a move on the board, choose one below it, or type it.');
  patch($('tree'), [
    {key: `solution ${nodes}`, make: title},
    ...(nodes ? [...treeItems(s, view.root), {key: 'key', make: keyView}]
              : [...aboveItems(s, view.root), {key: 'none', make: none}])
  ]);
}
/** A press on a move of the tree leads to it. */
export const listenToTree = () => $('tree').addEventListener('click', (/** @type {any} */ e) => {
  const move = e.target.closest('[data-path]');
  if (move) go(move.getAttribute('data-path'));
});
/**
 * Marks the node that is looked at, in a tree that stands there already.
 * @param {string} path
 */
export function markCurrent(path) {
  const before = document.querySelector('#tree .m.now'), now = document.querySelector(`#tree [data-path="${path}"]`);
  if (before === now) return;
  if (before) {
    before.classList.remove('now');
    before.removeAttribute('aria-current');
  }
  if (now) {
    now.classList.add('now');
    now.setAttribute('aria-current', 'true');
  }
}
const example = (/** @type {string} */ mark, /** @type {string} */ sign) =>
  h('span', {class: 'm ' + mark}, 'move', sign && h('b', {}, sign));
export const keyView = () => h('p', {class: 'note key'}, example('only', '!'), ' the only one that works · ',
  example('dual', ''), ' ', h('span', {class: 'tag'}, 'dual 2'), ' two others work too · ', example('mistake', '?'),
  ` ${letsGo()} · `, example('', ''), h('sub', {}, '7'), ' mate in 7 · ', h('sub', {}, '−7'), ' is mated in 7 · ',
  h('sub', {}, '='), ' drawn · ', h('span', {class: 'tag zugzwang'}, '⊙'), ' mutual zugzwang');
