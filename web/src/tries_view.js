// @ts-check
// Tries and their refutations, on paper as the printed page of the report has them.
import {h} from './dom.js';
import {other, sideOf} from './fen.js';
import {byNode, section} from './facts_parts.js';
import {allNodes, depth} from './parse_answers.js';
import {table} from './table.js';
import {add, nodeLink} from './verdict_view.js';
import {wordOf, wordsNamed} from './wording.js';
import {lateBy, lateText, valueSign, valueText} from './words.js';
/** @typedef {import('./types.js').Study} Study @typedef {import('./types.js').TreeNode} TreeNode */
/** @typedef {import('./types.js').Review} Review */

/**
 * Whether the hero mates too late by a move of the tree: a mistake, or a move of a wrong solution behind which nothing
 * was to be gained before. No move refutes it.
 * @param {import('./types.js').Aim} aim
 * @param {TreeNode} n
 */
function isLateMate(aim, n) {
  if (n.value.kind !== 'loss' || n.value.n > 0 || lateBy(aim, n) <= 0) return false;
  if (n.mark === 'mistake') return true;
  for (let at = n; at.parent && at.parent.parent; at = at.parent) {
    const before = at.parent, row = before.parent ? before.parent.children : [];
    if (before.mark === 'idle' || (before.parent && sideOf(before.parent.fen) === aim.hero && row[0] !== before))
      return false;
  }
  return n.mark === 'idle';
}
/**
 * The tries in written order, each with what refutes it.
 * @param {import('./types.js').Aim} aim
 * @param {Review} review
 * @param {TreeNode} root
 * @returns {[TreeNode, import('./types.js').Refutation[]][]}
 */
function triesOf(aim, review, root) {
  const lists = new Map(byNode(review.refuted, root));
  return allNodes(root).filter(n => lists.has(n) || isLateMate(aim, n)).map(n => [n, lists.get(n) || []]);
}
/**
 * On paper they are as in the report; on the screen those near the start come first, with what the tree has of them.
 * @param {Study} s
 * @param {Review} review
 * @param {TreeNode} root
 * @param {boolean} paper
 */
export function triesView(s, review, root, paper) {
  const aim = s.aim, rows = aim ? triesOf(aim, review, root) : [];
  if (!aim || !rows.length) return null;
  if (paper)
    return section('tries', wordOf('tries'), null,
      table(wordsNamed('tries-heads'), rows, ([n, list]) => [...tryCells(n), refutedView(aim, review, n, list)]));
  rows.sort((x, y) => depth(x[0]) - depth(y[0]));
  return section('tries', s.verdict === 'wrong' ? 'What refutes the moves' : wordOf('tries'), null,
    table([...wordsNamed('tries-heads'), 'In the tree'], rows,
      ([n, list]) => [...tryCells(n), openView(aim, review, n, list), givenText(n, list)]));
}
/** @param {TreeNode} n */
const tryCells = n => [nodeLink(n), valueText(sideOf(n.fen), n.value)];
/**
 * What the tree has behind a try.
 * @param {TreeNode} n
 * @param {import('./types.js').Refutation[]} list
 */
function givenText(n, list) {
  const refuting = list.map(r => r.san);
  return n.children.map(c => c.san + (refuting.includes(c.san) ? '' : ' (does not refute)')).join(' ') || '–';
}
/**
 * Where no move refutes a try: that it stalemates, or mates too late.
 * @param {import('./types.js').Aim} aim
 * @param {TreeNode} n
 * @param {import('./types.js').Refutation[]} list
 */
const overText = (aim, n, list) => (list.length === 0 ? wordOf('mate') + lateText(lateBy(aim, n))
    : list.some(r => r.value === null)                ? wordOf('stalemate')
                                                      : '');
/**
 * That one move alone refutes it, or how many of the legal ones do.
 * @param {Review} review
 * @param {TreeNode} n
 * @param {import('./types.js').Refutation[]} list
 */
function countView(review, n, list) {
  const all = review.details?.replies[n.path];
  return list.length === 1 ? h('b', {}, 'only') : h('small', {}, `(${list.length}${all ? ` of ${all}` : ''})`);
}
/**
 * All moves that refute a try, each with the value after it.
 * @param {import('./types.js').Aim} aim
 * @param {Review} review
 * @param {TreeNode} n
 * @param {import('./types.js').Refutation[]} list
 */
function refutedView(aim, review, n, list) {
  const after = other(sideOf(n.fen));
  return overText(aim, n, list) || [
    list.map(({san, value}) => [h('b', {}, san), value && h('sub', {}, valueSign(aim.hero, after, value)), ' ']),
    countView(review, n, list)
  ];
}
/**
 * Those that the tree lacks, to be put in.
 * @param {import('./types.js').Aim} aim
 * @param {Review} review
 * @param {TreeNode} n
 * @param {import('./types.js').Refutation[]} list
 */
function openView(aim, review, n, list) {
  const given = n.children.map(c => c.san), open = list.map(r => r.san).filter(san => !given.includes(san));
  return overText(aim, n, list) || [
    open.slice(0, 10).map(san => add(n.path, [san], san)), open.length > 10 && ` and ${open.length - 10} more`,
    list.length === 1 && !open.length && list[0].san, ' ', countView(review, n, list)
  ];
}
