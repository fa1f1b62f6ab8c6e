// @ts-check
// Where moves come to stand in the tree, and whether it has room for them.
import {squareName} from './fen.js';
import {allNodes, nodeAt} from './parse_answers.js';
import {grouped} from './words.js';
/** @typedef {import('./types.js').TreeNode} TreeNode */

/** The most plies of a line, and the most moves of a tree: 4,096 nodes with the start. */
const MOST_PLIES = 256, MOST_MOVES = 4095;
/**
 * A place in the tree: the child number `at` of its parent, of a node that is there or of a move that is new. `old` has
 * the nodes below it that are there, `below` the places below it that moves led to, by their texts.
 * @typedef {{parent: Place | null, at: number, san: string, depth: number, old: TreeNode[], added: number,
 *   below: Map<string, Place>}} Place
 */
/**
 * `fresh` are the places of new moves.
 * @typedef {{start: Place, fresh: Place[], deepest: number, end: Place}} Walk
 */

/** @param {string} san */
const plain = san => san.replace(/[+#!?=x]/g, '');
/**
 * Whether a text means a move of the tree: its own text, or both of its squares, as `c6c7` and `Kb6b7`.
 * @param {TreeNode} node
 * @param {string} text      plain
 */
const isMove = (node, text) => plain(node.san) === text ||
  (node.from >= 0 && squareName(node.from) + squareName(node.to) + node.promoted === text.replace(/^[KQRBN]/, ''));
/**
 * @param {Place | null} parent
 * @param {number} at
 * @param {string} san
 * @param {TreeNode[]} old
 * @param {number} depth
 * @returns {Place}
 */
const newPlace = (parent, at, san, old, depth) => ({parent, at, san, depth, old, added: 0, below: new Map()});
/**
 * The place that a move leads to.
 * @param {Walk} walk
 * @param {Place} from
 * @param {string} san
 */
function step(walk, from, san) {
  const text = plain(san), known = from.below.get(text);
  if (known) return known;
  const there = from.old.findIndex(node => isMove(node, text)), depth = from.depth + 1;
  const to = there >= 0 ? newPlace(from, there, san, from.old[there].children, depth)
                        : newPlace(from, from.old.length + from.added++, san, [], depth);
  if (there < 0) walk.fresh.push(to);
  walk.deepest = Math.max(walk.deepest, depth);
  from.below.set(text, to);
  return to;
}
/**
 * The places of several lines of moves, each from the same node on. What stands in brackets begins where the move
 * before it does.
 * @param {TreeNode} root
 * @param {string} path
 * @param {string[][]} lists
 */
function walkOf(root, path, lists) {
  const node = nodeAt(root, path), depth = path === 'root' ? 0 : path.split('.').length,
        start = newPlace(null, 0, '', node ? node.children : [], depth);
  const walk = /** @type {Walk} */ ({start, fresh: [], deepest: 0, end: start});
  for (const sans of lists) {
    const outer = /** @type {[Place, Place][]} */ ([]);
    let at = start, before = start;
    for (const san of sans) {
      if (san === '(') {
        outer.push([at, before]);
        at = before;
      } else if (san === ')') [at, before] = outer.pop() || [at, before];
      else [before, at] = [at, step(walk, at, san)];
    }
    walk.end = at;
  }
  return walk;
}
/**
 * @param {Place} place
 * @param {string} path      of the place that the walk began at
 */
function pathOf(place, path) {
  const parts = /** @type {(string | number)[]} */ ([]);
  let at = place;
  for (; at.parent; at = at.parent) parts.push(at.at);
  if (path !== 'root') parts.push(path);
  return parts.reverse().join('.') || 'root';
}
/**
 * @param {Place} place      of a new move
 * @param {string} path      of the place that the walk began at
 */
const insertLine = ({parent, san}, path) => `insert ${pathOf(/** @type {Place} */ (parent), path)} ${san}`;
/**
 * The lines that insert several lines of moves below a node, and the path to the end of the last one; what is there
 * already is walked.
 * @param {TreeNode} root
 * @param {string} path
 * @param {string[][]} lists
 */
export function insertions(root, path, lists) {
  const {fresh, end} = walkOf(root, path, lists);
  return {more: fresh.map(place => insertLine(place, path)), path: pathOf(end, path)};
}
/**
 * The moves from a node to the one of a line that `insertions` makes of these; none if it makes no such line.
 * @param {TreeNode} root
 * @param {string} path
 * @param {string[]} sans
 * @param {string} line
 */
export function movesTo(root, path, sans, line) {
  const moves = /** @type {string[]} */ ([]), found = walkOf(root, path, [sans]).fresh;
  let at = found.find(place => insertLine(place, path) === line) || null;
  for (; at && at.parent; at = at.parent) moves.unshift(at.san);
  return moves;
}
/**
 * Why a tree has no room for moves below a node, before any line is made of them; nothing if it has.
 * @param {TreeNode} root
 * @param {string} path
 * @param {string[]} sans
 */
export function overTree(root, path, sans) {
  const {fresh, deepest} = walkOf(root, path, [sans]), moves = allNodes(root).length - 1 + fresh.length;
  if (deepest > MOST_PLIES)
    return `A line has at most ${MOST_PLIES} plies from the start, and this one would have ${grouped(deepest)}: ` +
      'enter fewer moves. Nothing was changed.';
  if (moves > MOST_MOVES)
    return `A study has at most ${grouped(MOST_MOVES)} moves, and with these it would have ${grouped(moves)}: ` +
      'enter fewer moves. Nothing was changed.';
  return '';
}
