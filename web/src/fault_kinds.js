// @ts-check
// The faults of a study in a judge's terms: which kinds it has, and the first one in words.
import {sideOf} from './fen.js';
import {nodeAt} from './parse_answers.js';
import {wordOf} from './wording.js';
/** @typedef {import('./types.js').Fault} Fault @typedef {import('./types.js').Review} Review */
/** @typedef {import('./accepted.js').Node} Node */

/** Each kind with its words behind a number. */
export const FAULT_KINDS = /** @type {[string, string][]} */ ([
  ['fails', 'whose own move fails'], ['cook', 'with another first move'], ['main', 'with a dual in the main line'],
  ['side', 'with a dual in a variation'], ['last', 'with a dual in a last move'],
  ['waste', 'where a dual only wastes time']
]);
/** @param {string} path */
export const isMain = path => /^0(\.0)*$/.test(path);
/**
 * Whether the hero makes no more moves after the one that leads to a node.
 * @param {Node} root
 * @param {string} path
 */
function isLast(root, path) {
  const node = nodeAt(/** @type {any} */ (root), path);
  return node !== null && node.children.every(({children}) => !children.length);
}
/**
 * The kind of a fault: the author's move fails, a dual only wastes time, or other moves work at the first move, at a
 * last one, in the main line or in a variation.
 * @param {Fault} fault
 * @param {Node} [root]      the tree, to know last moves
 */
export function faultKind({path, kind, duals, time}, root) {
  if (kind === 'mistake') return 'fails';
  if (duals > 0 && time === duals) return 'waste';
  if (path.split('.').length < 3) return 'cook';
  if (root && isLast(root, path)) return 'last';
  return isMain(path) ? 'main' : 'side';
}
/**
 * The kinds of all faults of a study, by the paths of these.
 * @param {Review} review
 * @param {() => Node} root
 */
export function kindsIn(review, root) {
  const known = kinds.get(review), tree = known || !review.faults.length ? undefined : root(),
        map = known || new Map(review.faults.map(fault => [fault.path, faultKind(fault, tree)]));
  if (!known) kinds.set(review, map);
  return map;
}
const kinds = /** @type {WeakMap<Review, Map<string, string>>} */ (new WeakMap());
/**
 * A move by its number, from the place of its node.
 * @param {string} fen
 * @param {string} path
 * @param {string} san
 */
export function numbered(fen, path, san) {
  const white = sideOf(fen) === 'White', ply = path.split('.').length - 1 + (white ? 0 : 1),
        number = (Number(fen.split(' ')[5]) || 1) + Math.floor(ply / 2);
  return `${number}${ply % 2 ? '...' : '.'} ${san}`;
}
/**
 * The move with which the last variation on the way to a node begins, as `after 1... Kb6`.
 * @param {string} fen
 * @param {string} path
 * @param {Node} root
 */
export function variation(fen, path, root) {
  const places = path.split('.'), last = places.map(place => place !== '0').lastIndexOf(true),
        at = places.slice(0, last + 1).join('.'), node = last < 0 ? null : nodeAt(/** @type {any} */ (root), at);
  return node && at !== path ? `after ${numbered(fen, at, node.san)}` : '';
}
/**
 * `3. Ke7: also Ke6 (after 1... Kb6)`
 * @param {Fault} fault
 * @param {Review} review
 * @param {string} fen
 * @param {Node} root
 */
export function faultText(fault, review, fen, root) {
  const name = numbered(fen, fault.path, fault.san), after = variation(fen, fault.path, root),
        also = review.also.filter(({path}) => path === fault.path).map(({san}) => san);
  const list = also.slice(0, 3).join(', ') + (also.length > 3 ? ' ..' : ''),
        waste = faultKind(fault) === 'waste' ? wordOf('loses-time') : '';
  const what = fault.kind === 'mistake' ? wordOf('lets-go').replace(/[ :]*$/, '') : list && `: also ${list}${waste}`;
  return name + what + (after && ` (${after})`);
}
/**
 * The worst fault first: a move that fails, then by kind, the main line first.
 * @param {Fault[]} faults
 * @param {Map<string, string>} kinds      by path
 */
export function byWeight(faults, kinds) {
  const weight = (/** @type {Fault} */ {path}) => FAULT_KINDS.findIndex(([kind]) => kind === kinds.get(path));
  return [...faults].sort((x, y) => weight(x) - weight(y));
}
