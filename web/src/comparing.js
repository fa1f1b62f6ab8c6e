// @ts-check
// Two versions of a study side by side: the moves that differ in mark, and those that only one of them has.
import {allNodes} from './parse_answers.js';
import {counted, markMeaning, moveName, numberedLine} from './words.js';
/** @typedef {import('./types.js').TreeNode} TreeNode */
/**
 * A move by its name and the line that leads to it; those moves of this line beside which others are given; and what is
 * said of it in each version.
 * @typedef {{name: string, line: string, after: string[], said: [string, string]}} Row
 */

/**
 * @param {TreeNode} n
 * @param {import('./types.js').Aim | null} aim
 */
const saidOf = (n, aim) => markMeaning(n, aim) || '–';
/**
 * What is said of a move that only one version has.
 * @param {TreeNode} n
 * @param {import('./types.js').Aim | null} aim
 */
function only(n, aim) {
  const below = allNodes(n).length - 1;
  return [markMeaning(n, aim) || 'given', below && `with ${counted(below, 'move')} below it`].filter(Boolean).join(
    ', ');
}
/** @param {TreeNode} n */
function lineTo(n) {
  const sans = [];
  let at = n;
  for (; at.parent; at = at.parent) sans.unshift(at.san);
  return numberedLine(at.fen, sans);
}
/**
 * The moves that differ, in written order of the first version, then of the second.
 * @param {TreeNode} one
 * @param {TreeNode} two
 * @param {(import('./types.js').Aim | null)[]} aims
 * @param {string[]} [after]
 * @returns {Row[]}
 */
export function differences(one, two, aims, after = []) {
  const [aim, otherAim] = aims, rows = /** @type {Row[]} */ ([]);
  const row = (/** @type {TreeNode} */ n, /** @type {string} */ first, /** @type {string} */ second) =>
    rows.push({name: moveName(n), line: lineTo(n), after, said: [first, second]});
  const several = new Set([...one.children, ...two.children].map(({san}) => san)).size > 1;
  for (const n of one.children) {
    const same = two.children.find(({san}) => san === n.san);
    if (!same) {
      row(n, only(n, aim), 'not given');
      continue;
    }
    const said = [saidOf(n, aim), saidOf(same, otherAim)];
    if (said[0] !== said[1]) row(n, said[0], said[1]);
    rows.push(...differences(n, same, aims, several ? [...after, moveName(n)] : after));
  }
  for (const n of two.children)
    if (!one.children.some(({san}) => san === n.san)) row(n, 'not given', only(n, otherAim));
  return rows;
}
