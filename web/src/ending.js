// @ts-check
// The position after some moves of a study as its start: the moves below stay, with what the author says of them.
import {plain, saidInTail} from './notes.js';
import {nodeAt} from './parse_answers.js';
import {bareOf, turnedTree} from './turning.js';
/** @typedef {import('./types.js').Study} Study @typedef {import('./types.js').TreeNode} TreeNode */
/** @typedef {Pick<import('./setup.js').Draft, 'base' | 'turns'>} From */

/**
 * The node whose position a set-up began with.
 * @param {TreeNode} root
 * @param {From} from
 */
export const baseOf = (root, {base}) => nodeAt(root, base) || root;
/**
 * The moves that come along with a set-up, whether they are legal there or not.
 * @param {TreeNode} root
 * @param {From} from
 */
export const treeFor = (root, from) => turnedTree(bareOf(baseOf(root, from)), from.turns);
/**
 * The moves that lead to a node.
 * @param {TreeNode} n
 * @returns {string[]}
 */
export const wayTo = n => (n.parent ? [...wayTo(n.parent), plain(n.san)] : []);
/** A comment above the study. */
const ABOVE = /^#! note\+? -: (?!\$\d+$)/;
/**
 * A study that begins behind some of its moves: what is said of the moves below stands there, what is said of others is
 * gone, and the words above the study stay.
 * @param {string[]} lines
 * @param {Study} study
 * @param {string[]} way
 * @returns {{lines: string[], study: Study}}
 */
export function notesBehind(lines, study, way) {
  if (!way.length) return {lines, study};
  const head = lines.slice(study.head, study.from),
        kept = head.flatMap(line => (ABOVE.test(line) ? [line] : saidInTail([line], way))),
        gone = head.length - kept.length;
  return {
    lines: [...lines.slice(0, study.head), ...kept, ...lines.slice(study.from)],
    study: {...study, from: study.from - gone, end: study.end - gone}
  };
}
