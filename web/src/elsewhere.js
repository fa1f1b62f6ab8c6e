// @ts-check
// A man on another square: how many only moves in a row the side to move would have to find, and what a study's tree
// would be. Both are for the program to say.
import {menOf, placement} from './fen.js';
import {readView, refusalIn} from './parse_answers.js';
import {toText} from './script.js';
import {PAGES} from './state.js';
import {insertions, legalPart, turnedTree} from './turning.js';
import {counted, reason} from './words.js';
/** @typedef {import('./types.js').Engine} Engine @typedef {import('./unmarked.js').Bare} Bare */
/** @typedef {import('./types.js').View} View */
/**
 * @typedef {{kept: number, of: number, faults: number, stamp: string}} There
 *   how many moves of a tree are legal there, and its verdict
 * @typedef {{to: number, sign: string, text: string, row: number | null, there: There | null}} Spot
 *   a square on which the stipulation holds: `dot` if by one first move, else `plain`; what is not known yet is null
 */

/** The program counts no further. */
export const MOST_IN_ROW = 12;
/** A tree that loses more of its moves is not looked at to its end. */
const MOST_FALLEN = 12;

/**
 * A position with a man on another square, and else as it is: so a survey has it.
 * @param {string} fen
 * @param {number} from
 * @param {number} to
 */
export function fenWith(fen, from, to) {
  const [placed, ...rest] = fen.split(' '), {[from]: letter, ...others} = menOf(placed);
  return [placement({...others, [to]: letter}), ...rest].join(' ');
}
/**
 * How many only moves in a row the defender can make the side to move find, with the moves of such a row; null if it
 * has no such result.
 * @param {Engine} core
 * @param {'win' | 'draw'} goal
 * @param {string} fen
 * @returns {Promise<{count: number, moves: string[]} | null>}
 */
export async function rowAt(core, goal, fen) {
  const {text} = await core.answer(`row ${goal} ${fen}`, '', PAGES), [count, ...moves] = text.trim().split(' ');
  return /^\d+$/.test(count) ? {count: Number(count), moves} : null;
}
/**
 * The squares of each number of only moves in a row, the largest first.
 * @param {Spot[]} spots
 * @returns {[number, string[]][]}
 */
export function byRow(spots) {
  const rows = /** @type {Map<number, string[]>} */ (new Map());
  for (const {row, text} of spots)
    if (row) rows.set(row, [...(rows.get(row) || []), text]);
  return [...rows].sort(([m], [n]) => n - m);
}

/**
 * What a tree would be from another position: the part of it that is legal there, its faults and its stamp.
 * @param {Engine} core
 * @param {string} fen
 * @param {string} aim      words of a stipulation
 * @param {Bare} tree
 * @returns {Promise<There>}
 */
export async function treeAt(core, fen, aim, tree) {
  const head = [`position ${fen}`, `stipulate ${aim}`], of = insertions(tree).length;
  let view = /** @type {View | null} */ (null);
  const {lines} = await legalPart(turnedTree(tree, []), async lines => {
    const answer = await core.answer('view root', toText([...head, ...lines]), PAGES);
    const [, line = ''] = /^refused (\d+) /m.exec(answer.text) || [];
    view = readView(answer.text);
    if (!view || (line && Number(line) <= head.length)) throw new Error(reason(refusalIn(answer)));
    return line ? Number(line) - 1 - head.length : -1;
  }, MOST_FALLEN);
  return {kept: lines.length, of, faults: view && view.aim ? view.root.faults : 0, stamp: view ? view.stamp : ''};
}
/**
 * The squares whose tree keeps a move, those first that lose the fewest and then have the fewest faults.
 * @param {Spot[]} spots
 */
export const byTree = spots =>
  spots.filter(spot => spot.there && spot.there.kept).sort((x, y) => lost(x) - lost(y) || faultsOf(x) - faultsOf(y));
/** @param {Spot} spot */
const lost = ({there}) => (there ? there.of - there.kept : 0);
/** @param {Spot} spot */
const faultsOf = ({there}) => (there ? there.faults : 0);
/**
 * `h3: sound`, `g2: 2 duals, 3 of 14 moves dropped`
 * @param {string} name
 * @param {Spot} spot
 */
export function thereText(name, spot) {
  if (!spot.there) return name;
  const dropped = lost(spot) ? `, ${lost(spot)} of ${counted(spot.there.of, 'move')} dropped` : '';
  return `${name}: ${spot.there.stamp}${dropped}`;
}
