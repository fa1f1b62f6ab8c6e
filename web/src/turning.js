// @ts-check
// The whole diagram one file or rank over, mirrored, or with colours exchanged, and a tree of moves along with it.
// Which moves are legal then is for the program to say.
import {menOf, other, placement, squareAt, squareName} from './fen.js';
import {aimWords, readAim} from './words.js';
/** @typedef {import('./unmarked.js').Bare} Bare @typedef {import('./types.js').TreeNode} TreeNode */
/** @typedef {'left' | 'right' | 'up' | 'down' | 'mirror' | 'colours'} Turn */

/** What each does to the file and the rank of a square, counted from 0. */
const PLACES = /** @type {Record<Turn, (file: number, rank: number) => [number, number]>} */ ({
  left: (f, r) => [f - 1, r],
  right: (f, r) => [f + 1, r],
  up: (f, r) => [f, r + 1],
  down: (f, r) => [f, r - 1],
  mirror: (f, r) => [7 - f, r],
  colours: (f, r) => [f, 7 - r]
});
/**
 * @param {string} word
 * @returns {word is Turn}
 */
export const isTurn = word => word in PLACES;
/**
 * The square that one becomes, or null where it leaves the board.
 * @param {Turn} turn
 * @param {number} square
 */
function turnedSquare(turn, square) {
  const [f, r] = PLACES[turn](square % 8, Math.floor(square / 8));
  return f < 0 || f > 7 || r < 0 || r > 7 ? null : 8 * r + f;
}
/** @param {string} letter */
const otherColour = letter => (letter === letter.toUpperCase() ? letter.toLowerCase() : letter.toUpperCase());
/**
 * The men after a turn; null where one leaves the board.
 * @param {Turn} turn
 * @param {import('./fen.js').Men} men
 * @returns {import('./fen.js').Men | null}
 */
export function turnedMen(turn, men) {
  const out = /** @type {import('./fen.js').Men} */ ({});
  for (const [at, letter] of Object.entries(men)) {
    const to = turnedSquare(turn, Number(at));
    if (to === null) return null;
    out[to] = turn === 'colours' ? otherColour(letter) : letter;
  }
  return out;
}
/**
 * A FEN after a turn; null where a man leaves the board.
 * @param {Turn} turn
 * @param {string} fen
 */
export function turnedFen(turn, fen) {
  const [placed, mover, castling, passed, ...rest] = fen.split(' '), men = turnedMen(turn, menOf(placed));
  if (!men) return null;
  const to = /^[a-h][1-8]$/.test(passed) ? turnedSquare(turn, squareAt(passed)) : null;
  return [
    placement(men), turn === 'colours' ? (mover === 'w' ? 'b' : 'w') : mover, castling,
    to === null ? '-' : squareName(to), ...rest
  ].join(' ');
}
/**
 * The words of a stipulation after a turn.
 * @param {Turn} turn
 * @param {string} words
 */
export function turnedAim(turn, words) {
  const aim = readAim(words);
  return turn === 'colours' ? aimWords({...aim, hero: other(aim.hero)}) : words;
}
/**
 * The text of a move after a turn: its files and ranks are others.
 * @param {Turn} turn
 * @param {string} san
 */
export const turnedSan = (turn, san) =>
  san.replace(/[a-h]/g, c => 'abcdefgh'[PLACES[turn]('abcdefgh'.indexOf(c), 0)[0]] || c)
    .replace(/[1-8]/g, c => `${PLACES[turn](0, Number(c) - 1)[1] + 1}`);

/**
 * A tree by its moves alone.
 * @param {TreeNode} node
 * @returns {Bare}
 */
export const bareOf = node => ({path: node.path, san: node.san, children: node.children.map(bareOf)});
/**
 * The same moves after some turns.
 * @param {Bare} tree
 * @param {Turn[]} turns
 * @returns {Bare}
 */
export const turnedTree = (tree, turns) => ({
  ...tree,
  san: turns.reduce((san, turn) => turnedSan(turn, san), tree.san),
  children: tree.children.map(child => turnedTree(child, turns))
});
/**
 * The lines that make a tree, in written order, each with its node.
 * @param {Bare} tree
 * @param {string} at
 * @returns {{line: string, node: Bare, parent: Bare}[]}
 */
export const insertions = (tree, at = 'root') =>
  tree.children.flatMap((node, i) => [{line: `insert ${at} ${node.san}`, node, parent: tree},
                          ...insertions(node, at === 'root' ? `${i}` : `${at}.${i}`)]);
/** @param {Bare} tree @returns {number} */
const sizeOf = tree => 1 + tree.children.reduce((sum, child) => sum + sizeOf(child), 0);
/**
 * The largest part of a tree whose moves are all accepted, and the moves that fell away with what stood below them.
 * @param {Bare} tree
 * @param {(lines: string[]) => Promise<number>} firstRefused      the place of the first line that is refused, or -1
 * @param {number} [most]      where more moves fall away than these, nothing is kept
 * @returns {Promise<{lines: string[], fallen: {san: string, below: number}[]}>}
 */
export async function legalPart(tree, firstRefused, most = Infinity) {
  const fallen = /** @type {{san: string, below: number}[]} */ ([]);
  for (;;) {
    const list = insertions(tree), lines = list.map(({line}) => line), at = await firstRefused(lines);
    if (at < 0) return {lines, fallen};
    const {node, parent} = list[at];
    fallen.push({san: node.san, below: sizeOf(node) - 1});
    parent.children.splice(parent.children.indexOf(node), 1);
    if (fallen.length > most) return {lines: [], fallen};
  }
}
