// @ts-check
// The author's own words: comments and signs at the moves of a study and above it. They are remarks of the script,
// outside of all that is proved, and stand in the saved PGN.
import {noteLines, plain} from './notes.js';
import {allNodes} from './parse_answers.js';
import {byHand} from './imported.js';
import {ownRemark} from './remarks.js';
import {notesAt, statesAim} from './saved_games.js';
/** @typedef {import('./types.js').Study} Study @typedef {import('./types.js').TreeNode} TreeNode */
/** @typedef {{comments: string[], glyphs: string[]}} Words */

/** Signs of a move, and of a position, by their glyphs in a PGN. */
const OF_MOVE = /** @type {[string, string, string][]} */ ([
  ['$1', '!', 'good move'], ['$2', '?', 'mistake'], ['$3', '!!', 'brilliant move'], ['$4', '??', 'blunder'],
  ['$5', '!?', 'interesting move'], ['$6', '?!', 'dubious move'], ['$7', '□', 'only move']
]);
const OF_POSITION = /** @type {[string, string, string][]} */ ([
  ['$10', '=', 'drawn'], ['$13', '∞', 'unclear'], ['$14', '⩲', 'White is slightly better'],
  ['$15', '⩱', 'Black is slightly better'], ['$16', '±', 'White is better'], ['$17', '∓', 'Black is better'],
  ['$18', '+−', 'White wins'], ['$19', '−+', 'Black wins'], ['$22', '⊙', 'zugzwang']
]);
export const SIGNS = [OF_MOVE, OF_POSITION];
const ALL = new Map([...OF_MOVE, ...OF_POSITION].map(([glyph, sign, name]) => [glyph, {sign, name}]));
/** Whether a glyph judges the move, and not the position after it. */
const isOfMove = (/** @type {string} */ glyph) => Number(glyph.slice(1)) < 10;
/**
 * The sign of a glyph, or the glyph where it has none.
 * @param {string} glyph
 */
export const signOf = glyph => (ALL.get(glyph) || {sign: glyph}).sign;
/**
 * The first glyph of the move, or of the position.
 * @param {Words} words
 * @param {number} kind      0 of the move, 1 of the position
 */
export const glyphOf = ({glyphs}, kind) => glyphs.find(glyph => isOfMove(glyph) === (kind === 0)) || '';
/**
 * What is shown of comments: arrows, circles and clocks of other programs are kept, and not read aloud.
 * @param {string[]} comments
 */
export const shownText = comments =>
  comments.map(text => text.replace(/\[%[^\]]*\]/g, '').replace(/\s+/g, ' ').trim()).filter(Boolean).join(' ');
/**
 * The author's signs that the program's mark does not show already.
 * @param {Words} words
 * @param {string} mark      the program's sign
 */
export const shownSigns = ({glyphs}, mark) => [...new Set(glyphs.map(signOf))].filter(sign => sign !== mark);

/** @type {Words} */
export const NONE = {
  comments: [],
  glyphs: []
};
/**
 * A node by the moves that lead to it, as remarks name it.
 * @param {TreeNode} n
 * @returns {string}
 */
const keyOf = n => (n.parent ? `${keyOf(n.parent)} ${plain(n.san)}`.trim() : '');
/**
 * @param {TreeNode} root
 * @returns {{key: string, path: string, mark: string}[]}
 */
const placesIn = root => allNodes(root).map(n => ({key: keyOf(n), path: n.path, mark: n.mark}));
/** @type {WeakMap<TreeNode, {lines: string[], words: Map<string, Words>}>} */
const found = new WeakMap();
/**
 * What the author says at the nodes of a study, by their paths.
 * @param {string[]} lines
 * @param {Study} study
 * @param {TreeNode} root
 */
export function wordsIn(lines, study, root) {
  const known = found.get(root);
  if (known && known.lines === lines) return known.words;
  const remarks = lines.slice(study.head, study.from).filter(line => isNote(line) || isMark(line)), words = new Map();
  if (remarks.length) {
    const places = placesIn(root), notes = notesAt(remarks, places);
    for (const {key, path, mark} of places) {
      const {comments, glyphs, marks} = notes.get(key) || {...NONE, marks: []},
                               own = [...glyphs, ...marks.filter(glyph => glyph !== OURS[mark])];
      if (comments.length || own.length) words.set(path, {comments, glyphs: own});
    }
  }
  found.set(root, {lines, words});
  return words;
}
/** @param {string} line */
const isNote = line => /^note\+?$/.test(ownRemark(line).word);
/** @param {string} line */
const isMark = line => ownRemark(line).word === 'mark';
/**
 * The program's glyphs in a game by its marks. A game of our own has one sign at a move: where the program gives it
 * none, or another one, it is the author's.
 */
const OURS = /** @type {Record<string, string>} */ ({only: '$1', mistake: '$4'});
/**
 * The lines of a script with other words at a node, in place of those that stand there.
 * @param {string[]} lines
 * @param {Study} study
 * @param {TreeNode} root
 * @param {TreeNode} n
 * @param {{comment: string, glyphs: string[]}} words
 * @returns {import('./types.js').Change}
 */
export function withWords(lines, study, root, n, {comment, glyphs}) {
  const places = placesIn(root), key = keyOf(n),
        own = [...glyphs, comment].flatMap(text => noteLines(key || '-', text)),
        before = lines.slice(study.head, study.from).filter(isNote).filter(line => notesAt([line], places).has(key));
  // A comment that states the stipulation does so no more, once words that do not stand in its place.
  const said = notesAt(before, places).get(key),
        isGone = !n.parent && said && statesAim(said) && !statesAim({comments: [comment]}),
        head = lines.slice(study.head, study.from).map(line => (isGone ? byHand(line, 'comment') : line));
  const isWord = (/** @type {string} */ line) =>
    isNote(line) || (isMark(line) && !ownRemark(line).rest.endsWith(`: ${OURS[n.mark]}`));
  const isHere = head.map(line => isWord(line) && notesAt([line], places).has(key)), first = isHere.indexOf(true),
        at = first < 0 ? head.length : first;
  const kept = (/** @type {number} */ from, /** @type {number} */ to) =>
    head.slice(from, to).filter((_, i) => !isHere[from + i]);
  return {
    lines: [...lines.slice(0, study.head), ...kept(0, at), ...own, ...kept(at, head.length), ...lines.slice(study.from)]
  };
}
/**
 * The glyphs of a node with another one of a kind, or without one.
 * @param {Words} words
 * @param {number} kind
 * @param {string} glyph
 */
export const withGlyph =
  ({glyphs}, kind, glyph) => [...glyphs.filter(other => isOfMove(other) !== (kind === 0)), ...(glyph ? [glyph] : [])]
                               .sort((x, y) => Number(x.slice(1)) - Number(y.slice(1)));
