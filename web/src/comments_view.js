// @ts-check
// The author's words: shown beside the moves, and written at the node that is looked at.
import {h} from './dom.js';
import {change} from './actions.js';
import {NONE, SIGNS, glyphOf, shownText, withGlyph, withWords, wordsIn} from './comments.js';
import {messageAt} from './head_view.js';
import {refuseLong} from './limits.js';
import {typedOr} from './node_view.js';
import {nodeAt} from './parse_answers.js';
import {app, doc, say as tell, services} from './state.js';
import {moveName} from './words.js';
/** @typedef {import('./types.js').Study} Study @typedef {import('./types.js').TreeNode} TreeNode */

/**
 * What the author says at a node.
 * @param {Study} s
 * @param {TreeNode} n
 */
export const wordsAt = (s, n) => (app.view && wordsIn(doc().lines, s, app.view.root).get(n.path)) || NONE;
/**
 * @param {string} path
 * @param {(words: import('./comments.js').Words) => {comment?: string, glyphs?: string[]}} make
 */
const say = (path, make) => change(now => {
  const s = now.studies[now.at], root = app.view ? app.view.root : null, n = root && nodeAt(root, path);
  if (!s || !root || !n) return null;
  const words = wordsAt(s, n);
  return withWords(now.lines, s, root, n, {comment: words.comments.join(' '), glyphs: words.glyphs, ...make(words)});
}, 'note');
/**
 * A choice of signs, of the move or of the position.
 * @param {Study} s
 * @param {TreeNode} n
 * @param {number} kind
 */
function signView(s, n, kind) {
  const words = wordsAt(s, n), now = glyphOf(words, kind), list = SIGNS[kind];
  const option = (/** @type {string} */ value, /** @type {string} */ text) =>
    h('option', {value, selected: value === now}, text);
  const choose = (/** @type {any} */ e) => say(n.path, words => ({glyphs: withGlyph(words, kind, e.target.value)}));
  return h('select', {
    id: kind ? 'signOfPosition' : 'signOfMove',
    onchange: choose,
    'aria-label': kind ? 'Your sign of the position' : 'Your sign of the move'
  },
    option('', kind ? 'position' : 'move'), now && !list.some(([glyph]) => glyph === now) && option(now, now),
    list.map(([glyph, sign, name]) => option(glyph, `${sign}  ${name}`)));
}
/**
 * The field for the author's words, and the choices of his signs.
 * @param {Study} s
 * @param {TreeNode} n
 */
export function commentView(s, n) {
  const text = wordsAt(s, n).comments.join(' '),
        name = n.parent ? `Your words on ${moveName(n)}` : 'Your words above the study';
  const write = async (/** @type {any} */ e) => {
    const typed = e.target.value;
    if (refuseLong({id: 'note', value: text}, typed) || !await say(n.path, () => ({comment: typed}))) return;
    if (!/[{}]/.test(typed) || app.say) return;
    tell('note', 'A brace would end a comment of a PGN: it is written as ( or ).', true);
    services.show();
  };
  const field = h('textarea', {id: 'note', rows: 1, 'aria-label': name, placeholder: name, onchange: write});
  field.value = typedOr('note', text);
  return [messageAt('note'), h('div', {class: 'row own'}, field, n.parent && [signView(s, n, 0), signView(s, n, 1)])];
}
/**
 * A comment beside the moves.
 * @param {string[]} comments
 */
export const commentText = comments => {
  const text = shownText(comments);
  return text && h('span', {class: 'said'}, text);
};
