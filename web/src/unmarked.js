// @ts-check
// A study before the program has read it: its moves as its lines have them, without marks, values or boards.
import {isCutLine} from './left_out.js';
import {assumeAccepted} from './assumed.js';
import {isEdit, wordsOf} from './script.js';
/** @typedef {{path: string, san: string, children: Bare[]}} Bare      a move of the tree; the root has none */

/**
 * The document that lines make if each of them is accepted, with no game and no verdict.
 * @param {string[]} lines
 * @returns {import('./types.js').Script}
 */
export function unjudged(lines) {
  const script = assumeAccepted(lines);
  for (const study of script.studies) Object.assign(study, {pgn: '', verdict: '', start: '', games: [], ended: false});
  return script;
}
/**
 * The tree that edits make, as far as their paths lead to nodes.
 * @param {string[]} lines
 * @returns {Bare}
 */
export function bareTree(lines) {
  let root = /** @type {Bare} */ ({path: 'root', san: '', children: []});
  for (const line of lines.filter(text => isEdit(text) && !isCutLine(text))) {
    const [command, path = '', san = ''] = wordsOf(line), places = path === 'root' ? [] : path.split('.').map(Number);
    const last = places[places.length - 1];
    if (command === 'position') root = {path: 'root', san: '', children: []};
    if (command === 'insert') insertBelow(at(root, places), san);
    const parent = at(root, places.slice(0, -1));
    if (!parent || !places.length || !parent.children[last]) continue;
    if (command === 'delete') parent.children.splice(last, 1);
    if (command === 'promote' && last > 0) parent.children.splice(last - 1, 0, ...parent.children.splice(last, 1));
  }
  return withPaths(root, 'root');
}
/**
 * @param {Bare | undefined} node
 * @param {string} san
 */
function insertBelow(node, san) {
  if (node && san && !node.children.some(child => child.san === san)) node.children.push({path: '', san, children: []});
}
/**
 * @param {Bare} root
 * @param {number[]} places
 * @returns {Bare | undefined}
 */
const at = (root, places) =>
  places.reduce((/** @type {Bare | undefined} */ node, place) => node && node.children[place], root);
/**
 * @param {Bare} node
 * @param {string} path
 * @returns {Bare}
 */
function withPaths(node, path) {
  const base = path === 'root' ? '' : path + '.';
  return {...node, path, children: node.children.map((child, i) => withPaths(child, base + i))};
}
