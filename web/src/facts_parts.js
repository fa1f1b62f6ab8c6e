// @ts-check
// What each part of the facts is made of: a title that folds it, and facts by their nodes.
import {h} from './dom.js';
import {nodeAt} from './parse_answers.js';

const closed = new Set();
/**
 * @param {string} id
 * @param {string} title
 * @param {any} note      a text, or parts of one
 * @param {any} body
 */
export function section(id, title, note, body) {
  return h('details', {
    class: 'facts',
    id,
    open: !closed.has(id),
    ontoggle: (/** @type {any} */ e) => {
      if (e.target.open) closed.delete(id);
      else closed.add(id);
    }
  },
    h('summary', {}, title), note && h('p', {class: 'note'}, note), body);
}
/**
 * The nodes of some facts, each once, with its facts.
 * @template {{path: string}} F
 * @param {F[]} facts
 * @param {import('./types.js').TreeNode} root
 * @returns {[import('./types.js').TreeNode, F[]][]}
 */
export function byNode(facts, root) {
  const map = /** @type {Map<string, F[]>} */ (new Map());
  for (const fact of facts) map.set(fact.path, [...(map.get(fact.path) || []), fact]);
  return /** @type {[import('./types.js').TreeNode, F[]][]} */ (
    [...map].map(([path, list]) => [nodeAt(root, path), list]).filter(([n]) => n !== null));
}
