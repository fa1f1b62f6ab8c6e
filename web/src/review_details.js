// @ts-check
// What a review does not say itself, from the program's views of the study: how many legal replies a try has, and which
// defences that the tree lacks lead where a move of the tree leads.
import {allNodes, readView} from './parse_answers.js';
import {PAGES, app, services} from './state.js';
/** @typedef {import('./types.js').Review} Review @typedef {import('./types.js').TreeNode} TreeNode */
/** @typedef {import('./types.js').View} View */

/** How many views are requested at most: each is of the whole tree. */
const MOST = 300;
/**
 * The men, the side to move and the square that a capture in passing reaches.
 * @param {string} fen
 */
const positionIn = fen => fen.split(' ').filter((_, i) => i < 2 || i === 3).join(' ');
/**
 * By its position, the path of the first move of the tree that leads to it.
 * @param {TreeNode} root
 */
export function firstTo(root) {
  const first = /** @type {Map<string, string>} */ (new Map());
  for (const n of allNodes(root))
    if (n.parent && !first.has(positionIn(n.fen))) first.set(positionIn(n.fen), n.path);
  return first;
}
/**
 * The moves of a view that lead where a move of the tree leads, each with that move's path.
 * @param {View} view
 * @returns {[string, string][]}
 */
export function movesElsewhere(view) {
  const first = firstTo(view.root);
  return view.moves.flatMap(({san, fen}) => {
    const path = first.get(positionIn(fen));
    return path ? [[san, path]] : [];
  });
}
/**
 * The nodes to look at: those of tries that several moves refute, then those with a defence that is not given.
 * @param {Review} review
 */
function pathsOf(review) {
  const tries = review.refuted.map(r => r.path);
  return [...new Set([...tries.filter((path, i) => tries[i - 1] === path), ...review.missing.map(d => d.path)])];
}
/**
 * Adds it to a review, and says whether there was any; if the user goes on, it is left to the next time.
 * @param {string} text
 * @param {string} fen
 * @param {Review} review
 * @param {number} stamp
 */
export async function addDetails(text, fen, review, stamp) {
  if (review.details) return false;
  const details = /** @type {import('./types.js').ReviewDetails} */ ({replies: {}, elsewhere: {}});
  const worker = await services.tables.factsFor([fen]), paths = pathsOf(review).slice(0, MOST);
  for (const path of paths) {
    if (stamp !== app.stamp) return false;
    const view = readView((await worker.answer('view ' + path, text, PAGES)).text);
    if (!view) continue;
    details.replies[path] = view.moves.length;
    details.elsewhere[path] = Object.fromEntries(movesElsewhere(view));
  }
  review.details = details;
  return paths.length > 0 && stamp === app.stamp;
}
