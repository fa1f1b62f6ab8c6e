// @ts-check
// Duals that a judge accepts: a tick at each, kept as a remark of the script at the moves that lead to it.
import {plain} from './notes.js';
import {cutAt, ownRemark} from './remarks.js';
import {counted} from './words.js';
/** @typedef {import('./types.js').Study} Study */
/** @typedef {{path: string, san: string, children: Node[]}} Node      of a tree, whether it is judged or not */

/**
 * The moves that lead to the dual which a line accepts; of another line none.
 * @param {string} line
 */
export const tickedIn = line => {
  const {word, rest} = ownRemark(line);
  return word === 'accepted' ? cutAt(rest, ':')[0] : '';
};
/**
 * The moves that lead to a node.
 * @param {Node} root
 * @param {string} path
 */
function movesTo(root, path) {
  const moves = [];
  let node = /** @type {Node | undefined} */ (root);
  for (const place of path.split('.')) {
    node = node && node.children[Number(place)];
    moves.push(node ? plain(node.san) : '');
  }
  return moves.join(' ');
}
/**
 * The paths of the duals that are accepted, among some.
 * @param {string[]} lines
 * @param {{head: number, from: number}} study
 * @param {Node} root
 * @param {string[]} paths
 */
export function acceptedAmong(lines, study, root, paths) {
  const ticked = new Set(lines.slice(study.head, study.from).map(tickedIn).filter(Boolean));
  return ticked.size ? paths.filter(path => ticked.has(movesTo(root, path))) : [];
}
/**
 * Whether the moves to a dual that a line accepts are in a tree.
 * @param {Node} root
 * @param {string} line
 */
export const hasTicked = (root, line) => hasLine(root, tickedIn(line).split(' '));
/**
 * Whether a line of moves is in a tree.
 * @param {Node} node
 * @param {string[]} moves
 * @returns {boolean}
 */
export const hasLine = ({children}, [move, ...behind]) =>
  move === undefined || children.some(child => plain(child.san) === move && hasLine(child, behind));
/**
 * Whether some dual of a study is accepted, whatever became of its moves.
 * @param {string[]} lines
 * @param {{head: number, from: number}} study
 */
export const hasAccepted = (lines, study) => lines.slice(study.head, study.from).some(tickedIn);
/**
 * The lines of a script once a dual is accepted, or is not any more.
 * @param {string[]} lines
 * @param {Study} study
 * @param {Node} root
 * @param {string} path
 * @param {boolean} yes
 * @returns {import('./types.js').Change}
 */
export function accept(lines, study, root, path, yes) {
  const moves = movesTo(root, path),
        head = lines.slice(study.head, study.from).filter(line => tickedIn(line) !== moves);
  const tick = yes ? [`#! accepted ${moves}: dual`] : [];
  return {lines: [...lines.slice(0, study.head), ...head, ...tick, ...lines.slice(study.from)]};
}
/**
 * The stamp of a study with duals that are accepted: of all faults, or of some.
 * @param {string} text      the stamp without them
 * @param {number} accepted
 * @param {number} faults
 * @param {boolean} named      whether the one that the stamp names is accepted
 * @param {number} [idle]      how many that are not accepted only waste time
 * @returns {{kind: string, text: string} | null}
 */
export function acceptedStamp(text, accepted, faults, named, idle = 0) {
  const left = faults - accepted;
  if (!accepted) return null;
  if (named && left > idle) return {kind: 'duals', text: `${text} (accepted); ${counted(left, 'dual')} not accepted`};
  if (left > idle) return {kind: 'duals', text: `${text}, ${accepted} accepted`};
  const [fault, ...behind] = text.split('; '), missing = behind.filter(words => words.startsWith('main defence')),
                others = accepted > 1 ? `, ${counted(accepted - 1, 'dual')} accepted` : '',
                more = left ? [`${left} more ${left === 1 ? 'wastes' : 'waste'} time`] : [];
  const own =
    named ? `${fault} (accepted)${others}` : `sound but for ${accepted} accepted ${accepted === 1 ? 'dual' : 'duals'}`;
  return {kind: 'accepted', text: [own, ...more, ...missing].join('; ')};
}
