// @ts-check
// The verdict of a study and its faults, each with its remedies.
import {h} from './dom.js';
import {moveNumber, other, sideOf} from './fen.js';
import {accept} from './accepted.js';
import {change, go, judgeAgain} from './actions.js';
import {app, doc} from './state.js';
import {insert} from './board_input.js';
import {variation} from './fault_kinds.js';
import {stipulate} from './edits.js';
import {acceptedOf, isWrongInPart, partSentence, stampOf, unreadIn, verdictsBefore} from './stamps.js';
import {nodeAt, allNodes, judgedBy} from './parse_answers.js';
import {promote, remove} from './node_view.js';
import {
  aimText,
  counted,
  difference,
  holds,
  lateBy,
  lateText,
  moveName,
  numberedLine,
  otherAims,
  readAim,
  valueText,
  verdictSentence,
  winner
} from './words.js';
import {atStart, wordOf} from './wording.js';
/** @typedef {import('./types.js').Study} Study @typedef {import('./types.js').TreeNode} TreeNode */
/** @typedef {import('./types.js').Also} Also */

/**
 * Whether a study is a part of a game beside the solution: whatever comes of it, the stipulation is the game's.
 * @param {Study} s
 */
const isBeside = ({origin}) => origin.tail !== null && origin.tail.beside;
/**
 * A study with the verdict of its view.
 * @param {Study} s
 * @param {import('./types.js').View} view
 */
const judgedAs = (s, view) => ({...s, verdict: view.verdict, start: view.start});
const CUT_SHORT = 'The game was not read to its end, so there is no verdict. ';
/** @param {Study} s */
export function verdictView(s) {
  const view = app.view;
  if (!view) return notJudged();
  if (!s.aim || !view.verdict) return h('p', {class: 'say'}, 'No stipulation yet: choose who is to win or to draw.');
  const judged = judgedAs(s, view), stamp = stampOf(doc(), judged, judgedBy(app.review, view)), {kind, text} = stamp;
  return [
    h('p', {class: 'verdict'}, h('span', {class: 'stamp ' + kind.replace(' ', '-'), id: 'stamp'}, text),
      h('span', {id: 'sentence'},
        s.origin.cut ? `${CUT_SHORT}${atStart(view.start)}.`
                     : verdictSentence(view, kind, partSentence(doc(), judged, stamp)))),
    beforeView(s)
  ];
}
/** Why there are no marks: tables are on their way, or something failed. */
function notJudged() {
  if (!app.noView)
    return h('p', {class: 'note', id: 'unjudged'}, 'Not judged yet: ',
      app.progress && !app.progress.reading ? 'its tables are being built'
                                            : 'its moves are being looked up in its tables',
      '. The marks come then, and the board follows the moves.');
  return h('p', {class: 'say', id: 'unjudged'}, `This study is not judged: ${app.noView}. `,
    / table|ables /.test(app.noView) &&
      h('button', {class: 'chip act', id: 'buildNow', onclick: judgeAgain}, 'Build the tables'));
}
/**
 * The faults, each with what mends it.
 * @param {Study} s
 */
export function faultsView(s) {
  const view = app.view, faults = app.review ? app.review.faults : [];
  if (!view || !s.aim || !view.verdict) return null;
  return [
    faults.length > 0 &&
      h('ul', {class: 'faults'}, faults.slice(0, 40).map(f => h('li', {}, faultView(s, view.root, f)))),
    timeView(s, view.root), adviceView(s)
  ];
}
/**
 * The board shows a study as it is after its last line; its script may tell games before that.
 * @param {Study} s
 */
function beforeView(s) {
  const before = verdictsBefore(s);
  return before.length > 0 &&
    h('p', {class: 'note', id: 'verdictsBefore'}, 'This is the study after its last line. Its script has ',
      before.length === 1 ? 'one more game' : `${before.length} more games`, ' of it: ', h('b', {}, before.join('; ')),
      '. Save PGN and Save report include ', before.length === 1 ? 'it.' : 'them.');
}
/**
 * Names of moves that more than one node of the tree has.
 * @type {WeakMap<TreeNode, Set<string>>}
 */
const shared = new WeakMap();
/** @param {TreeNode} root */
function sharedNames(root) {
  const known = shared.get(root), first = new Set();
  if (known) return known;
  const twice = new Set(allNodes(root).map(moveName).filter(name => first.has(name) || !first.add(name)));
  shared.set(root, twice);
  return twice;
}
/**
 * A move's name, with the move before it where another move of the tree has the same name.
 * @param {TreeNode} n
 */
const fullName = n => (app.view && n.parent && n.parent.parent && sharedNames(app.view.root).has(moveName(n))
    ? numberedLine(n.parent.parent.fen, [n.parent.san, n.san])
    : moveName(n));
/** @param {TreeNode} n */
export const nodeLink = n => h('button', {class: 'link', title: lineTo(n), onclick: () => go(n.path)}, fullName(n));
/**
 * All moves from the start to a node.
 * @param {TreeNode} n
 */
function lineTo(n) {
  const sans = [];
  let at = n;
  for (; at.parent; at = at.parent) sans.unshift(at.san);
  return numberedLine(at.fen, sans);
}
/**
 * A move that can be put into the tree below a node, with what follows it at once.
 * @param {string} path
 * @param {string[]} sans
 * @param {any} label
 * @param {string} [title]
 * @param {boolean} [named]      whether the title is its name for a screen reader too
 */
export const add = (path, sans, label, title, named = false) => h('button', {
  class: 'chip add',
  title: title || `put ${sans.join(' ')} into the tree`,
  'aria-label': named && title,
  'data-path': path,
  'data-sans': sans.join(' '),
  onclick: () => insert(path, sans)
},
  label);
/**
 * @param {Study} s
 * @param {TreeNode} n
 * @param {Also[]} list
 */
export function alsoView(s, n, list) {
  const parent = n.parent;
  return parent && list.map(a => {
    const there = parent.children.some(c => c.san === a.san);
    const notes = [
      s.aim && difference(s.aim, n.value, a.value), a.time >= 0 && wordOf('loses-time').replace(', ', ''),
      there && 'in the tree'
    ];
    const text = notes.filter(Boolean).join(', ');
    return [add(parent.path, [a.san], [h('b', {}, a.san), text && h('small', {}, ' ' + text)]), ' '];
  });
}
/**
 * @param {Study} s
 * @param {TreeNode} root
 * @param {import('./types.js').Fault} f
 */
function faultView(s, root, f) {
  const n = nodeAt(root, f.path), all = app.review ? app.review.also.filter(a => a.path === f.path) : [];
  if (!n) return f.san;
  if (f.kind === 'mistake') return mistakeView(s, n);
  const after = variation(s.fen, f.path, root);
  return [
    nodeLink(n), after && h('small', {}, ` (${after})`), ': also ', alsoView(s, n, all.slice(0, 6)),
    all.length > 6 && `and ${all.length - 6} more `, cut(n, `Delete from ${moveName(n)} on`), acceptView(s, root, f)
  ];
}
/**
 * The tick of a judge who accepts a dual.
 * @param {Study} s
 * @param {TreeNode} root
 * @param {import('./types.js').Fault} f
 */
function acceptView(s, root, f) {
  const is = acceptedOf(doc(), s, [f]).length > 0;
  const tick = (/** @type {any} */ e) => change(
    now => (now.studies[now.at] ? accept(now.lines, now.studies[now.at], root, f.path, e.target.checked) : null));
  return [
    h('label', {class: 'act tick'}, h('input', {type: 'checkbox', checked: is, onchange: tick, 'data-accept': f.path}),
      ' accepted'),
    is && h('i', {class: 'on-paper'}, ' (accepted)')
  ];
}
/**
 * @param {Study} s
 * @param {TreeNode} n
 */
function mistakeView(s, n) {
  const better = n.parent ? n.parent.children.find(holds) : undefined, late = s.aim ? lateBy(s.aim, n) : 0;
  return [
    nodeLink(n), h('b', {}, wordOf('lets-go')), valueText(sideOf(n.fen), n.value), lateText(late), ' ',
    better && [h('button', {class: 'chip act', onclick: () => promote(better, true)}, `Put ${better.san} first`), ' '],
    cut(n, 'Delete it')
  ];
}
/**
 * A button that takes a move out of the tree; it says how much goes with it, and which move comes to its place.
 * @param {TreeNode} n
 * @param {string} text
 */
function cut(n, text) {
  const below = allNodes(n).length - 1, row = n.parent ? n.parent.children : [];
  const next = row[0] === n && row[1] ? `${moveName(row[1])} comes to its place` : '';
  const gone = below ? `delete ${counted(below + 1, 'move')}: ${lineFrom(n)}` : `delete ${moveName(n)}`;
  const words = [below && counted(below + 1, 'move'), next].filter(Boolean).join('; ');
  return h('button', {
    class: 'chip act',
    title: [gone, next].filter(Boolean).join('; '),
    'data-cut': n.path,
    onclick: () => remove(n.path)
  },
    '✕ ', text, words && h('small', {}, ` (${words})`));
}
/**
 * A move with the first ones below it.
 * @param {TreeNode} n
 */
function lineFrom(n) {
  const sans = [n.san];
  let at = n;
  for (; at.children[0] && sans.length < 8; at = at.children[0]) sans.push(at.children[0].san);
  return numberedLine(n.parent ? n.parent.fen : n.fen, sans) + (at.children[0] ? ' ..' : '');
}
/** So many moves that remain are named. */
const MOST_NAMED = 8;
/**
 * How many of the other moves only waste time.
 * @param {Study} s
 * @param {TreeNode} root
 */
function timeView(s, root) {
  const duals = app.review ? app.review.faults.filter(f => f.kind === 'dual') : [],
        all = duals.reduce((sum, f) => sum + f.duals, 0), idle = duals.reduce((sum, f) => sum + f.time, 0);
  if (!idle || !s.aim || !app.review) return null;
  const also = app.review.also, rest = duals.flatMap(f => also.filter(a => a.path === f.path && a.time < 0).map(a => {
    const n = nodeAt(root, f.path);
    return (n && n.parent ? moveNumber(n.parent.fen) : '') + a.san;
  }));
  const first = rest.slice(0, MOST_NAMED), more = all - idle - first.length;
  return h('p', {},
    h('b', {}, all === 1 ? 'This one wastes time' : `${idle} of these ${all} ${idle === 1 ? 'wastes' : 'waste'} time`),
    `: ${other(s.aim.hero)} forces a position of the same line again. `,
    first.length ? ['There remains: ', h('b', {}, first.join(', ')), more > 0 && ` and ${more} more`, '.']
                 : 'None remains.');
}
/**
 * What could be said of this position instead: of a try nothing, since it is to fail; nor of a part of a game that a
 * move before it may have spoilt; nor of a study without a verdict.
 * @param {Study} s
 */
function adviceView(s) {
  const view = app.view;
  if (!view || !s.aim || isBeside(s) || isWrongInPart(judgedAs(s, view)) || unreadIn(doc(), s)) return null;
  const duals = app.review !== null && app.review.faults.some(f => f.kind === 'dual');
  const offers = otherAims(s.aim, view.verdict, sideOf(view.fen), view.root.value, duals);
  return offers.length > 0 && h('p', {class: 'act'}, 'Say instead: ', offers.map(words => [aimButton(words), ' ']));
}
/** @param {string} words */
function aimButton(words) {
  const onclick = () =>
    change(now => (now.studies[now.at] ? stipulate(now.lines, now.studies[now.at], words) : null), 'head');
  return h('button', {class: 'chip add', 'data-aim': words, onclick}, aimText(readAim(words)));
}
