// @ts-check
// The review: duals in side lines, tries, mutual zugzwangs, defences that are missing, best play from open ends.
import {h, smallButton} from './dom.js';
import {other, sideOf} from './fen.js';
import {change} from './actions.js';
import {app} from './state.js';
import {insertLines} from './edits.js';
import {byNode, section} from './facts_parts.js';
import {allNodes, nodeAt} from './parse_answers.js';
import {table} from './table.js';
import {triesView} from './tries_view.js';
import {add, alsoView, nodeLink} from './verdict_view.js';
import {wordOf, wordsNamed} from './wording.js';
import {answersText, counted, keepText, numberedLine, valueSign, valueText, winner, zugzwangWords} from './words.js';
/** @typedef {import('./types.js').Study} Study @typedef {import('./types.js').TreeNode} TreeNode */
/** @typedef {import('./types.js').Review} Review @typedef {import('./types.js').Missing} Missing */

/**
 * The duals of a study, each with what else holds.
 * @param {import('./types.js').Also[]} also
 * @param {TreeNode} root
 */
export const dualsOf = (also, root) => byNode(also, root);
/**
 * @param {Study} s
 * @param {boolean} [paper]      where the duals stand by themselves, and none is given twice
 */
export function reviewView(s, paper = false) {
  const view = app.view, review = app.review;
  if (!view || !s.aim) return null;
  if (!review)
    return app.noReview ? h('p', {class: 'note'}, `The facts were not found: ${app.noReview}.`)
                        : h('p', {class: 'note'}, 'The facts are being found …');
  return [
    !paper && dualsView(s, review, view.root), triesView(s, review, view.root, paper), zugzwangView(view.root),
    defencesView(s, review, view.root, paper), endsView(review, view.root)
  ];
}
/**
 * @param {Study} s
 * @param {Review} review
 * @param {TreeNode} root
 */
function dualsView(s, review, root) {
  const main = new Set(review.faults.map(f => f.path)), rows = byNode(review.also.filter(a => !main.has(a.path)), root);
  return rows.length > 0 &&
    section('duals', 'Duals in side lines', null,
      table(['Move', 'Also'], rows, ([n, list]) => [nodeLink(n), alsoView(s, n, list)]));
}
/** @param {TreeNode} root */
function zugzwangView(root) {
  const rows = allNodes(root).filter(n => n.zugzwang);
  return rows.length > 0 &&
    section('zugzwangs', wordOf('zugzwangs'), 'Whoever is to move there would rather not be.',
      table(wordsNamed('zugzwangs-heads'), rows, n => {
        const [points, ...results] = zugzwangWords(n.zugzwang);
        return [[n.parent ? nodeLink(n) : wordOf('root'), ' ', h('small', {}, points)], ...results];
      }));
}
/**
 * @param {Study} s
 * @param {Review} review
 * @param {TreeNode} root
 * @param {boolean} paper      where the main defences are named alone
 */
function defencesView(s, review, root, paper) {
  const rows = byNode(review.missing, root), aim = s.aim;
  const hero = aim ? aim.hero : '', mates = `The small number says in how many moves ${hero} mates after the defence. `;
  const draws = 'After a defence with = it stays a draw; after one with a small number ' +
    `${hero} even mates, in so many moves. `;
  const note = [
    aim && (aim.goal === 'draw' ? draws : mates),
    !paper &&
      'A main defence has the sign †: it lasts at least as long as the first that is given, and has one answer. ',
    h('span', {class: 'act'}, 'A click adds it, with its answer if there is only one.')
  ];
  if (paper)
    return rows.length > 0 &&
      section('defences', wordOf('defences'), aim && (aim.goal === 'draw' ? draws : mates),
        table(['After', 'Main defences', 'Others'], rows, ([n, list]) => mainView(s, review, n, list)));
  const single = rows.flatMap(([n, list]) => toAdd(review, n, list)).length;
  return rows.length > 0 && section('defences', wordOf('defences'), note, [
    single > 1 &&
      h('p', {class: 'act'},
        smallButton(`Add all ${single} with one answer`, 'each with its only answer', () => addAll(review, rows),
          {id: 'addAll'})),
    table(['After', 'Given', 'Not given, with the answer if there is only one'], rows,
      ([n, list]) => missingView(s, review, n, list))
  ]);
}
/**
 * The move of the tree that leads where a defence leads, if one is known.
 * @param {Review} review
 * @param {TreeNode} n
 * @param {Missing} d
 */
function elsewhere(review, n, d) {
  const path = review.details?.elsewhere[n.path]?.[d.san];
  return path && app.view ? nodeAt(app.view.root, path) : null;
}
/**
 * The defences with one answer that lead where no move of the tree leads.
 * @param {Review} review
 * @param {TreeNode} n
 * @param {Missing[]} list
 */
const toAdd = (review, n, list) => list.filter(d => d.count === 1 && !elsewhere(review, n, d));
/**
 * How long a defence lasts: one that draws, for ever.
 * @param {Missing} d
 */
const lasting = d => (d.value.kind === 'draw' ? 1000 : d.value.n);
const FIRST = 5;
/**
 * Whether a defence lasts at least as long as the first that is given, has one answer, and leads nowhere where a move
 * of the tree leads. A draw lasts for ever.
 * @param {Study} s
 * @param {Review} review
 * @param {TreeNode} n
 * @param {Missing} d
 */
function isMain(s, review, n, d) {
  const [given] = n.children, after = other(sideOf(n.fen));
  if (!given || !s.aim || d.count !== 1 || elsewhere(review, n, d)) return false;
  const {hero} = s.aim, wins = (/** @type {Missing['value']} */ value) => winner(after, value) === hero;
  return d.value.kind === 'draw' ? given.value.kind === 'draw' || wins(given.value)
                                 : wins(d.value) && wins(given.value) && d.value.n >= given.value.n;
}
/**
 * Main defences first, then those with one answer which neither takes nor mates, then by length.
 * @param {Study} s
 * @param {Review} review
 * @param {TreeNode} n
 * @param {Missing[]} list
 */
function byWorth(s, review, n, list) {
  const worth = (/** @type {Missing} */ d) => (isMain(s, review, n, d) ? 0
      : d.count === 1 && !/[x#]/.test(d.answer)                        ? 1
      : d.count === 0                                                  ? 2
                                                                       : 3);
  return [...list].sort((x, y) => worth(x) - worth(y) || lasting(y) - lasting(x));
}
/**
 * How a defence is met, and that it leads where the tree leads.
 * @param {Review} review
 * @param {TreeNode} n
 * @param {Missing} d
 */
function answerView(review, n, d) {
  const same = elsewhere(review, n, d);
  return [
    d.count === 1 ? h('i', {}, d.answer) : h('small', {}, answersText(d.count)),
    same && [' (as after ', nodeLink(same), ')']
  ];
}
/**
 * A node, and how many of its legal moves the tree has.
 * @param {TreeNode} n
 * @param {Missing[]} list
 */
function afterView(n, list) {
  const given = n.children.length;
  return [nodeLink(n), h('br', {}), h('small', {}, `answers ${given} of ${given + list.length}`)];
}
/**
 * The main defences with their answers, and how many others there are.
 * @param {Study} s
 * @param {Review} review
 * @param {TreeNode} n
 * @param {Missing[]} list
 */
function mainView(s, review, n, list) {
  const main = list.filter(d => isMain(s, review, n, d)), others = list.length - main.length;
  return [
    afterView(n, list),
    main.map((d, i) => [i ? '; ' : '', defenceView(s, review, n, d, false), ' ', h('i', {}, d.answer)]),
    others ? counted(others, 'other') : ''
  ];
}
/**
 * @param {Study} s
 * @param {Review} review
 * @param {TreeNode} n
 * @param {Missing[]} list
 */
function missingView(s, review, n, list) {
  const sorted = byWorth(s, review, n, list),
        view = (/** @type {Missing} */ d) => [defenceView(s, review, n, d), ' ', answerView(review, n, d),
          d === sorted[sorted.length - 1] ? '' : '; '];
  const rest = sorted.slice(FIRST),
        more = h('button', {class: 'chip act more', onclick: () => more.replaceWith(h('span', {}, rest.map(view)))},
          `and ${rest.length} more`);
  return [
    afterView(n, list), n.children.map(c => c.san).join(' ') || '–',
    [...sorted.slice(0, FIRST).map(view), rest.length > 0 && more]
  ];
}
/**
 * All defences that one answer alone meets, each with it.
 * @param {Review} review
 * @param {[TreeNode, Missing[]][]} rows
 */
const addAll = (review, rows) => change(now => {
  const s = now.studies[now.at], view = app.view;
  if (!s || !view) return null;
  let lines = now.lines;
  for (const [n, list] of rows) {
    const study = {...s, last: s.last + lines.length - now.lines.length};
    const sans = toAdd(review, n, list).map(d => [d.san, d.answer]);
    lines = insertLines(lines, study, view.root, n.path, sans).lines;
  }
  return {lines, path: now.path};
});
/**
 * @param {Study} s
 * @param {Review} review
 * @param {TreeNode} n
 * @param {Missing} d
 * @param {boolean} [marked]      whether a main defence has its sign
 */
function defenceView(s, review, n, d, marked = true) {
  const after = other(sideOf(n.fen)), aim = s.aim;
  if (!aim) return null;
  const main = marked && isMain(s, review, n, d);
  const [sans, what] =
    d.count === 1 ? [[d.san, d.answer], `add ${d.san} with its only answer ${d.answer}`] : [[d.san], `add ${d.san}`];
  const lasts = main ? ', a main defence' : '';
  const title = `${d.san}: ${valueText(after, d.value)}${lasts}; ${what}`;
  return add(
    n.path, sans, [h('b', {}, d.san), h('sub', {}, valueSign(aim.hero, after, d.value)), main && '†'], title, true);
}
/**
 * @param {Review} review
 * @param {TreeNode} root
 */
function endsView(review, root) {
  const rows =
    byNode(review.ends, root).sort((x, y) => Number(x[1][0].value === null) - Number(y[1][0].value === null));
  const cells =
    (/** @type {[TreeNode, import('./types.js').Ending[]]} */[n, [end]]) => [n.parent ? nodeLink(n) : wordOf('root'),
      valueText(sideOf(n.fen), n.value), end.value ? playView(n, end.sans, end.value.n) : keepView(n, end)];
  return rows.length > 0 && section('ends', wordOf('ends'), null, table(wordsNamed('ends-heads'), rows, cells));
}
/**
 * @param {TreeNode} n
 * @param {string[]} sans
 * @param {number} plies      to the mate
 */
const playView = (n, sans, plies) => [numberedLine(n.fen, sans),
  sans.length < plies && ` … (${counted(Math.ceil((plies - sans.length) / 2), 'more move')})`, ' ',
  h('span', {class: 'act'}, add(n.path, sans, 'add the line', 'put this line into the tree'),
    add(n.path, sans.slice(0, 1), 'add one move'))];
/**
 * @param {TreeNode} n
 * @param {import('./types.js').Ending} end
 */
const keepView = (n, end) => [keepText(end.keeping, end.of), end.sans.map(san => add(n.path, [san], san))];
