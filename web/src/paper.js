// @ts-check
// The study on paper: what the printed page of the report has, in its order, whatever node is shown on the screen; of
// several studies their list first, and at the end a line for the judge.
import {$, h, put} from './dom.js';
import {besideDiagram, diagramOf} from './drawing.js';
import {isKnown} from './edits.js';
import {nameOf} from './entries.js';
import {control, other, sideOf} from './fen.js';
import {claimedResult, numberText, sameView, tailView} from './head_view.js';
import {againstText, sourceText} from './imported.js';
import {paperList} from './list_view.js';
import {dualsOf, reviewView} from './review_view.js';
import {draftFen} from './setup.js';
import {app, study} from './state.js';
import {bareView, keyView, treeView} from './tree_view.js';
import {faultsView, verdictView} from './verdict_view.js';
import {wordOf} from './wording.js';
import {aimText, counted, difference, moveName, readAim, valueText} from './words.js';
/** @typedef {import('./types.js').Study} Study @typedef {import('./types.js').TreeNode} TreeNode */

/**
 * The start as a diagram, with what is to be done, the numbers of men and the GBR code, the men, and the FEN.
 * @param {string} fen
 * @param {string} aim
 * @param {string} source      of the stipulation
 * @param {string} counts
 */
const startView = (fen, aim, source, counts) => h('figure', {class: 'start'}, diagramOf(fen),
  h('figcaption', {}, h('b', {}, aim), source && ` (${source})`,
    [counts, control(fen), h('code', {}, fen)].filter(Boolean).map(line => [h('br', {}), line])));
/** @param {Study} s */
function headOf(s) {
  const year = (s.tags.Date || '').replace(/(\.\?\?)+$/, ''), {Round} = s.tags;
  const by = [
    numberText(), nameOf(s, 'White'), nameOf(s, 'Black'), nameOf(s, 'Site'), isKnown(year) && year,
    isKnown(Round) && 'entry ' + Round, claimedResult(s) && `claimed ${claimedResult(s)}`
  ].filter(Boolean);
  const against = s.origin.against.map(againstText);
  return [
    h('h1', {}, nameOf(s, 'Event') || wordOf('untitled')), by.length > 0 && h('p', {class: 'by'}, by.join(' · ')),
    against.length > 0 && h('p', {class: 'note'}, `Compare the sources of the stipulation: ${against.join('; ')}.`),
    sameView(), tailView(s)
  ];
}
/**
 * What else holds at a dual, beside the position before it.
 * @param {Study} s
 * @param {TreeNode} n
 * @param {import('./types.js').Also[]} list
 */
function dualView(s, n, list) {
  const before = n.parent ? n.parent.fen : n.fen, mover = other(sideOf(before));
  const row = (/** @type {import('./types.js').Also} */ also) => h('li', {}, h('b', {}, also.san), ': ', [
    valueText(mover, also.value), s.aim && difference(s.aim, n.value, also.value),
    also.time >= 0 && wordOf('loses-time').replace(', ', '') + (also.time > 1 ? ` (${counted(also.time, 'move')})` : '')
  ].filter(Boolean).join(', '));
  return besideDiagram(before, [
    h('b', {}, moveName(n)), ' ', h('span', {class: 'tag'}, `dual ${list.length}`), h('br', {}),
    `${valueText(mover, n.value)}. Also:`, h('ul', {}, list.map(row))
  ]);
}
/**
 * @param {Study} s
 * @param {TreeNode} root
 */
function dualsView(s, root) {
  const rows = app.review ? dualsOf(app.review.also, root) : [];
  return rows.length > 0 && [
    h('h2', {}, 'Duals: other moves that also work'),
    h('div', {class: 'duals'}, rows.map(([n, list]) => dualView(s, n, list)))
  ];
}
/** @param {Study} s */
function studyPaper(s) {
  const view = app.view, root = view ? view.root : null, aim = s.aim ? aimText(s.aim) : 'No stipulation',
        start = startView(root ? root.fen : s.fen, aim, sourceText(s.origin), app.counts);
  const list = paperList();
  return [
    list && h('div', {class: 'listed'}, list), headOf(s),
    h('div', {class: 'first'}, start, h('div', {}, verdictView(s), faultsView(s))), h('h2', {}, 'Solution'),
    root ? treeView(s, root) : bareView(s), root && dualsView(s, root), reviewView(s, true),
    h('p', {class: 'judges'}, 'Remarks of the judge:'), h('div', {class: 'meaning'}, keyView())
  ];
}
/** A set-up that is no study yet: its diagram. */
function draftPaper() {
  const d = app.setup, fen = d ? draftFen() : '';
  return d && Object.keys(d.men).length > 0 ? startView(fen, aimText(readAim(d.aim)), '', '') : null;
}
/**
 * A part of the facts, also where it is folded on the screen.
 * @param {any} details
 */
function unfold(details) {
  const [summary, ...rest] = details.childNodes;
  details.replaceWith(h('section', {}, h('h2', {}, summary.textContent), rest));
}
/** Lays the study out for paper; it is taken away again once it is printed. */
export function layOut() {
  const s = study(), anew = app.setup && app.setup.anew, paper = $('paper');
  put('paper', s && !anew ? studyPaper(s) : draftPaper());
  for (let more = paper.querySelector('button.more'); more; more = paper.querySelector('button.more')) more.click();
  for (const details of paper.querySelectorAll('details')) unfold(details);
  for (const named of paper.querySelectorAll('[id]')) named.removeAttribute('id');
}
export const clearPaper = () => put('paper');
