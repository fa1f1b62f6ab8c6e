// @ts-check
// Answers that will soon be wanted are requested ahead: the view that a change leads to, those of the neighbours of a
// node, and what the moves lead to that the user may be about to make.
import {assumeAccepted} from './assumed.js';
import {LARGE, keepView, keptView, learn, pause, viewOf} from './answer_cache.js';
import {insertMoves} from './edits.js';
import {lastRunTime, repliesFor} from './running.js';
import {editsTo, toText} from './script.js';
import {app, doc, node, services, study} from './state.js';
import {holds} from './words.js';
/** @typedef {import('./types.js').Doc} Doc @typedef {import('./types.js').Change} Change */
/** @typedef {import('./types.js').Study} Study @typedef {import('./types.js').Move} Move */

/** Of a script that runs longer than these milliseconds nothing is requested ahead: a run cannot be broken off. */
const LONG = 100;
/** Of a script with more lines none is read ahead. */
const MANY_LINES = 4000;

// ---- the view that a change leads to
let viewing = 0;  // how many views were requested of the second worker
/**
 * The study that a change will lead to, if its lines are accepted.
 * @param {Doc} now
 * @param {Change} wanted
 */
function studyAfter(now, {lines, at}) {
  const s = now.studies[now.at];
  return s && at === undefined ? {...s, end: s.end + lines.length - now.lines.length}
                               : assumeAccepted(lines).studies[at || 0];
}
/**
 * Requests the view after a change before its script is run: from the second worker, unless it is busy with other
 * things than views.
 * @param {Doc} now
 * @param {Change} wanted
 */
export async function prefetchView(now, wanted) {
  if (wanted.at !== undefined && wanted.lines.length > MANY_LINES) return;
  // What is made of remarks is made once, so they are read first.
  if (wanted.at !== undefined || !now.studies[now.at]) await learn(wanted.lines);
  const path = wanted.path === undefined ? now.path : wanted.path,
        s = path !== 'made' ? studyAfter(now, wanted) : undefined;
  if (!s) return;
  const names = services.tables.knownClasses([s.fen]),
        free = services.facts.waiting() <= viewing && names.every(services.facts.has),
        core = free ? services.facts : services.core;
  if (!names.length || !names.every(core.has)) return;
  const text = toText(editsTo(wanted.lines, s)), kept = keptView(text, path);
  if (kept) return void await kept;
  if (free) viewing++;
  await keepView(core, text, path);
  if (free) viewing--;
}
/**
 * Requests the views that a key shows from here, one after the other, as long as the user does nothing else.
 * @param {string} text
 * @param {number} stamp
 */
export async function prefetchNeighbours(text, stamp) {
  const n = node(), row = n && n.parent ? n.parent.children : [], at = n ? row.indexOf(n) : 0;
  const near =
    n && text.length < LARGE ? [n.children[0], n.parent, row[at - 1], row[at + 1], ...n.children.slice(1, 4)] : [];
  for (const next of near) {
    if (!next) continue;
    await pause(20);
    if (stamp !== app.stamp || app.setup) return;
    await viewOf(text, next.path).catch(() => {});  // whoever goes there sees why there is none
  }
}

// ---- moves that the user may be about to make
let latest = 0;
/** What the user does now comes before anything that is requested ahead. */
export function cancelPrefetch() { latest++; }
/**
 * What moves below a node lead to is requested for one after the other, until one of them is made.
 * @param {string} path
 * @param {string[][]} lists      each what one press puts in
 */
export async function prefetch(path, lists) {
  const mine = ++latest, now = doc(), s = study(), view = app.view;
  if (!s || !view || !lists.length || lastRunTime() > LONG) return;
  await pause(20);
  for (const sans of lists) {
    if (mine !== latest || doc() !== now || app.view !== view || app.setup) return;
    await prefetchChange(now, s, insertMoves(now.lines, s, view.root, path, sans)).catch(() => {});
  }
}
/**
 * @param {Doc} now
 * @param {Study} s
 * @param {Change} wanted
 */
async function prefetchChange(now, s, wanted) {
  if (wanted.lines === now.lines) return viewOf(toText(editsTo(now.lines, s)), wanted.path || 'root');
  return Promise.all([repliesFor(wanted.lines), prefetchView(now, wanted)]);
}
/**
 * The moves of a man that was taken up: first the one to the square that it is over, then those that hold.
 * @param {Move[]} moves
 * @param {number | null} over
 */
export function prefetchMoves(moves, over) {
  const rank = (/** @type {Move} */ m) => (m.to === over ? 0 : holds(m) ? 1 : 2);
  const large = toText(doc().lines).length >= LARGE;
  const list = moves.filter(m => !large || m.to === over).sort((x, y) => rank(x) - rank(y));
  return prefetch(doc().path, list.map(m => [m.san]));
}
