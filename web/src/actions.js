// @ts-check
// What is done to the document, one action after the other.
import {countsOf, learn, reviewOf, viewOf} from './answer_cache.js';
import {newlyRefused} from './entries.js';
import {advance, begin, redo as redone, replace, undo as undone} from './history.js';
import {noteThen} from './imported.js';
import {evaluate, readable} from './running.js';
import {editsTo, fensOf, toText, wordsOf} from './script.js';
import {nodeAt} from './parse_answers.js';
import {pauseIfLong} from './pauses.js';
import {cancelPrefetch, prefetchNeighbours, prefetchView} from './prefetch.js';
import {Stopped} from './engine.js';
import {freshId} from './keep.js';
import {app, blank, doc, services, say} from './state.js';
import {underWay} from './under_way.js';
import {unjudged} from './unmarked.js';
import {counted, moveName, reason} from './words.js';
/** @typedef {import('./types.js').Doc} Doc @typedef {import('./types.js').Change} Change */
/** @typedef {import('./types.js').Script} Script */
/** @typedef {import('./state.js').Say} Say */

/**
 * A script has taken the place of another: what was refused, and that the other is not lost.
 * @param {Doc} before
 */
export function sayOpened(before) {
  const refused = doc().refused.length,
        isKept = before.studies.length > 0 && before.id !== doc().id && before.id !== app.looked,
        place = isKept ? 'The document before is kept: Documents lists it.' : '';
  if (app.say || !(refused || place)) return;
  const were = refused === 1 ? 'was' : 'were';
  const lines = `${counted(refused, 'line')} of this script ${were} refused; they are listed below the study. `;
  say('board', (refused ? lines : '') + place, !refused);
  services.show();
}

let queue = Promise.resolve();
/**
 * One action after the other; a fault is shown and changes nothing.
 * @param {() => Promise<any>} job
 * @param {string} where
 * @returns {Promise<void>}
 */
export function work(job, where = 'board') {
  queue = queue.then(job).catch(fault => showFault(fault, where));
  return queue;
}
/**
 * @param {any} fault
 * @param {string} where
 */
function showFault(fault, where) {
  if (!(fault instanceof Stopped)) console.error(fault);
  say(where,
    fault instanceof Stopped ? `${fault.message}.`
                             : `The program did not finish: ${fault.message}. Nothing was changed.`);
  services.show();
}

const changing = /** @type {Set<Promise<any>>} */ (new Set());
/** What takes longer is said to be under way. */
const SOON = 150;
let timer = 0;
/** Settles when all that was requested before is done. */
export async function idle() {
  while (changing.size) await Promise.allSettled(changing);
  await work(async () => {});
}
/**
 * What is done to the document: lines are run; where one is newly refused nothing changes, and the reason is shown
 * where the user acted.
 * @param {(doc: Doc) => Change | null} make
 * @param {string} where
 * @returns {Promise<boolean>} whether it was done
 */
export const change = (make, where = 'board') => track(changeOnce(make, where));
/**
 * What is under way, until it is done.
 * @template T
 * @param {Promise<T>} done
 */
export function track(done) {
  changing.add(done);
  if (!timer) timer = setTimeout(() => services.busy(true), SOON);
  return done.finally(() => {
    changing.delete(done);
    if (changing.size) return;
    clearTimeout(timer);
    timer = 0;
    services.busy(false);
  });
}
/**
 * @param {(doc: Doc) => Change | null} make
 * @param {string} where
 */
async function changeOnce(make, where) {
  const first = make(doc()), before = app.history;
  if (!first) return false;
  cancelPrefetch();
  try {
    if (first.lines !== doc().lines) readable(first.lines);
    const lacking = first.lines === doc().lines ? [] : await services.tables.lacking(fensOf(first.lines));
    if (lacking.length && (first.lenient || !doc().judged)) {
      await work(() => showUnmarked(make), where);
      return app.history !== before;
    }
    if (lacking.length) await tablesFor(first.lines, lacking, where);
  } catch (fault) {
    showFault(fault, where);
    return false;
  }
  await work(() => applyChange(make, where), where);
  return app.history !== before;
}
/**
 * A change waits until its tables are built, and says so.
 * @param {string[]} lines
 * @param {string[]} lacking
 * @param {string} where
 */
async function tablesFor(lines, lacking, where) {
  say(where, `This waits for the ${lacking.length === 1 ? 'table' : 'tables'} ${lacking.join(' ')}.`, true);
  services.show();
  await services.tables.ready(fensOf(lines));
}
/**
 * Lines whose tables lack stand there at once, unmarked; they are judged when the tables are there.
 * @param {(doc: Doc) => Change | null} make
 */
async function showUnmarked(make) {
  const now = doc(), wanted = make(now);
  if (!wanted) return;
  readable(wanted.lines);
  await learn(wanted.lines);
  await arrive(after(docAfter(now, wanted, unjudged(wanted.lines), false)));
}
/**
 * The next state of a document; another document begins with an undo of its own.
 * @param {Doc} next
 */
const after = next => (next.id === doc().id ? advance(app.history, next) : begin(next));
/**
 * @param {Doc} now
 * @param {Change} wanted
 * @param {Script} script
 * @param {boolean} judged
 * @returns {Doc}
 */
function docAfter(now, wanted, script, judged) {
  const at = Math.max(0, Math.min(wanted.at === undefined ? now.at : wanted.at, script.studies.length - 1)),
        made = script.studies[at]?.made, newest = made ? wordsOf(made.reply)[1] : 'root';
  const {name = now.name, note = noteThen(now, script), id = now.id || freshId(), path = now.path} = wanted;
  return {...script, at, path: path === 'made' ? newest : path, name, note, id, judged};
}
/**
 * @param {(doc: Doc) => Change | null} make
 * @param {string} where
 */
async function applyChange(make, where) {
  const now = doc(), wanted = make(now);
  if (!wanted) return;
  if (wanted.lines === now.lines) return look(wanted.at, wanted.path === 'made' ? undefined : wanted.path);
  prefetchView(now, wanted).catch(() => {});
  const script = await evaluate(wanted.lines), newly = newlyRefused(now.refused, script.refused);
  if (newly && !wanted.lenient && now.judged) {
    const subject = /^ *insert/.test(newly.text) ? wordsOf(newly.text)[2] : '';
    say(where,
      subject ? `${subject}: ${reason(newly.reply)}.` : `Refused: ${brokenMove(newly.reply) || reason(newly.reply)}.`);
    if (app.say) app.say.line = newly.text;
    return services.show();
  }
  await arrive(after(docAfter(now, wanted, script, true)));
}
/**
 * The move that a shift would break, by its name.
 * @param {string} reply
 */
function brokenMove(reply) {
  const path = /^error ShiftBroken (\S+)/.exec(reply),
        broken = path && app.view ? nodeAt(app.view.root, path[1]) : null;
  const why =
    'starts on a square that its man has left, or is not legal from here. Take the position without the moves';
  return broken ? `the tree's ${moveName(broken)} ${why}` : '';
}
/**
 * Looks at another study or node.
 * @param {number | undefined} at
 * @param {string | undefined} path
 */
async function look(at, path) {
  const now = doc();
  await arrive(
    replace(app.history, {...now, at: at === undefined ? now.at : at, path: path === undefined ? now.path : path}));
}
/** @param {string} path */
export const go = path => work(() => look(undefined, path));
/**
 * @param {() => number | undefined} where      asked once all that was pressed before is done
 */
export const goTo = where => work(async () => {
  const at = where();
  if (at === undefined || !doc().studies[at]) return;
  app.setup = null;
  await look(at, 'root');
  scrollTo(0, 0);
});
/** @param {number} at */
export const goStudy = at => goTo(() => at);
/** @param {(h: typeof app.history) => typeof app.history} step */
const step = step => work(async () => {
  const next = step(app.history);
  if (next === app.history) return;
  app.setup = null;
  await arrive(next);
});
export const undo = () => step(undone);
export const redo = () => step(redone);

/**
 * A state that the program has not read yet is read, if its tables are there; else it is shown as its lines have it.
 * @param {import('./history.js').History<Doc>} history
 */
async function read(history) {
  const now = history.now;
  if (now.judged) return history;
  const here = !(await services.tables.lacking(fensOf(now.lines))).length;
  if (here) prefetchView({...now, studies: []}, {lines: now.lines, at: now.at, path: now.path}).catch(() => {});
  await learn(now.lines);
  const script = here ? await evaluate(now.lines) : unjudged(now.lines);
  return replace(
    history, {...now, ...script, at: Math.max(0, Math.min(now.at, script.studies.length - 1)), judged: here});
}
/** The document whose builds were stopped or failed, and why: they are not begun again by each change. */
let halted = {id: '', why: ''};
/**
 * Its tables are built, and then it is judged.
 * @param {Doc} now
 */
function judgeLater({lines, id}) {
  const mine = () => doc().lines === lines && !doc().judged;
  const failed = (/** @type {Error} */ fault) => {
    halted = {id, why: `${fault.message}. Without its tables a study is not judged`};
    if (!mine()) return;
    app.noView = halted.why;
    services.show();
  };
  const built = async () => {
    if (!mine()) return;
    await underWay('The moves are being judged …', () => arrive(app.history, app.say));
    if (!doc().refused.length) return;
    app.say = null;
    sayOpened(blank);
  };
  track(services.tables.ready(fensOf(lines)).then(() => work(() => built().catch(failed)), failed));
}
/** A document that was not judged, since its tables lacked, is tried again. */
export function judgeAgain() {
  halted = {id: '', why: ''};
  return work(() => arrive(app.history));
}
/**
 * A new state is shown once all is there that is shown of it; its facts come after.
 * @param {import('./history.js').History<Doc>} wanted
 * @param {Say | null} note
 */
export async function arrive(wanted, note = null) {
  const stamp = ++app.stamp;
  let next = await read(wanted);
  const s = next.now.studies[next.now.at], text = s ? toText(editsTo(next.now.lines, s)) : '', judged = next.now.judged;
  await pauseIfLong(next.now.lines);
  let view = s && judged ? await viewOf(text, next.now.path) : null;
  if (typeof view === 'string' && next.now.path !== 'root') {
    next = replace(next, {...next.now, path: 'root'});
    view = await viewOf(text, 'root');
  }
  const counts = typeof view === 'string' || !view ? s ? await countsOf(s.fen) : '' : view.counts;
  Object.assign(app, {
    history: next,
    chosen: null,
    say: note,
    view: typeof view === 'string' ? null : view,
    counts,
    noView: typeof view === 'string'        ? view
      : judged || halted.id !== next.now.id ? ''
                                            : halted.why,
    review: null,
    noReview: ''
  });
  cancelPrefetch();
  if (app.view && s && s.aim) reviewOf(text, s.fen, stamp);
  services.keep();
  await pauseIfLong(next.now.lines);
  services.show();
  if (app.view) prefetchNeighbours(text, stamp);
  if (!judged && !app.noView) judgeLater(next.now);
}
