// @ts-check
// The facts of all studies of a script, found one after the other while the user rests, and kept by the lines that they
// are of: whatever name a study has and wherever it stands.
import {track} from './actions.js';
import {app, doc, services, PAGES} from './state.js';
import {entriesOf, withFacts} from './entries.js';
import {lettersOf} from './fen.js';
import {judgedBy, readReview, readView} from './parse_answers.js';
import {isAimLine} from './edits.js';
import {editsTo, fensOf, toText, wordsOf} from './script.js';
import {addDetails} from './review_details.js';
import {moveName} from './words.js';
/** @typedef {import('./types.js').Doc} Doc @typedef {import('./types.js').Review} Review */

/**
 * What the program says of a study, and the positions of its main line behind the start.
 * @typedef {{review: Review | null, mainLine: import('./same_positions.js').Stop[] | null}} Found
 */
const found = /** @type {Map<string, Found>} */ (new Map()), MOST = 20000, MOST_UNWANTED = 200, DRAWN_AFTER = 400;
const NOTHING = /** @type {Found} */ ({review: null, mainLine: null});
let changes = 0;
/**
 * @param {string} text
 * @param {Found} facts
 */
function learn(text, facts) {
  if (found.size >= MOST) found.clear();
  found.set(text, facts);
  changes++;
}
/**
 * The lines that the facts of a study are of: without its names, and without a stipulation in whose place another one
 * comes at once.
 * @param {string[]} lines
 * @param {import('./types.js').Study} s
 */
export function judgedText(lines, s) {
  const edits = editsTo(lines, s).filter(line => !/^ *tag /.test(line));
  return toText(edits.filter((line, i) => !(isAimLine(line) && isAimLine(edits[i + 1] || ''))));
}
/**
 * These of each study that is judged.
 * @param {Doc} d
 */
function textsOf(d) {
  const known = texts.get(d.studies), list = known || d.studies.map(s => (s.verdict ? judgedText(d.lines, s) : ''));
  if (!known) texts.set(d.studies, list);
  return list;
}
const texts = /** @type {WeakMap<any[], string[]>} */ (new WeakMap());
/**
 * @typedef {{studies: any[] | null, changes: number, facts: Found[], reviews: (Review | null)[],
 *   open: boolean[]}} Known
 *   `open`: whether the facts of each study are still being found
 */
let last = /** @type {Known} */ ({studies: null, changes: 0, facts: [], reviews: [], open: []});
/**
 * The facts of each study, as far as they are known: the same lists as long as nothing was added.
 * @param {Doc} d
 */
export function knownFacts(d) {
  takeShown();
  if (last.studies !== d.studies || last.changes !== changes) {
    const list = textsOf(d), facts = list.map(text => found.get(text) || NOTHING);
    last = {
      studies: d.studies,
      changes,
      facts,
      reviews: facts.map(({review}) => review),
      open: list.map(text => text !== '' && !found.has(text))
    };
  }
  return last;
}
/** The facts of the study that is shown, which stand beside it. */
function takeShown() {
  const d = doc(), {review, view} = app, text = d.studies[d.at] && review && view ? textsOf(d)[d.at] : '';
  if (!text || !view || (found.get(text) || NOTHING).review) return;
  learn(text, {review: judgedBy(review, view), mainLine: mainLineOf(view.root)});
}
/**
 * The facts of one study of whatever script.
 * @param {string[]} lines
 * @param {import('./types.js').Study} s
 */
export async function reviewFor(lines, s) {
  const text = s.verdict ? judgedText(lines, s) : '';
  if (text && !found.has(text)) await find(text).catch(() => {});
  return (found.get(text) || NOTHING).review;
}
let listed = /** @type {{from: any[], facts: Found[], entries: import('./entries.js').Entry[]}} */ (
  {from: [], facts: [], entries: []});
/**
 * The entries of a script, with what is known of them: the same list as long as nothing has changed. Of a long list
 * only the rows of studies whose facts were found are made anew, until all are.
 * @param {Doc} d
 */
export function knownEntries(d) {
  const {facts, reviews, open} = knownFacts(d), from = [d.lines, d.studies, d.refused],
                         same = from.every((thing, i) => thing === listed.from[i]);
  if (same && facts === listed.facts) return listed.entries;
  const anew = same ? facts.flatMap((one, at) => (one === listed.facts[at] ? [] : [at])) : [],
        few = same && facts.length > MOST_UNWANTED && open.includes(true);
  const entries = few ? withFacts(listed.entries, d, new Set(anew), reviews)
                      : entriesOf(d, reviews, facts.map(({mainLine}) => mainLine), open);
  listed = {from, facts, entries};
  return entries;
}
/**
 * Of how many studies the facts are known, and of how many they are to be; and whether the list is so long that they
 * are not found before someone wants them.
 * @param {Doc} d
 */
export function howManyKnown(d) {
  const of = textsOf(d).filter(Boolean).length, unknown = knownFacts(d).open.filter(Boolean).length;
  return {known: of - unknown, of, unwanted: unknown > MOST_UNWANTED};
}
const pause = (/** @type {number} */ ms) => new Promise(on => setTimeout(on, ms));
/**
 * The positions of a main line behind the start, each with the move that leads to it.
 * @param {import('./types.js').TreeNode} root
 */
function mainLineOf(root) {
  const line = [];
  for (let node = root.children[0]; node; node = node.children[0]) line.push({fen: node.fen, move: moveName(node)});
  return line;
}
/**
 * The men of a study. Those with the same men come one after the other, so that their tables are loaded once.
 * @param {string} text
 */
const menIn = text => lettersOf(wordsOf(text)[1]);
/** @param {string} text */
async function find(text) {
  const worker = await services.tables.factsFor(fensOf(text.split('\n'))),
        {text: facts} = await worker.answer('review', text + 'pgn\n', PAGES),
        view = readView((await worker.answer('view root', text, PAGES)).text);
  learn(text, {review: judgedBy(readReview(facts), view), mainLine: view && mainLineOf(view.root)});
}
/**
 * Finds what is not known yet, and has the list drawn now and then. Unless the user wants it, it ends where the
 * document changes, waits while facts of the shown study are being found, and leaves long lists alone.
 * @param {Doc} d
 * @param {boolean} wanted
 */
export async function reviewAll(d, wanted) {
  const open = [...new Set(textsOf(d).filter(text => text && !found.has(text)))];
  if (!open.length || (!wanted && open.length > MOST_UNWANTED)) return;
  open.sort((x, y) => (menIn(x) < menIn(y) ? -1 : 1));
  let drawn = performance.now();
  for (const [at, text] of open.entries()) {
    if (wanted) services.reading(at, open.length, 'Finding the faults of study');
    else {
      await pause(40);
      if (doc().lines !== d.lines) return;
      if (services.facts.waiting()) return later(doc());
    }
    if (!found.has(text)) await find(text).catch(() => learn(text, NOTHING));
    if (wanted || performance.now() - drawn < DRAWN_AFTER) continue;
    services.showFacts();
    drawn = performance.now();
  }
  services.reading(0, 0);
  services.showFacts();
  services.keep();
}
/** Finds what is printed: the facts of all studies, and what stands beside the one that is shown. */
export async function factsToPrint() {
  const d = doc(), s = d.studies[d.at], {stamp} = app;
  if (d.studies.length > 1) await reviewAll(d, true);
  if (!s || !s.aim || !app.view || stamp !== app.stamp) return;
  const review = app.review || await reviewFor(d.lines, s);
  if (!review || stamp !== app.stamp) return;
  app.review = review;
  await addDetails(toText(editsTo(d.lines, s)), s.fen, review, stamp);
  services.showFacts();
}
let timer = 0;
/**
 * Some time after the last change.
 * @param {Doc} d
 */
export function later(d) {
  clearTimeout(timer);
  if (d.studies.length > 1 && d.judged) timer = setTimeout(() => track(reviewAll(d, false)), 600);
}
