// @ts-check
// What the program has answered, kept by the text of its script: views and reviews.
import {countsIn, readReview, readView, refusalIn} from './parse_answers.js';
import {keepRemarks, unknownIn} from './remarks.js';
import {addDetails} from './review_details.js';
import {fensOf, toText} from './script.js';
import {PAGES, app, services} from './state.js';
import {readWording} from './wording.js';
import {reason} from './words.js';
/** @typedef {import('./types.js').View} View @typedef {import('./types.js').Review} Review */
/** @typedef {import('./types.js').Answer} Answer @typedef {import('./types.js').Engine} Engine */

/** A script with more letters is large: fewer of its answers are kept, and fewer are requested ahead. */
export const LARGE = 10000;
export const pause = (/** @type {number} */ ms) => new Promise(on => setTimeout(on, ms));
/**
 * @template T
 * @param {Map<string, T>} map
 * @param {string} key
 * @param {T} value
 */
function remember(map, key, value) {
  while (map.size >= (key.length < LARGE ? 400 : 40)) map.delete(map.keys().next().value || '');
  map.set(key, value);
}

// ---- words and remarks
/** Asks for the words that no reply has. */
export async function learnWords() {
  const {text, ended} = await services.core.answer('words', '', PAGES);
  if (ended === 'done') readWording(text);
}
/**
 * Has the program read the remarks of lines that it has not read yet.
 * @param {string[]} lines
 */
export async function learn(lines) {
  for (const part of unknownIn(lines)) {
    const {text, ended} = await services.core.answer('remarks', toText(part), PAGES);
    if (ended === 'done') keepRemarks(part, text);
  }
}

// ---- views
const views = /** @type {Map<string, View>} */ (new Map());
const pending = /** @type {Map<string, Promise<View | null>>} */ (new Map());  // requested ahead
/**
 * @param {string} text
 * @param {string} path
 */
const keyOf = (text, path) => `${path}\n${text}`;
/**
 * A view that is kept or on its way.
 * @param {string} text
 * @param {string} path
 */
export const keptView = (text, path) => views.get(keyOf(text, path)) || pending.get(keyOf(text, path));
/**
 * Requests a view, and keeps it; a fault is left to whoever needs the view.
 * @param {Engine} core
 * @param {string} text
 * @param {string} path
 */
export async function keepView(core, text, path) {
  const key = keyOf(text, path);
  const answer = core.answer('view ' + path, text, PAGES).then(({text}) => readView(text)).catch(() => null);
  pending.set(key, answer);
  const view = await answer;
  pending.delete(key);
  if (view) remember(views, key, view);
}
/**
 * The view of a script's one study at a path; where there is none, why.
 * @param {string} text
 * @param {string} path
 * @returns {Promise<View | string>}
 */
export async function viewOf(text, path) {
  const kept = await keptView(text, path);
  if (kept) return kept;
  // A core that was started again has no tables.
  await services.tables.loadFor(fensOf(text.split('\n')));
  const answer = await services.core.answer('view ' + path, text, PAGES), view = readView(answer.text);
  if (!view) return reason(refusalIn(answer));
  remember(views, keyOf(text, path), view);
  return view;
}

/**
 * The men of each side and the code of Guy, Blandford and Roycroft. The core needs no tables for them.
 * @param {string} fen
 */
export async function countsOf(fen) {
  return countsIn((await services.core.answer('view root', `position ${fen}\n`, PAGES)).text);
}

// ---- reviews
const reviews = /** @type {Map<string, Review>} */ (new Map());
let last = {letters: 1, ms: 0};
/** So long, in milliseconds, a review waits for what is added to it, to be drawn once with it. */
const SOON = 100;
/**
 * Shows the review of a study, from a worker of its own, so that no move waits for it. A review that takes long is
 * requested once the user rests.
 * @param {string} text
 * @param {string} fen
 * @param {number} stamp
 */
export async function reviewOf(text, fen, stamp) {
  const kept = reviews.get(text), expected = last.ms * Math.min(1, text.length / last.letters);
  if (kept) {
    app.review = kept;
    if (await addDetails(text, fen, kept, stamp).catch(() => false)) services.showFacts();
    return;
  }
  await pause(expected > 150 ? Math.min(1000, 2 * expected) : 30);
  if (stamp !== app.stamp) return;
  try {
    const worker = await services.tables.factsFor([fen]);
    if (stamp !== app.stamp) return;
    const began = performance.now(), answer = await worker.answer('review', text + 'pgn\n', PAGES);
    const review = readReview(answer.text);
    last = {letters: text.length, ms: performance.now() - began};
    if (review) remember(reviews, text, review);
    if (stamp !== app.stamp) return;
    app.review = review;
    if (!review) app.noReview = reason(refusalIn(answer));
  } catch (fault) {
    if (stamp === app.stamp) app.noReview = /** @type {Error} */ (fault).message;
  }
  if (stamp !== app.stamp) return;
  const adding = app.review ? addDetails(text, fen, app.review, stamp).catch(() => false) : Promise.resolve(false),
        added = await Promise.race([adding, pause(SOON)]);
  if (stamp !== app.stamp) return;
  services.showFacts();
  services.keep();
  if (added === undefined && await adding) services.showFacts();
}
