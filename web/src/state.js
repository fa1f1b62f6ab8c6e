// @ts-check
// What there is: the document with its past, what is shown of it, and the services that the page is made of. Views read
// this; actions change it.
import {begin} from './history.js';
import {nodeAt} from './parse_answers.js';
/** @typedef {import('./types.js').Doc} Doc */
/**
 * @typedef {{where: string, text: string, good: boolean, field?: string, typed?: string, line?: string}} Say
 *   `line`: of the script, which was refused
 */

export const PAGES = 1000;
/** @type {Doc} */
export const blank = {
  lines: [],
  studies: [],
  refused: [],
  at: 0,
  path: 'root',
  name: '',
  id: '',
  note: '',
  judged: true
};

/**
 * @type {{history: import('./history.js').History<Doc>, view: import('./types.js').View | null, counts: string,
 *   noView: string, review: import('./types.js').Review | null, noReview: string, say: Say | null,
 *   chosen: number | null, flip: boolean, setup: import('./setup.js').Draft | null,
 *   progress: import('./tables.js').Progress | null, stamp: number, looked: string}}
 *   `looked`: the document that is only looked at, which is kept once it is changed
 */
export const app = {
  history: begin(blank),
  view: null,
  counts: '',
  noView: '',
  review: null,
  noReview: '',
  say: null,
  chosen: null,
  flip: false,
  setup: null,
  progress: null,
  stamp: 0,
  looked: ''
};
/**
 * The services that main.js puts in.
 * @type {{core: import('./engine.js').Core, facts: import('./engine.js').Core,
 *   tables: ReturnType<typeof import('./tables.js').makeTables>, show: () => void, showFacts: () => void,
 *   showJudged: () => void, keep: () => void, reading: (done: number, of: number, what?: string) => void,
 *   telling: (text: string) => void, busy: (is: boolean) => void}}
 *   `reading`: how many studies of a long script were run; of none, that it is done. `telling`: what else is under way.
 *   `busy`: whether what was done last is still under way
 */
export const services = /** @type {any} */ ({});

export const doc = () => app.history.now;
export const study = () => doc().studies[doc().at];
export const node = () => (app.view ? nodeAt(app.view.root, doc().path) || app.view.root : null);
/**
 * @param {string} where
 * @param {string} text
 */
export function say(where, text, good = false) { app.say = text ? {where, text, good} : null; }
export const clearMessage = () => {
  app.say = null;
};
