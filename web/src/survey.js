// @ts-check
// Where else a man could stand: the squares on which the stipulation is correct. What more is known of them comes one
// square
// after the other, so that nothing waits for it.
import {track, work} from './actions.js';
import {PAGES, app, services, say} from './state.js';
import {fenWith, rowAt, treeAt} from './elsewhere.js';
import {baseOf, treeFor} from './ending.js';
import {sideOf, squareName} from './fen.js';
import {readSurvey, refusalIn} from './parse_answers.js';
import {draftFen} from './setup.js';
import {readAim, reason} from './words.js';
/** @typedef {import('./setup.js').Draft} Draft @typedef {import('./elsewhere.js').Spot} Spot */
/** @typedef {import('./types.js').Stand} Stand */

/**
 * All squares of a man: where the stipulation is correct, and where by one first move. Those of another man go at once.
 * @param {number} man
 */
export function survey(man) {
  const d = app.setup;
  if (!d || !d.men[man]) return Promise.resolve();
  if (d.man !== man) d.survey = null;
  d.man = man;
  services.showJudged();
  return findSquares(d, man);
}
/**
 * @param {Draft} d
 * @param {number} man
 */
const findSquares = (d, man) => work(async () => {
  if (app.setup !== d || d.man !== man) return;
  await services.tables.loadFor([draftFen()]);
  const answer = await services.core.answer(`survey ${squareName(man)} ${d.aim} ${draftFen()}`, '', PAGES);
  const stands = readSurvey(answer.text);
  if (app.setup !== d || d.man !== man) return;
  if (!stands.length) say('fen', `No survey: ${reason(refusalIn(answer))}.`);
  else d.survey = stands.filter(s => s.kind === 'holds' || s.kind === 'only').map(spotOf);
  services.showJudged();
  if (stands.length) track(rows(d, man)).catch(() => {});
}, 'fen');
/**
 * @param {Stand} stand
 * @returns {Spot}
 */
const spotOf = stand => ({
  to: stand.square,
  sign: stand.kind === 'only' ? 'dot' : 'plain',
  text: squareName(stand.square) + (stand.san ? ` (${stand.san})` : ''),
  row: null,
  there: null
});
/** The squares of a survey are taken off the board again; whether some were shown. */
export function hideSurvey() {
  const d = app.setup;
  if (!d || !d.survey) return false;
  d.survey = null;
  services.showJudged();
  return true;
}

/**
 * Loads the tables of a position into the worker of facts: no move waits for it.
 * @param {string} fen
 */
const loadTables = async fen => services.tables.loadFor([fen], services.facts);
const OFTEN = 150;
/**
 * Does something for some squares of a survey, as long as it is shown, and draws it now and then.
 * @param {Draft} d
 * @param {Spot[] | null} all
 * @param {Spot[]} spots
 * @param {(spot: Spot) => Promise<boolean>} look      whether to go on
 */
async function forEach(d, all, spots, look) {
  const shown = () => app.setup === d && d.survey === all;
  let drawn = performance.now();
  for (const spot of spots) {
    if (!shown() || !await look(spot)) break;
    if (performance.now() - drawn < OFTEN) continue;
    services.showJudged();
    drawn = performance.now();
  }
  if (shown()) services.showJudged();
}
/**
 * The number of only moves in a row at each dot.
 * @param {Draft} d
 * @param {number} man
 */
async function rows(d, man) {
  const {hero, goal} = readAim(d.aim), fen = draftFen(), spots = d.survey;
  const dots = (spots || []).filter(spot => spot.sign === 'dot');
  if (!dots.length || goal === 'mate' || hero !== sideOf(fen)) return;
  await forEach(d, spots, dots, async spot => {
    const moved = fenWith(fen, man, spot.to);
    await loadTables(moved);
    let row = await rowAt(services.facts, goal, moved);
    // a draw is exceeded where the hero wins: there the moves count that alone win
    if (!row && goal === 'draw') row = await rowAt(services.facts, 'win', moved);
    spot.row = row && row.count;
    return true;
  });
}

const requested = /** @type {WeakSet<Spot[]>} */ (new WeakSet());
/**
 * Whether the trees of a survey were requested.
 * @param {Spot[]} spots
 */
export const treesRequested = spots => requested.has(spots);
/**
 * Whether the set-up has a tree that could come along.
 * @param {Draft} d
 */
export const hasTree = d => !d.anew && app.view !== null && baseOf(app.view.root, d).children.length > 0;
/** What the tree of the study would be on each square of the survey, the dots first. */
export const lookAtTrees = () => track(trees()).catch(fault => {
  say('fen', `Not looked at: ${fault.message}.`);
  services.showJudged();
});
async function trees() {
  const d = app.setup, spots = d && d.survey, view = app.view;
  if (!d || !spots || !view || d.man === null || treesRequested(spots)) return;
  const man = d.man, fen = draftFen(), tree = treeFor(view.root, d);
  const first = (/** @type {Spot} */ spot) => Number(spot.sign !== 'dot');
  requested.add(spots);
  services.showJudged();
  await forEach(d, spots, [...spots].sort((x, y) => first(x) - first(y)), async spot => {
    await loadTables(fen);
    spot.there = await treeAt(services.facts, fenWith(fen, man, spot.to), d.aim, tree);
    return true;
  });
}
