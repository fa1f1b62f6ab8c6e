// @ts-check
// Studies of a script that begin with the same men: as they stand, mirrored, or with colours exchanged.
import {turnedFen} from './turning.js';

const FORMS = /** @type {[string, import('./turning.js').Turn[]][]} */ ([
  ['', []], ['mirrored', ['mirror']], ['colours exchanged', ['colours']],
  ['mirrored, colours exchanged', ['mirror', 'colours']]
]);
/** @param {string} fen */
const placed = fen => fen.split(' ').slice(0, 4).join(' ');
/**
 * A position in each of its forms, and the first of them by their letters.
 * @type {Map<string, {forms: string[], key: string}>}
 */
const known = new Map();
/** @param {string} fen */
function formsOf(fen) {
  const there = known.get(fen);
  if (there) return there;
  const forms = FORMS.map(([, turns]) => placed(turns.reduce((text, turn) => turnedFen(turn, text) || '', fen))),
        one = {forms, key: [...forms].sort()[0]};
  if (known.size > 20000) known.clear();
  known.set(fen, one);
  return one;
}
/**
 * The first of the others that are the same as a position, each with how it is so, and how many there are.
 * @typedef {{first: {at: number, how: string}[], count: number}} Same
 */
const FIRST = 3;
/**
 * For each position the others that are the same.
 * @param {string[]} fens
 * @returns {Same[]}
 */
export function samePositions(fens) {
  const groups = /** @type {Map<string, number[]>} */ (new Map());
  fens.forEach((fen, i) => {
    const {key} = formsOf(fen), group = groups.get(key);
    if (group) group.push(i);
    else groups.set(key, [i]);
  });
  return fens.map((fen, i) => {
    const group = groups.get(formsOf(fen).key) || [], others = group.slice(0, FIRST + 1).filter(at => at !== i);
    const how = (/** @type {number} */ at) => FORMS[formsOf(fens[at]).forms.indexOf(placed(fen))][0];
    return {first: others.slice(0, FIRST).map(at => ({at, how: how(at)})), count: group.length - 1};
  });
}
/**
 * A position of a main line, and the move after which it stands.
 * @typedef {{fen: string, move: string}} Stop
 */
/**
 * For each position the main lines of others that lead to it, each with the move after which it stands there.
 * @param {string[]} fens
 * @param {(Stop[] | null)[]} mainLines      of each study, as far as they are known
 * @returns {{first: {at: number, how: string, move: string}[], count: number}[]}
 */
export function positionsReached(fens, mainLines) {
  const starts = /** @type {Map<string, {start: number, how: string}[]>} */ (new Map()),
        found = fens.map(() => /** @type {{at: number, how: string, move: string}[]} */ ([]));
  fens.forEach((fen, start) => {
    const known = /** @type {Set<string>} */ (new Set());
    for (const [i, form] of formsOf(fen).forms.entries()) {
      if (known.has(form)) continue;
      known.add(form);
      const list = starts.get(form) || [];
      list.push({start, how: FORMS[i][0]});
      starts.set(form, list);
    }
  });
  for (const [at, line] of mainLines.entries())
    for (const {fen, move} of line || [])
      for (const {start, how} of starts.get(placed(fen)) || [])
        if (start !== at && !found[start].some(one => one.at === at)) found[start].push({at, how, move});
  return found.map(list => ({first: list.slice(0, FIRST), count: list.length}));
}
/**
 * Names of studies with what is said of each, the first three of many.
 * @param {{first: {at: number}[], count: number}} found
 * @param {string[]} numbers
 * @param {(one: any) => string} said
 */
function listed({first, count}, numbers, said) {
  const name = (/** @type {number} */ at) => (numbers[at] ? `No. ${numbers[at]}` : 'a study without a number'),
        more = count - first.length;
  return first.map(one => name(one.at) + said(one)).join(', ') + (more > 0 ? ` and ${more} more` : '');
}
/**
 * `same position as No. 2 (mirrored)`; of many the first three.
 * @param {Same} same
 * @param {string[]} numbers
 */
export const sameText = (same, numbers) =>
  (same.count ? `same position as ${listed(same, numbers, ({how}) => how && ` (${how})`)}` : '');
/**
 * `position of No. 5 after 2... Kd5 (mirrored)`; of many the first three.
 * @param {ReturnType<typeof positionsReached>[number]} reached
 * @param {string[]} numbers
 */
export const reachedText = (reached, numbers) =>
  (reached.count ? `position of ${listed(reached, numbers, ({how, move}) => ` after ${move}${how && ` (${how})`}`)}`
                 : '');
