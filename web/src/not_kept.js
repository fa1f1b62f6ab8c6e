// @ts-check
// What of a PGN is in no form in the script that is made of it: moves, words and signs that the program counts.
import {cutAt, ownRemark, remarkOf, remarksOfKind} from './remarks.js';
import {counted} from './words.js';

/** What the program counts that no remark keeps, by its name. */
const GONE = /** @type {Record<string, [string, string]>} */ ({
  repeated: ['repeated move', 'repeated moves'],
  'null moves': ['null move', 'null moves'],
  'moves behind': ['move behind a null move', 'moves behind null moves'],
  words: ['word among the moves', 'words among the moves'],
  'wrong signs': ['wrong sign of check or mate', 'wrong signs of check or mate']
});
/**
 * A count of a remark, as `null moves 2`.
 * @param {string} count
 */
function countIn(count) {
  const at = count.lastIndexOf(' ');
  return {name: count.slice(0, at), n: Number(count.slice(at))};
}
/**
 * The remark that counts what is not taken over, without comments, NAGs and tags, which the page keeps as remarks; none
 * where nothing else is counted.
 * @param {string} line
 */
export function stillGone(line) {
  const [remark] = remarksOfKind([line], 'not-taken-over');
  if (!remark) return [line];
  const gone = remark.said.split(', ').filter(count => GONE[countIn(count).name]);
  return gone.length ? [`#! not taken over: ${gone.join(', ')}`] : [];
}
/** @param {{word: string, rest: string}} remark */
const isAtNullMove = ({word, rest}) => word === 'note' && cutAt(rest, ': ')[0].split(' ').includes('--');
/**
 * Of few games their numbers: ` (games 3, 7)`.
 * @param {number[]} games
 */
const inGames = games =>
  (games.length > 5 || games.includes(0) ? '' : ` (game${games.length > 1 ? 's' : ''} ${games.join(', ')})`);
/**
 * What is gone of the games of an import, with how often and in which games.
 * @param {string[]} lines
 */
function goneOf(lines) {
  const sums = /** @type {Map<string, {sum: number, games: Set<number>}>} */ (new Map());
  let game = 0;
  for (const remark of lines.map(line => (line.startsWith('#! ') ? remarkOf(line) : null))) {
    if (remark && remark.game) game = remark.game;
    if (!remark || remark.kind !== 'not-taken-over') continue;
    for (const {name, n} of remark.said.split(', ').map(countIn)) {
      const {sum, games} = sums.get(name) || {sum: 0, games: new Set()};
      if (GONE[name]) sums.set(name, {sum: sum + n, games: games.add(game)});
    }
  }
  return [...sums];
}
/**
 * What of a PGN is not in the script, in no form: its comments, NAGs and other tags are kept as remarks.
 * @param {string[]} lines
 */
export function notKept(lines) {
  const atNull = lines.filter(line => line.startsWith('#! note ')).map(ownRemark).filter(isAtNullMove).length,
        behind = remarksOfKind(lines, 'behind-result').length,
        list = goneOf(lines).map(([name, {sum, games}]) => counted(sum, ...GONE[name]) + inGames([...games]));
  if (atNull) list.push(counted(atNull, 'comment or NAG there', 'comments and NAGs there'));
  if (behind) list.push(behind === 1 ? 'text behind a result' : `text behind ${behind} results`);
  return list.length ? `Not kept of this PGN: ${list.join(', ')}.` : '';
}
