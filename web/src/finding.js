// @ts-check
// What the tables know: the positions of a class that have a theme, as they are wanted, found and opened.
import {sideOf} from './fen.js';
import {readValue} from './parse_answers.js';
import {counted, winner} from './words.js';
/** @typedef {import('./types.js').Value} Value */
/** @typedef {{fen: string, values: Value[], key: string}} Found      a zugzwang has two values, and no key move */
/**
 * @typedef {{at: number, of: number, found: Found[], many: number, ended: string}} Search
 *   how far it came, in numbers of the class; what was found, the first of how many
 */

/** Themes as the program names them, with what the list of them says; those that end with `N` take a number. */
export const THEMES = /** @type {[string, string][]} */ ([
  ['zugzwang', 'mutual zugzwangs'], ['win N', 'wins by N only moves in a row'],
  ['draw N', 'draws by N only moves in a row'], ['underpromotion', 'only an underpromotion works'],
  ['into win', 'wins by a move into a zugzwang'], ['into draw', 'draws by a move into a zugzwang'],
  ['try win', 'wins with a try into a zugzwang'], ['try draw', 'draws with a try into a zugzwang'],
  ['longest white', 'longest wins of White'], ['longest black', 'longest wins of Black']
]);
/** What the row of only moves is asked to have, as the program names it, with what the list of these says. */
export const FEATURES = /** @type {[string, string][]} */ ([
  ['', 'any row of only moves'], ['row-underpromotion', 'a row with an underpromotion'],
  ['row-offer', 'a row in which a man is offered'], ['row-zugzwang', 'a row with a zugzwang'],
  ['row-stalemate', 'a row that ends in stalemate']
]);
/**
 * Whether the words of a search ask what a row has, so that the whole row is shown.
 * @param {string} words
 */
export const isOfRows = words => / row-/.test(words);
/**
 * A position a line: its FEN, its value or values, and the one move that holds.
 * @param {string} line
 * @returns {Found}
 */
export function readFound(line) {
  const words = line.split(' '), values = /** @type {Value[]} */ ([]);
  let at = 6;
  while (/^(win|loss|draw)$/.test(words[at])) {
    const [value, next] = readValue(words, at);
    values.push(value);
    at = next;
  }
  return {fen: words.slice(0, 6).join(' '), values, key: words[at] || ''};
}
/**
 * The men of a class set up at random, many times: some are positions, whose tables are those of the class.
 * @param {string} name
 */
export function placements(name, many = 80) {
  let seed = 7;
  const dice = (/** @type {number} */ n) => {
    seed = (seed * 48271) % 2147483647;
    return seed % n;
  };
  const men = [...name.replace(/K([A-Z]*)K([A-Z]*)/, (_, white, black) => `K${white}k${black.toLowerCase()}`)];
  return [...Array(many).keys()].map(() => {
    const board = /** @type {string[]} */ (Array(64).fill('1'));
    for (const letter of men) {
      let at = 0;
      do at = dice(64);
      while (board[at] !== '1');
      board[at] = letter;
    }
    const ranks = [0, 1, 2, 3, 4, 5, 6, 7].map(
      rank => board.slice(8 * rank, 8 * rank + 8).join('').replace(/1+/g, run => `${run.length}`));
    return `${ranks.join('/')} ${dice(2) ? 'w' : 'b'} - - 0 1`;
  });
}
/**
 * Why a search for squares finds nothing, if a man is sought that the class does not have.
 * @param {string} name
 * @param {string} filters
 */
export function manMissing(name, filters) {
  const [, white, black] = /^(K[A-Z]*)(K[A-Z]*)$/.exec(name) || ['', '', ''], men = white + black.toLowerCase();
  const strange = filters.split(' ').find(word => /^[KQRBNPkqrbnp][a-h][1-8]/.test(word) && !men.includes(word[0]));
  if (!strange) return '';
  const side = strange[0] === strange[0].toUpperCase() ? 'White' : 'Black';
  return `${name} has no ${strange[0].toUpperCase()} of ${side}, so ${strange} fits no position`;
}
/**
 * The position that a press on a find opens, and its value. A mutual zugzwang is listed with White to move; where that
 * is a draw it opens with Black to move, if somebody wins then.
 * @param {Found} found
 */
export function opened({fen, values: [white, black]}) {
  if (!black || white.kind !== 'draw' || black.kind === 'draw') return {fen, value: white};
  return {fen: fen.replace(' w ', ' b '), value: black};
}
/**
 * The result that the row of only moves keeps, if the theme or what is asked of a row says that it is shown.
 * @param {Found} found
 * @param {string} theme      with its number
 * @param {string} words      of the whole search
 */
export function rowSought({values: [value]}, theme, words) {
  const [, goal] = /^(win|draw) \d+$/.exec(theme) || [], kept = goal || (isOfRows(words) && value.kind);
  return kept === 'win' || kept === 'draw' ? kept : null;
}
/**
 * A position that was found as a study: with the whole row of only moves if they win or if the search asks what the row
 * has, with as many as the theme says if they draw, since such a row may have no end; without a row with its key.
 * @param {Found} found
 * @param {string} theme      with its number
 * @param {string} words      of the whole search
 * @param {string[]} row
 */
export function linesOf(found, theme, words, row) {
  const {fen, value} = opened(found), won = winner(sideOf(fen), value),
              hero = (won || (found.key ? sideOf(fen) : 'White')).toLowerCase(), [goal, n] = theme.split(' ');
  const moves = !row.length               ? [found.key].filter(Boolean)
    : goal === 'draw' && !isOfRows(words) ? row.slice(0, 2 * Number(n) - 1)
                                          : row,
        insert = (/** @type {string} */ san, /** @type {number} */ i) =>
          `insert ${i ? Array(i).fill('0').join('.') : 'root'} ${san}`;
  return [`position ${fen}`, `stipulate ${hero} ${won ? 'win' : 'draw'}`, ...moves.map(insert)];
}
/**
 * How a search with more positions than are listed is narrowed down, in words.
 * @param {string} theme      as THEMES has it
 * @param {number} moves      the number of only moves in a row, for a theme that takes one
 */
export function narrowing(theme, moves) {
  if (theme.startsWith('longest')) return '';
  return `; narrow it down by squares${theme.endsWith('N') && moves < 12 ? ', or by more only moves' : ''}`;
}
/**
 * How much of the class those are that a search has listed, in words; nothing, where they are all.
 * @param {Search} now
 */
export function partText({at, of, ended}) {
  if (ended === 'all') return '';
  return ended === 'enough' ? ' that are listed' : ` so far, ${of ? Math.floor(100 * at / of) : 0} % looked at`;
}
/**
 * How a search stands, in words.
 * @param {Search} now
 * @param {string} advice      what is said where not all are listed
 */
export function searchText({at, of, found, many, ended}, advice) {
  const whole = of > 0 && at >= of, first = `the first ${found.length} are listed${advice}`,
        end = {all: 'all there are', enough: whole ? `all there are, and ${first}` : first, stopped: 'stopped'}[ended];
  const share = whole || !of ? '' : `${Math.floor(100 * at / of)} %`, part = share && `; ${share} looked at`;
  // How many there were by then depends on the pace of the workers.
  if (ended === 'enough' && share)
    return `${many > found.length ? 'more than' : 'at least'} ${counted(found.length, 'position')} found; ` +
      `stopped after ${share}: ${first}.`;
  return `${counted(many, 'position')} found${part}: ${end ? `${end}.` : 'searching …'}`;
}
