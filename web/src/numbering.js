// @ts-check
// The numbers of entries: one for each, in the list, the menu, above the study, in the saved report and on the sheet.
import {mostGames, stipulatedBy} from './imported.js';
import {leftOutBy} from './left_out.js';
import {partHere, tailIn} from './tails.js';
/** @typedef {import('./types.js').Study} Study */

/**
 * The number of each study: that of its game in the PGN that was opened, `3.2` for its second tail, and further ones
 * for those that were added.
 * In a script by hand the number of its game in the saved PGN and of its page in the report: `3`; `3\u20134` of a study
 * with two games, and nothing without a stipulation.
 * @param {{lines: string[], studies: Study[]}} doc
 */
export function numbersOf({lines, studies}) {
  const known = numbered.get(studies), numbers = known || numbersIn(lines, studies);
  if (!known) numbered.set(studies, numbers);
  return numbers;
}
const numbered = /** @type {WeakMap<Study[], string[]>} */ (new WeakMap());
/**
 * @param {string[]} lines
 * @param {Study[]} studies
 */
function numbersIn(lines, studies) {
  let last = mostGames(lines);
  return studies.map(({aim, games, origin}) => {
    const part = partHere(origin);
    if (origin && origin.game) return `${origin.game}${part ? `.${part.number}` : ''}`;
    const first = last + 1, many = aim ? Math.max(games.length, 1) : 0;
    last += many;
    return many > 1 ? `${first}\u2013${last}` : many ? `${last}` : '';
  });
}
/**
 * The game that a remark begins, or whose part it is.
 * @param {string} line
 */
function gameIn(line) {
  const tail = line.includes(' tail ') ? partHere({tail: tailIn(line)}) : null, out = leftOutBy(line);
  if (tail) return {game: tail.game, begins: false};
  const {game} = out || stipulatedBy(line) || {game: 0};
  return {game, begins: game > 0};
}
/**
 * A remark with another number of its game.
 * @param {string} line
 * @param {number} game
 */
const withGame = (line, game) =>
  line.replace(/^(#! game )\d+/, `$1${game}`).replace(/^(#! tail .* of game )\d+/, `$1${game}`);
/**
 * The lines of an import, in which each game has the number that it was saved with.
 * @param {string[]} lines
 * @param {number[]} numbers      of the games, by their places in the file; none if these are their numbers
 */
export const inNumbers = (lines, numbers) => (!numbers.length ? lines : lines.map(line => {
  const {game} = line.startsWith('#!') ? gameIn(line) : {game: 0};
  return game && numbers[game - 1] ? withGame(line, numbers[game - 1]) : line;
}));
/**
 * The lines of scripts that were joined: each game that has the number of an earlier one, and those behind it, have
 * numbers that go on behind the earlier ones.
 * @param {string[]} lines
 */
export function numberedApart(lines) {
  let by = 0, most = 0, seen = /** @type {Set<number>} */ (new Set());
  const anew = lines.map(line => {
    if (!line.startsWith('#!')) return line;
    const {game, begins} = gameIn(line);
    if (begins && seen.has(game)) [by, seen] = [most, new Set()];
    if (begins) seen.add(game);
    most = Math.max(most, game + by);
    return game && by ? withGame(line, game + by) : line;
  });
  return by ? anew : lines;
}
/**
 * The new number of each game that has one in lines with other numbers.
 * @param {string[]} lines
 * @param {string[]} anew
 */
export const movedGames = (lines, anew) =>
  new Map(lines.flatMap((line, i) => (line === anew[i] ? [] : [[gameIn(line).game, gameIn(anew[i]).game]])));
/**
 * The numbers of a study with several games, one for each.
 * @param {string} number
 * @param {number} many
 */
function eachOf(number, many) {
  const [first, last] = number.split('\u2013').map(Number);
  return Array.from({length: many}, (_, i) => (last ? `${first + i}` : number));
}
/**
 * The number of each entry of the report, which has studies and games that were left out, one after the other.
 * @param {{lines: string[], studies: Study[]}} doc
 */
export function reportNumbers({lines, studies}) {
  const numbers = numbersOf({lines, studies}), all = /** @type {string[]} */ ([]);
  let at = 0;
  const leftOutTo = (/** @type {number} */ end) => {
    for (; at < end; at++) {
      const game = leftOutBy(lines[at]);
      if (game) all.push(`${game.game}`);
    }
  };
  studies.forEach(({from, aim, games}, i) => {
    leftOutTo(from);
    if (aim) all.push(...eachOf(numbers[i], Math.max(games.length, 1)));
  });
  leftOutTo(lines.length);
  return all;
}
/**
 * The report with these numbers above its pages and in its list, where it has counted its entries.
 * @param {string} page
 * @param {string[]} numbers
 */
export function withNumbers(page, numbers) {
  const number = (/** @type {string} */ n) => numbers[Number(n) - 1] || n, cut = page.indexOf('<article class="sum">'),
        end = cut < 0 ? page.length : cut,
        pages = page.slice(0, end).replace(
          /(<article id="e\d+"><p class="note">No\. )(\d+)(?=<)/g, (_, before, n) => before + number(n));
  return pages + page.slice(end).replace(/<tr><td>(\d+)(?=<\/td>)/g, (_, n) => `<tr><td>${number(n)}`);
}
/**
 * Where a study comes to stand among those of a script so that its row is this one of the list, from 1 on; the rows of
 * games that were left out count too.
 * @param {{at: number}[]} rows      in the order of the script
 * @param {number} at      the study
 * @param {number} row
 */
export function placeAtRow(rows, at, row) {
  const here = rows.findIndex(entry => entry.at === at), end = row - 1 > here ? row : row - 1;
  return rows.slice(0, Math.max(end, 0)).filter(entry => entry.at >= 0 && entry.at !== at).length;
}
