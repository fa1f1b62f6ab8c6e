// @ts-check
// Files in letters of an older code: which games have names in it, and how these read in each code page of Windows.
import {decode} from './imported.js';

/** The code pages that can be chosen, by the names that browsers have for them. */
export const CODE_PAGES = /** @type {[string, string][]} */ (
  [['windows-1250', 'Central European, 1250'], ['windows-1251', 'Cyrillic, 1251'], ['windows-1252', 'Western, 1252']]);
/**
 * A game whose tags have letters that are no UTF-8, and the bytes of the first such text, of the tag White if it is
 * one; where no tag of a file has any, a game whose comments have, and the words there.
 * @typedef {{game: number, name: Uint8Array, inWords?: boolean}} Foreign
 */
/** @param {Uint8Array} line */
function isForeign(line) {
  if (!line.some(byte => byte > 127)) return false;
  try {
    new TextDecoder('utf-8', {fatal: true}).decode(line);
    return false;
  } catch { return true; }
}
const TAG = /^[ \t]*\[[ \t]*([A-Za-z]\w*)[ \t]*"/;
/**
 * The words of a line from a little before its first letter that is no ASCII.
 * @param {Uint8Array} line
 */
function wordsIn(line) {
  const first = line.findIndex(byte => byte > 127),
        from = Math.max(line.lastIndexOf(32, first), line.lastIndexOf(123, first)) + 1, end = line.indexOf(125, first);
  return line.subarray(from, Math.min(end < 0 ? line.length : end, first + 30));
}
/**
 * The games whose comments have letters that are no UTF-8.
 * @param {Uint8Array[]} lines
 * @param {number[]} starts
 * @returns {Foreign[]}
 */
function foreignWords(lines, starts) {
  const found = /** @type {Foreign[]} */ ([]);
  lines.forEach((line, at) => {
    const game = starts.filter(start => start <= at + 1).length, last = found[found.length - 1];
    if (game && (!last || last.game !== game) && isForeign(line))
      found.push({game, name: wordsIn(line), inWords: true});
  });
  return found;
}
/**
 * The games whose tags have letters that are no UTF-8; if there are none, those whose comments have.
 * @param {Uint8Array[]} lines
 * @param {number[]} starts      the line of each game, counted from 1
 */
export function foreignGames(lines, starts) {
  const found = /** @type {(Foreign & {tag: string})[]} */ ([]);
  lines.forEach((line, at) => {
    const m = isForeign(line) && TAG.exec(new TextDecoder('latin1').decode(line));
    if (!m) return;
    const game = starts.filter(start => start <= at + 1).length, last = found[found.length - 1],
          end = line.lastIndexOf(34), entry = {game, name: line.subarray(m[0].length, end), tag: m[1]};
    if (!last || last.game !== game) found.push(entry);
    else if (last.tag !== 'White' && entry.tag === 'White') found[found.length - 1] = entry;
  });
  return found.length ? found.map(({game, name}) => ({game, name})) : foreignWords(lines, starts);
}
/**
 * A file in UTF-8, if those of its lines that are none are of a code page.
 * @param {Uint8Array[]} lines
 * @param {string} code
 */
export function inUtf8(lines, code) {
  const decoder = new TextDecoder(code),
        text = lines.map(line => (isForeign(line) ? decoder.decode(line) : decode(line)));
  return new TextEncoder().encode(text.join('\n') + '\n');
}
/**
 * A text of a file as a code page has it; without one, as the page reads it.
 * @param {Uint8Array} text
 * @param {string} code
 */
export const textIn = (text, code) => (code ? new TextDecoder(code).decode(text) : decode(text));
/**
 * Which games have such names or comments, and as what these were read.
 * @param {Foreign[]} games
 * @param {string} code
 */
export function foreignText(games, code) {
  if (!games.length) return '';
  const MOST = 8, numbers = games.slice(0, MOST).map(({game}) => game).join(', '),
        more = games.length > MOST ? ` and ${games.length - MOST} more` : '',
        [, words] = CODE_PAGES.find(([name]) => name === code) || ['', 'Latin 1'];
  return `The ${games[0].inWords ? 'comments' : 'tags'} of game${games.length > 1 ? 's' : ''} ${numbers}${
           more} have letters that are no UTF-8, read as ` +
    `${words}: ${textIn(games[0].name, code)}.`;
}
