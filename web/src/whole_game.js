// @ts-check
// The lines of a script that a game of a file has: those of its study, or of a game with more than four men, which has
// a study for each of its parts, those of all with the game itself.
import {stipulatedBy} from './imported.js';
import {isCutLine, withoutCut} from './left_out.js';
import {remarksOfKind} from './remarks.js';
import {partHere, wholeGames} from './tails.js';
/** @typedef {import('./types.js').Study} Study */

/**
 * Whether a line says that a game was not read to its end.
 * @param {string} line
 * @param {number} game
 */
const isNotRead = (line, game) => remarksOfKind([line], 'not-read').some(remark => remark.game === game);
/**
 * The lines of a study; of a part of a game those of the whole game, as far as its parts stand together.
 * @param {{lines: string[], studies: Study[]}} script
 * @param {Study} s
 */
export function wholeOf({lines, studies}, s) {
  const tail = partHere(s.origin),
        isBeside = (/** @type {Study | undefined} */ other) =>
          Boolean(tail && other && partHere(other.origin)?.game === tail.game);
  let first = studies.indexOf(s), last = first, head = s.head;
  while (isBeside(studies[first - 1])) first--;
  while (isBeside(studies[last + 1])) last++;
  if (tail) head = studies[first].head;
  while (tail && head > 0 && (lines[head - 1] === '' || lines[head - 1].startsWith('#')) &&
    !lines[head].startsWith('#! game '))
    head--;
  while (tail && head > 0 && isNotRead(lines[head - 1], tail.game)) head--;
  return {first, head, end: studies[last].end};
}
/**
 * Where the game of a study stands in its file, and with which number.
 * @param {string[]} lines
 * @param {Study} s
 */
export function placeOf(lines, {origin}) {
  const tail = partHere(origin), whole = tail && wholeGames(lines).get(tail.game);
  const found = (whole ? whole.remarks : []).map(stipulatedBy).find(Boolean);
  return {game: origin.game, line: found ? found.line : origin.line};
}
/**
 * The lines of a script whose study ends where its game was read to.
 * @param {string[]} lines
 * @param {Study} s
 */
export function endedHere(lines, s) {
  const gap = lines[s.end - 1] === '' ? 1 : 0, tail = partHere(s.origin),
        before = lines.slice(0, s.head).filter(line => !tail || !isNotRead(line, tail.game));
  return [
    ...before, ...withoutCut(lines.slice(s.head, s.from)),
    ...lines.slice(s.from, s.end - gap).filter(line => !isCutLine(line)), ...(s.end < lines.length ? [''] : []),
    ...lines.slice(s.end)
  ];
}
