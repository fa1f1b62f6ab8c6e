// @ts-check
// A game with more than four men in a script: its lines `#> ` are the whole game, and each part that begins with at
// most four men, a tail, is a study below a heading.
import {numbered} from './fault_kinds.js';
import {lettersOf} from './fen.js';
import {once} from './once.js';
import {ownRemark, remarkOf} from './remarks.js';
import {numberedLine} from './words.js';
/**
 * A tail: its number in the game, the node at which it begins and the move that leads there, and whether the solution
 * leads elsewhere. `alone`: it is a study by itself here, and its number is that of its game in another file.
 * @typedef {{game: number, number: number, node: string, after: string, beside: boolean, alone: boolean}} Tail
 */
/**
 * A whole game: the remarks above it, its start, its tags, and its lines.
 * @typedef {{remarks: string[], fen: string, tags: Record<string, string>, lines: string[]}} Whole
 */
const TAIL = /^(\d+) of \d+ of game (\d+), node ([^,]*), after ([^,]*)(, beside the solution)?/,
      ALONE = /^1 of 1 by itself: tail (\d+) of game (\d+)()(?:, after ([^,]*))?(, beside the solution)?/;
/**
 * The tail that a heading names; none for another line.
 * @param {string} line
 * @returns {Tail | null}
 */
export function tailIn(line) {
  if (!line.includes(' tail ')) return null;
  const {word, rest} = ownRemark(line), apart = word === 'tail' && ALONE.exec(rest),
               found = apart || (word === 'tail' && TAIL.exec(rest));
  if (!found) return null;
  const [, number, game, node, after = '', beside] = found;
  return {number: Number(number), game: Number(game), node, after, beside: Boolean(beside), alone: Boolean(apart)};
}
/**
 * The heading of a tail that stands without its game: in another document, as a copy, in a saved PGN. The report reads
 * from it whether it is a try.
 * @param {Tail} tail
 */
export const headingAlone = ({number, game, after, beside}) => `#! tail 1 of 1 by itself: tail ${number} of game ${
  game}${after && `, after ${after}`}${beside ? ', beside the solution' : ''}`;
/**
 * The moves that lead to a node of the whole game, by its lines.
 * @param {string[]} lines
 * @param {string} node
 */
export function wayTo(lines, node) {
  const moves = /** @type {Map<string, string>} */ (new Map()),
        children = /** @type {Map<string, number>} */ (new Map());
  for (const line of lines) {
    const [, path, san] = /^#> insert (\S+) (\S+)/.exec(line) || [];
    if (!path) continue;
    const place = children.get(path) || 0;
    children.set(path, place + 1);
    moves.set(path === 'root' ? `${place}` : `${path}.${place}`, san);
  }
  const places = node === 'root' ? [] : node.split('.');
  return places.map((_, i) => moves.get(places.slice(0, i + 1).join('.')) || '');
}
/**
 * The games of a script that stand there whole, by their numbers.
 * @type {(lines: string[]) => Map<number, Whole>}
 */
export const wholeGames = once(lines => {
  const games = /** @type {Map<number, Whole>} */ (new Map());
  let now = /** @type {Whole | null} */ (null), number = 0;
  for (const line of lines) {
    const remark = line.startsWith('#! game ') ? remarkOf(line) : null;
    if (remark && remark.game) [now, number] = [{remarks: [], fen: '', tags: {}, lines: []}, remark.game];
    else if (!line.startsWith('#')) now = null;
    if (!now) continue;
    if (line.startsWith('#> ')) addLine(now, line);
    else now.remarks.push(line);
    if (now.lines.length === 1) games.set(number, now);
  }
  return games;
});
const TAIL_GONE = /^#! tail \d+ of \d+ of game (\d+), .*: left out: (.*)$/;
/**
 * The games with more than four men that have no part which became a study: the line of the script that says why, and
 * where the game begins in the file.
 * @param {string[]} lines
 * @returns {(import('./left_out.js').LeftOut & {at: number})[]}
 */
export const gamesWithoutPart = once((/** @type {string[]} */ lines) => {
  const found = /** @type {Map<number, any>} */ (new Map());
  let line = 0, now = 0;
  lines.forEach((text, at) => {
    const remark = text.startsWith('#! game ') ? remarkOf(text) : null,
          [, game = '', why = ''] = TAIL_GONE.exec(text) || [];
    if (remark && remark.game) [line, now] = [remark.line, remark.game];
    if (game && !found.has(Number(game)))
      found.set(Number(game), {game: Number(game), line, column: 0, author: '', why, text: '', at});
    if (text.startsWith('position ') && now) found.set(now, null);
  });
  return [...found.values()].filter(Boolean);
});
/**
 * @param {Whole} game
 * @param {string} line
 */
function addLine(game, line) {
  const [, command, rest] = /^#> (\S+) (.*)$/.exec(line) || [], [, name, text] = /^(\S+) (.*)$/.exec(rest || '') || [];
  game.lines.push(line);
  if (command === 'position') game.fen = rest;
  else if (command === 'tag') game.tags[name] = text;
}
/** @typedef {{origin: import('./imported.js').Origin}} Part */
/**
 * The tail that a study is, where its game stands in the same script.
 * @param {{tail: Tail | null} | undefined} origin
 */
export const partHere = origin => (origin && origin.tail && !origin.tail.alone ? origin.tail : null);
/**
 * The moves that lead to a part, and the start of its game; none where the script has not the whole game.
 * @param {string[]} lines
 * @param {Part} part
 */
function wayOf(lines, {origin}) {
  const tail = partHere(origin), game = tail && wholeGames(lines).get(tail.game);
  return {fen: game ? game.fen : '', sans: tail && game ? wayTo(game.lines, tail.node) : []};
}
/**
 * The move at a place of a line, with its number.
 * @param {{fen: string, sans: string[]}} way
 * @param {number} at
 */
const moveAt = ({fen, sans}, at) => numbered(fen, sans.slice(0, at + 1).map(() => '0').join('.'), sans[at]);
/**
 * How many moves two lines begin with alike.
 * @param {string[]} one
 * @param {string[]} two
 */
function alike(one, two) {
  const at = one.findIndex((san, i) => san !== two[i]);
  return at < 0 ? one.length : at;
}
/**
 * The move after which a part begins; where another part of its game begins after a move of the same name, with those
 * before it that only the one line has.
 * @param {string[]} lines
 * @param {Part[]} parts      all of the script
 * @returns {Map<Part, string>}
 */
export function namesOfTails(lines, parts) {
  const names = /** @type {Map<Part, string>} */ (new Map()), groups = /** @type {Map<string, Part[]>} */ (new Map());
  for (const part of parts) {
    const {tail} = part.origin || {}, key = tail ? `${tail.alone} ${tail.game} ${tail.after}` : '';
    if (tail) groups.set(key, [...(groups.get(key) || []), part]);
  }
  for (const group of groups.values()) {
    const ways = group.map(part => wayOf(lines, part));
    group.forEach((part, i) => {
      const way = ways[i], apart = ways.filter(other => other !== way).map(({sans}) => alike(way.sans, sans));
      const places = [...new Set(apart)].filter(at => at + 1 < way.sans.length).sort((x, y) => x - y);
      const after = part.origin.tail ? part.origin.tail.after : '';
      names.set(part, [...places.map(at => moveAt(way, at)), after].join(' .. '));
    });
  }
  return names;
}
const BESIDE = ', beside the solution: a try, which should fail',
      NAME = new RegExp(`^Tail (\\d+) of game (\\d+)(?:, after (\\d+\\.(?:\\.\\.)? [^\\s,.]+))?(${BESIDE})?(?:\\. |$)`);
/**
 * Which part of its game a study is; nothing for a whole one.
 * @param {Part} part
 */
export function tailName({origin}) {
  const {tail} = origin || {};
  if (!tail) return '';
  const beside = tail.beside ? BESIDE : '';
  return `Tail ${tail.number} of game ${tail.game}${tail.after && `, after ${tail.after}`}${beside}`;
}
/**
 * A comment that begins with such a name, as a saved PGN has it: the heading, and what else is said.
 * @param {string} comment
 */
export function nameIn(comment) {
  const [name, number, game, after = '', beside] = NAME.exec(comment) || [];
  if (name === undefined) return {heading: '', rest: comment};
  const tail = {number: Number(number), game: Number(game), node: '', after, beside: Boolean(beside), alone: true};
  return {heading: headingAlone(tail), rest: comment.slice(name.length)};
}
/**
 * Why the moves before a part of a game are not judged.
 * @param {string} fen      of the game's start, if the script has it
 */
function whyUnjudged(fen) {
  const MEN = 'more than four men', CASTLING = 'a right to castle';
  if (/^(-|)$/.test(fen.split(' ')[2] || '')) return MEN;
  return lettersOf(fen).length > 4 ? `${MEN} or ${CASTLING}` : CASTLING;
}
/**
 * The same by the lines of its script.
 * @param {string[]} lines
 * @param {Part} part
 */
export const unjudgedFor = (lines, part) => whyUnjudged(wayOf(lines, part).fen);
/**
 * Which part of its game a study is, where that has more than four men or a right to castle, and what of the game is
 * not judged.
 * @param {string[]} lines
 * @param {Part} part
 */
export function tailText(lines, part) {
  const name = tailName(part), {tail} = part.origin || {}, {fen, sans} = wayOf(lines, part);
  if (!tail) return '';
  const way = sans.length && !sans.includes('') ? `: ${numberedLine(fen, sans)}` : '',
        rest = ` Judged from there on; the moves before, with ${whyUnjudged(fen)}, are not judged${way}.`;
  return `${name}.${tail.after && rest}`;
}
