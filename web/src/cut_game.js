// @ts-check
// A game of a PGN with a bad move, which the program reads up to there: its text is kept in remarks, cut at the place
// that the program reports, and a line that is refused stands for the bad move.
import {lettersOf} from './fen.js';
import {NO_POSITION, canBeCut, leftOutBy, whyLeftOut} from './left_out.js';
import {ownRemark, remarkOf} from './remarks.js';
import {RESULT, TOKEN, isMoveText, plain} from './notes.js';
import {aimSaid} from './said_aim.js';
import {tailIn, wayTo} from './tails.js';
/**
 * The text of a game before the bad move, and from there on.
 * @typedef {{text: string, rest: string}} CutText
 */

const PART = /[^]{1,280}/gu;
/**
 * Lines of a text as remarks, `#! text: LINE` for those before the bad move and `#! rest: LINE` for those behind it;
 * `+` for what is more of the line before.
 * @param {CutText} game
 */
export function textRemarks({text, rest}) {
  const remarks = (/** @type {string} */ name, /** @type {string} */ line) =>
    (line.match(PART) || ['']).map((part, i) => `#! ${name}${i ? '+' : ''}: ${part}`);
  const [more, ...behind] = rest.split('\n').map(line => remarks('rest', line));
  return [
    ...text.split('\n').flatMap(line => remarks('text', line)), more[0].replace(':', '+:'), ...more.slice(1),
    ...behind.flat()
  ];
}
const PARTS = /** @type {Record<string, {of: keyof CutText, more: boolean}>} */ ({
  'text:': {of: 'text', more: false},
  'text+:': {of: 'text', more: true},
  'rest:': {of: 'rest', more: false},
  'rest+:': {of: 'rest', more: true}
});
/**
 * The text that remarks keep.
 * @param {string[]} remarks
 * @returns {CutText | null}
 */
export function textIn(remarks) {
  const found = {text: '', rest: ''};
  let begun = false;
  for (const {word, rest} of remarks.map(ownRemark)) {
    const part = PARTS[word];
    if (part) found[part.of] += (part.more || !begun ? '' : '\n') + rest;
    begun = begun || Boolean(part);
  }
  return begun ? found : null;
}
/**
 * Whether a game states where it begins; if it does not, it begins from the initial position.
 * @param {{text: string}} game
 */
export const hasPosition = ({text}) => /^\s*\[FEN\s/m.test(text);
/**
 * Why a game was left out, in words, with what its text says of it.
 * @param {import('./left_out.js').LeftOut} game
 * @param {CutText | null} text
 */
export function whyGone(game, text) {
  const aim = text && game.why === 'NoStipulation' ? aimSaid(text) : '';
  if (aim) return `a comment says ${aim}, but the game does not begin with it: write {${aim}} before the first move`;
  return text && canBeCut(game) && !hasPosition(text) ? NO_POSITION : whyLeftOut(game);
}
const NUMBER = /\d+\s*(?:\.+|\u2026)/;
/**
 * The last number before the end of a text and how many moves stand behind it there, in the same brackets.
 * @param {string} movetext
 */
function endOfMoves(movetext) {
  const outer = /** @type {{number: string, since: number}[]} */ ([]);
  let here = {number: '', since: 0};
  for (const [, , , , bracket, , symbol = ''] of movetext.matchAll(TOKEN)) {
    if (bracket === '(') {
      outer.push(here);
      here = {number: '', since: 0};
    } else if (bracket === ')') here = outer.pop() || here;
    const number = /^\d+(?:\.+|\u2026)/.exec(symbol);
    if (number) here = {number: number[0], since: 0};
    if (symbol && !RESULT.test(symbol) && isMoveText(symbol)) here = {...here, since: here.since + 1};
  }
  return here;
}
/**
 * The number of the move that follows a number and moves, as far as these say it.
 * @param {string} number
 * @param {number} since
 */
function nextNumber(number, since) {
  const n = parseInt(number), black = /\.\.|\u2026/.test(number), plies = since + (black ? 1 : 0);
  return number && since && since < 3 ? (plies % 2 ? `${n + (plies - 1) / 2}...` : `${n + plies / 2}.`) : '..';
}
/** Where the moves of a game begin: behind its tags and the comments between them. */
const HEADER = /^(?:\s|\{[^}]*\}|[;%][^\n]*(?:\n|$)|\[[ \t]*[A-Za-z]\w*[ \t]*"(?:\\.|[^\\\n])*?"[ \t]*\])*/;
/**
 * The bad move with its number.
 * @param {CutText} game
 */
export function badMove({text, rest}) {
  const open = text.lastIndexOf('{') > text.lastIndexOf('}') ? text.lastIndexOf('{') : text.length,
        [tail] = /** @type {RegExpExecArray} */ (/(?:\s|\(|\d+\s*(?:\.+|\u2026))*$/.exec(text.slice(0, open))),
        read = text.slice(0, open - tail.length),
        end = endOfMoves(read.slice(/** @type {RegExpExecArray} */ (HEADER.exec(read))[0].length));
  const [, own = '', token = ''] = /^\s*(\d+\s*(?:\.+|\u2026)\s*)?(\{?[^\s(){};$!?]+|[^]?)/.exec(rest) || [];
  const number = own.trim() || (NUMBER.exec(tail) || [''])[0] || nextNumber(end.number, end.since);
  return `${number} ${token}`.slice(0, 40);
}
/**
 * The moves that lead to the end of a text of moves, with those before them that it stands in brackets behind.
 * @param {string} text
 */
function movesBefore(text) {
  const outer = /** @type {string[][]} */ ([]), [header] = /** @type {RegExpExecArray} */ (HEADER.exec(text));
  let way = /** @type {string[]} */ ([]);
  for (const [, , , , bracket, , symbol = ''] of text.slice(header.length).matchAll(TOKEN)) {
    if (bracket === '(') {
      outer.push(way);
      way = way.slice(0, -1);
    } else if (bracket === ')') way = outer.pop() || way;
    if (symbol && !RESULT.test(symbol) && isMoveText(symbol)) way = [...way, plain(symbol)];
  }
  return way;
}
/**
 * Where the position of the part stands that the bad move is in, among the lines of a game: the part whose way leads
 * furthest towards the move; else the first one.
 * @param {string[]} block
 * @param {CutText} cut
 */
function cutPart(block, {text}) {
  const moves = movesBefore(text);
  let found = {at: block.findIndex(line => line.startsWith('position ')), length: -1},
      way = /** @type {string[]} */ ([]);
  block.forEach((line, at) => {
    const tail = tailIn(line);
    if (tail) way = wayTo(block, tail.node).map(plain);
    const isOn = way.length <= moves.length && way.every((san, i) => san === moves[i]);
    if (line.startsWith('position ') && isOn && way.length > found.length) found = {at, length: way.length};
  });
  return found.at;
}
/**
 * The lines of a study that is a game up to a bad move. A line that no program accepts, since it has a word too many,
 * stands for the bad move.
 * @param {string[]} block      the lines of the part that was read
 * @param {import('./left_out.js').LeftOut} game
 * @param {CutText} cut
 */
export function cutBlock(block, game, cut) {
  const move = badMove(cut), at = cutPart(block, cut), end = block.indexOf('pgn', at),
        place = `line ${game.line}, column ${game.column}`;
  return [
    ...block.slice(0, at), `#! up to ${move}, ${place}: ${game.why}${game.text && ` at ${game.text}`}`,
    ...textRemarks(cut), ...block.slice(at, end), `insert root ${move}`, ...block.slice(end)
  ];
}
/**
 * A left-out game in the lines of a script: its remark, the text that was kept of it, and the line behind its remarks.
 * @param {string[]} lines
 * @param {number} line
 */
export function leftOutText(lines, line) {
  const isOf = (/** @type {string} */ text) => ownRemark(text).word === 'its' || Boolean(PARTS[ownRemark(text).word]);
  let end = line + 1;
  while (end < lines.length && isOf(lines[end])) end++;
  return {game: leftOutBy(lines[line] || ''), cut: textIn(lines.slice(line + 1, end)), end};
}
/**
 * How few men some line has before the end of a text, by the signs of its captures.
 * @param {CutText} cut
 */
function fewestMen({text}) {
  const [, fen = ''] = /^\s*\[FEN\s*"([^"]*)/m.exec(text) || [],
                 [header] = /** @type {RegExpExecArray} */ (HEADER.exec(text)),
                 outer = /** @type {[number, number][]} */ ([]);
  let men = lettersOf(fen).length, before = men, fewest = men;
  for (const [, , , , bracket, , symbol = ''] of text.slice(header.length).matchAll(TOKEN)) {
    if (bracket === '(') {
      outer.push([men, before]);
      men = before;
    } else if (bracket === ')') [men, before] = outer.pop() || [men, before];
    if (symbol && isMoveText(symbol)) [before, men] = [men, men - (/[x:]/.test(symbol) ? 1 : 0)];
    fewest = Math.min(fewest, men);
  }
  return fewest;
}
/**
 * What can be done with a game that was left out: it is opened up to its bad move, or its text is mended, where no part
 * begins with four men before the move. Nothing, where its text is not kept.
 * @param {string[]} lines
 * @param {number} line
 * @returns {'' | 'open' | 'mend'}
 */
export function remedyOf(lines, line) {
  const {game, cut} = leftOutText(lines, line);
  return !game || !cut ? '' : canBeCut(game) && hasPosition(cut) && fewestMen(cut) <= 4 ? 'open' : 'mend';
}
/**
 * The text of a game in a file, cut at what is wrong with it.
 * @param {string} text
 * @param {number} line      of the file, where the game begins
 * @param {import('./left_out.js').LeftOut} game
 * @param {(bytes: number) => number} lettersIn      how many letters the first bytes of its line are
 * @returns {CutText}
 */
export function cutOf(text, line, game, lettersIn) {
  const rows = text.replace(/\n+$/, '').split('\n'), row = game.line - line, at = lettersIn(game.column - 1),
        before = [...rows.slice(0, row), (rows[row] || '').slice(0, at)];
  return {text: before.join('\n'), rest: [(rows[row] || '').slice(at), ...rows.slice(row + 1)].join('\n')};
}
/**
 * The lines of an import of one game as those of a game of a file, which begins at a line of it.
 * @param {string[]} block
 * @param {number} game
 * @param {number} line
 */
export const asGame = (block, game, line) => block.map(text => {
  const remark = remarkOf(text),
        place = (/** @type {number} */ game, /** @type {number} */ at) => `game ${game}, line ${at}`;
  if (tailIn(text)) return text.replace(' of game 1,', ` of game ${game},`);
  return remark && remark.game === 1 ? text.replace(place(1, remark.line), place(game, remark.line + line - 1)) : text;
});
