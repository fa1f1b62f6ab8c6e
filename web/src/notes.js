// @ts-check
// What a PGN says beside its moves - comments, NAGs, its result, tags that a script has no place for - kept as remarks
// of the script, each at the moves that lead to it; saved_games.js writes it into the saved PGN again.
import {isKnown} from './edits.js';
import {cutAt, ownRemark} from './remarks.js';
import {withoutNumber} from './saved_numbers.js';
import {TAGS} from './script.js';
import {nameIn} from './tails.js';
/** @typedef {import('./types.js').Study} Study */

const OWN_TAGS = new Set([...TAGS, 'FEN', 'SetUp']), MOST = 900;
export const TOKEN = /\{([^}]*)\}|;([^\n]*)|(\$\d+)|([()])|([!?]{1,2})|([^\s(){};$!?]+)/g;
/** @param {string} text */
export const oneLine = text => text.replace(/\s+/g, ' ').trim();
/** @param {string} symbol */
export const plain = symbol =>
  symbol.replace(/^\d+\.+/, '').replace(/[+#]+$/, '').replace(/[x:=]/g, '').replace(/e\.?p\.?$/, '');
/** What only some notations say: where a man comes from, figurines, the dash of `Kh2-g3`. */
const NOTATIONS = /** @type {[RegExp, string][]} */ ([
  [/[♔♚]/, 'K'], [/[♕♛]/, 'Q'], [/[♖♜]/, 'R'], [/[♗♝]/, 'B'], [/[♘♞]/, 'N'], [/[♙♟P]/, ''],
  [/^([KQRBN]?)[a-h]?[1-8]?[-–]?([a-h][1-8])/, '$1$2']
]);
/** @param {string} san */
export const looseMove = san => NOTATIONS.reduce((text, [from, to]) => text.replace(from, to), san);
export const RESULT =
  /^(1[-\u2010-\u2013\u2212]0|0[-\u2010-\u2013\u2212]1|(1\/2|\u00bd)([-\u2010-\u2013\u2212]\2)?|\*)$/;
/**
 * A result as PGN writes it.
 * @param {string} symbol
 */
const wholeResult = symbol =>
  (/^(1\/2|\u00bd)/.test(symbol) ? '1/2-1/2' : symbol.replace(/[\u2010-\u2013\u2212]/, '-'));
const SIGNS = /** @type {Record<string, string>} */ (
        {'!': '$1', '?': '$2', '!!': '$3', '??': '$4', '!?': '$5', '?!': '$6', '=': '$10', '+-': '$18', '-+': '$19'}),
      NULL_MOVE = /^(--|Z0|null|pass|[\u2013\u2014])$/;
/**
 * Where a token stands: behind a move, as it is written, which stands behind others; `null` at the start.
 * @typedef {{symbol: string, after: Place} | null} Place
 */
/**
 * The moves from the start that lead to a place.
 * @param {Place} place
 */
function movesTo(place) {
  const moves = [];
  for (let one = place; one; one = one.after) moves.unshift(NULL_MOVE.test(one.symbol) ? '--' : plain(one.symbol));
  return moves;
}
/**
 * The moves of a game, one after the other: for each token where it stands. A comment before the first move of a
 * variation is one of that move.
 * @param {string} movetext
 * @param {(kind: 'comment' | 'nag' | 'move' | 'result', text: string, place: Place) => void} visit
 */
function walk(movetext, visit) {
  const outer = /** @type {[Place, Place][]} */ ([]);
  let at = /** @type {Place} */ (null), before = at, ahead = /** @type {string[] | null} */ (null);
  const flush = () => {
    for (const text of ahead || []) visit('comment', text, at);
    ahead = null;
  };
  for (const [, brace, line, nag, bracket, sign, symbol] of movetext.matchAll(TOKEN)) {
    if (bracket === '(') {
      outer.push([at, before]);
      [at, ahead] = [before, []];
    } else if (bracket === ')') {
      [at, before] = outer.pop() || [at, before];
      flush();
    } else if (nag || sign) visit('nag', nag || SIGNS[sign] || '', at);
    else if (brace !== undefined || line !== undefined) {
      if (ahead) ahead.push(oneLine(brace ?? line));
      else visit('comment', oneLine(brace ?? line), at);
    } else if (symbol && SIGNS[symbol]) visit('nag', SIGNS[symbol], at);
    else if (symbol && RESULT.test(symbol)) {
      if (!outer.length) return visit('result', wholeResult(symbol), null);
    } else if (symbol && isMoveText(symbol)) {
      [before, at] = [at, {symbol, after: at}];
      visit('move', symbol, at);
      flush();
    }
  }
}
/**
 * Whether a symbol is a move: each names a square, but for castling and a null move. Other words are comments.
 * @param {string} symbol
 */
export const isMoveText = symbol => NULL_MOVE.test(symbol) || /[a-h][1-8]|^[O0]-?[O0]/.test(plain(symbol));
/** A tag, with the comments before it. */
const TAG = /^((?:\s|\{[^}]*\}|;[^\n]*(?:\n|$))*)\[[ \t]*([A-Za-z]\w*)[ \t]*"((?:\\.|[^\\\n])*?)"[ \t]*\]/;
/**
 * Header and moves of a game.
 * @param {string} game
 * @returns {[Record<string, string>, string]}
 */
function parts(game) {
  const tags = /** @type {Record<string, string>} */ ({});
  let comments = '', rest = game.replace(/^%.*$/gm, '');
  for (let m = TAG.exec(rest); m; m = TAG.exec(rest)) {
    tags[m[2]] = tags[m[2]] ?? m[3];
    comments += m[1];
    rest = rest.slice(m[0].length);
  }
  return [tags, comments + rest];
}
/**
 * The title and the author of a game that is left out, as remarks to stand behind its own; `its` keeps them apart from
 * those of the next study.
 * @param {string} game
 */
export function namesOf(game) {
  const [tags] = parts(game),
        text = (/** @type {string} */ name) => (tags[name] || '').replace(/\\(["\\])/g, '$1').trim();
  return ['Event', 'White']
    .filter(name => isKnown(text(name)))
    .map(name => `#! its ${name} was: ${text(name).slice(0, 80)}`);
}
/**
 * A line of a script has at most 1,024 bytes.
 * @param {string} line
 */
export const short = line =>
  line.length * 3 <= MOST ? line : line.slice(0, new TextEncoder().encode(line).length > MOST ? MOST / 3 : MOST);
/**
 * A long comment in parts, between words, so that nothing of it is cut off.
 * @param {string} text
 */
function partsOf(text) {
  const most = /^[ -~]*$/.test(text) ? MOST / 2 : MOST / 6, out = [''];
  for (const word of text.split(' ')) {
    const last = out[out.length - 1];
    if (last && last.length + 1 + word.length > most) out.push(word);
    else out[out.length - 1] = last ? `${last} ${word}` : word;
  }
  return out;
}
/**
 * What is written as a comment has no braces, which could end it.
 * @param {string} text
 */
const withoutBraces = text => text.replace(/\{/g, '(').replace(/\}/g, ')');
/**
 * The remarks that keep a comment, or a glyph, at moves.
 * @param {string} moves
 * @param {string} text
 */
export const noteLines = (moves, text) => partsOf(
  withoutBraces(
    oneLine(text))).filter(Boolean).map((part, i) => short(`#! note${i ? '+' : ''} ${moves}: ${part}`));
/**
 * What a game says beside its moves, as remarks: `#! tag NAME TEXT`, `#! note MOVES: TEXT`, and `#! note+ MOVES: TEXT`
 * for what is more of a long comment; `#! result TEXT`, where the result behind the moves is not that of the tag. In a
 * game that this page saved with its marks `#! mark MOVES: $1` is a glyph of the program or of the author, and
 * `#! accepted MOVES: dual` a dual that a judge accepts.
 * @param {string} game
 */
export function remarksOf(game) {
  const [tags, movetext] = parts(game), own = isOwn(movetext), out = /** @type {string[]} */ ([]);
  for (const [name, text] of Object.entries(tags))
    if (!OWN_TAGS.has(name)) out.push(`#! tag ${name} ${text.replace(/\\(["\\])/g, '$1')}`);
  const said = saidIn(movetext);
  for (const {kind, text, key, place} of said) {
    const first = own && kind === 'nag' && place === 'move' && /^\$[14]$/.test(text);
    if (kind === 'result') {
      if (text !== tags.Result) out.push(`#! result ${text}`);
    } else if (!first) {
      if (own && kind === 'comment' && ACCEPTED.test(text)) out.push(`#! accepted ${key}: dual`);
      const words = own && kind === 'comment' ? withoutOurs(text) : text;
      out.push(...(
        key === '-' && kind === 'comment' ? openingLines(own ? withoutNumber(words) : words) : noteLines(key, words)));
    } else if (!said.some(other => other.key === key && other.kind === 'nag' && other.place === 'comment'))
      out.push(`#! mark ${key}: ${text}`);
  }
  return out.map(short);
}
/**
 * The remarks that keep a comment before the first move, without the words that the page writes again by itself; of a
 * part of a game its heading.
 * @param {string} words
 */
function openingLines(words) {
  const {heading, rest} = nameIn(words.replace(AIM, ''));
  return [...(heading ? [heading] : []), ...noteLines('-', rest.replace(UNREAD, ''))];
}
/**
 * What is said beside the moves, in its order: at which moves, and whether it stands right behind the move, or
 * somewhere behind a comment there.
 * @param {string} movetext
 */
function saidIn(movetext) {
  const said = /** @type {{kind: string, text: string, key: string, place: string}[]} */ ([]);
  let place = '';
  walk(movetext, (kind, text, at) => {
    if (kind !== 'move' && text) said.push({kind, text, key: movesTo(at).join(' ') || '-', place});
    place = kind === 'move' ? 'move' : kind === 'comment' || place === 'comment' ? 'comment' : '';
  });
  return said;
}
const VALUE = '(draw|mate|(White|Black) mates in \\d+)',
      WORDS = '(wrong|sound|unsound|does not|fails at|cook|\\d+ duals?|correct|not read|refuted|a second|works|' +
  'from here|begins in)\\b[^{}]*?',
      VERDICT = `(White|Black) to (win|draw|mate in \\d+): ${WORDS}, ${VALUE}`,
      OPENING = new RegExp(`^${VERDICT}(\\. |$)`), SAID = new RegExp(`\\{${VERDICT}(?=[.}])`, 'g'),
      OURS = new RegExp(`(^|; |(?<=[.!?:,\\])]) )${VALUE}(; dual \\d+(; accepted)?)?$`);
const ACCEPTED = new RegExp(`${VALUE}; dual \\d+; accepted$`);
/** What is to be done, as this page writes it: it is written again, whatever the author says behind it. */
const AIM = /^(White|Black) to (win|draw|mate in \d+)(\. |$)/;
/** Where the reading ended, as this page writes it. */
const UNREAD = /^not read: \d+\.(\.\.)? [^\s,.]+(\. |$)/;
/** What games that were saved before say behind `sound` where there is no solution. */
const NO_MOVE = 'holds: no move of the solution is given';
/**
 * What of a comment is not the program's: its words begin the comment before the first move, and end that of a move.
 * @param {string} comment
 */
function withoutOurs(comment) {
  const rest = comment.replace(OPENING, '');
  return (rest.startsWith(NO_MOVE) ? rest.slice(NO_MOVE.length).replace(/^\. /, '') : rest).replace(OURS, '');
}
/**
 * A text of games in one line, without verdicts, which are known only after a while.
 * @param {string} text
 */
export const withoutVerdicts = text =>
  text.replace(/\s+/g, ' ').replace(SAID, (_, side, aim, word, value) => `{${side} to ${aim}, ${value}`);
/** @param {string} movetext */
const isOwn = movetext => OPENING.test(oneLine((/\{([^}]*)\}/.exec(movetext) || [])[1] || ''));
/**
 * The remark that a game was saved by this page, whose words state its stipulation; none of another game.
 * @param {string} game
 */
export const savedRemark = game => (isOwn(parts(game)[1]) ? ['#! saved with marks'] : []);

/** Remarks that stand at moves. */
export const AT_MOVES = new Set(['note', 'note+', 'mark', 'accepted']);
/**
 * The lines of a script with the notes of a study at other moves.
 * @param {string[]} lines
 * @param {Study} study
 * @param {(moves: string) => string} to      the moves that lead to a note from now on
 * @param {(squares: string) => string} [marked]      the squares that its arrows and circles have from now on
 */
export const notesMoved = (lines, study, to, marked = squares => squares) => lines.map((line, at) => {
  const {word, rest} = ownRemark(line);
  if (at < study.head || at >= study.from || !AT_MOVES.has(word)) return line;
  const [moves, said] = cutAt(rest, ': '),
                text = said.replace(/(\[%c[as]l)( [^\]]*)/g, (_, mark, squares) => mark + marked(squares));
  return `${line.slice(0, line.length - rest.length)}${moves === '-' ? moves : to(moves)}: ${text}`;
});
/**
 * A move without what only some notations say, and without signs of check.
 * @param {string} move
 */
const bare = move => looseMove(plain(move));
/**
 * What a game says beside its moves, as a tail has it: its moves begin behind those of the way to it, and what is said
 * elsewhere is left out, and so is a sign of the last move before it.
 * @param {string[]} remarks
 * @param {string[]} way
 */
export const saidInTail = (remarks, way) => remarks.flatMap(line => {
  const [, name, text] = /^#! (\S+) (.*)$/.exec(line) || ['', '', ''];
  if (!AT_MOVES.has(name)) return [line];
  const [moves, said] = cutAt(text, ': '), path = moves === '-' ? [] : moves.split(' ');
  if (way.some((move, i) => bare(move) !== bare(path[i] || ''))) return [];
  if (path.length === way.length && way.length && /^\$[1-9]$/.test(said)) return [];
  return [`#! ${name} ${path.slice(way.length).join(' ') || '-'}: ${said}`];
});
/**
 * The line that stands for a move which was not read, as a game that this page saved says in its first comment.
 * @param {string} game
 */
export function notReadIn(game) {
  const [, said = ''] = /^\{([^}]*)\}/.exec(game.replace(/^(\s*\[[^\n]*\]\s*\n)+/, '').trim()) || [], [,
    move = ''] = /(?:^|[.:] )not read: (\d+\.(?:\.\.)? [^\s,.]+)/.exec(said.replace(/\s+/g, ' ')) || [];
  return move ? [`insert root ${move}`] : [];
}
