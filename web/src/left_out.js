// @ts-check
// The games of a PGN that were left out: what their remarks say, in words, with what to write instead.
import {cutAt, ownRemark, remarkOf, remarksOfKind} from './remarks.js';
import {gameReason} from './wording.js';
import {reason} from './words.js';
/**
 * A game that was left out: where in the PGN, its author as far as one is named, why, and at which text.
 * @typedef {{game: number, line: number, column: number, author: string, why: string, text: string}} LeftOut
 */

/**
 * Why a game was left out, as a remark has it: `left out: 7 men`, `NoSuchMove at Kb6`.
 * @param {string} said
 */
function whyIn(said) {
  const [head, words] = cutAt(said, ': '), [why, text] = cutAt(head === 'left out' ? words : said, ' at ');
  return {why, text};
}
/**
 * The game that a remark says was left out.
 * @param {string} row
 * @returns {LeftOut | null}
 */
export function leftOutBy(row) {
  const remark = remarkOf(row);
  if (!remark || remark.kind !== 'left-out') return null;
  const {game, line, column, author, said} = remark;
  return {game, line, column, author, ...whyIn(said)};
}
/** @param {string[]} lines */
export const leftOut = lines => /** @type {LeftOut[]} */ (lines.map(leftOutBy).filter(Boolean));

/** What to write instead, by the name of the fault. */
const INSTEAD = /** @type {Record<string, string>} */ ({
  NotSan: 'write it as Kb6 or c8=R',
  NoSuchMove: 'write a legal move; perhaps a move before it is missing or wrong, or the FEN has the wrong side to move',
  Ambiguous: 'write the file or the rank that the man comes from, as Rad1 or R1d3',
  CastlingLeftOut: 'begin with the position after it',
  Numbering: 'write the move that is missing before it, or the right number',
  NullMove: 'show a threat in a variation',
  BehindWord: 'write the words in braces, or the move in one piece',
  BehindResult: 'delete the result before them, or write them in braces',
  TagInMoves: 'write it above the moves, or in braces',
  Byte: 'delete it, or write it in braces',
  OpenComment: 'write } behind its last word',
  NoMoveBefore: 'write it behind the move that it replaces',
  NotOpened: 'delete it, or write ( before the variation',
  OpenVariation: 'write ) behind its last move',
  TooDeep: 'end the line earlier',
  TreeFull: 'leave variations out',
  TooNested: 'write variations beside one another',
  GameTooLarge: 'write several games',
  TagForm: 'write [White "Author"]',
  OpenString: 'write "] at its end',
  TagTwice: 'write [Event "?"] before the second game, or delete the second tag',
  NoStipulation: 'write {White to win} before the first move',
  StipulationUnread: 'write {White to win}, {White to draw} or {White to mate in 3}',
  FieldCount: 'write the men, w or b, castling, the en passant square and two numbers',
  Placement: 'write eight ranks with / between them',
  KingCount: 'set up one king of each side',
  PawnOnEndRank: 'set the pawn on another square',
  SideField: 'write w or b behind the men',
  OpponentInCheck: 'write the other side to move, or correct the men',
  EnPassantImpossible: 'write -',
  'no tags': 'delete the text, or write tags above it'
});
/** The same for reasons in words, by their form. */
const INSTEAD_OF = /** @type {[RegExp, string][]} */ ([
  [/^\d+ men$/, 'set up at most sixteen men of a side'],
  [/^\d+ men, never four or fewer$/, 'go on with a line until four men are left'],
  [
    /^\d+ men, castling rights to the end$/,
    'go on until a king or a rook has moved, or write - for castling in the FEN'
  ],
  [/^more than 255 endings$/, 'leave variations out']
]);
/** @param {string} why */
const insteadOf = why => INSTEAD[why] || (INSTEAD_OF.find(([form]) => form.test(why)) || ['', ''])[1];
/**
 * What stands where a move has to stand: a word, a move in letters of another language, or something else.
 * @param {string} text
 */
const kindOf = text => (/^\p{L}{2,}[.,]?$/u.test(text) ? 'word' : /^[DTSLCFAV][a-h1-8x:]/.test(text) ? 'foreign' : '');
/**
 * Why a game was left out, in words, and what to write instead.
 * @param {LeftOut} game
 */
export function whyLeftOut({why, text}) {
  const kind = why === 'NotSan' ? kindOf(text) : '';
  const words = kind === 'foreign' ? 'not a move with the letters K Q R B N'
    : why === 'NotSan'             ? 'not a move'
                                   : gameReason(why) || (/^[A-Z]\w+$/.test(why) ? reason('error ' + why) : why);
  const promoted = why === 'NoSuchMove' ? /^(?:[a-h]x)?[a-h][18](?![\w=])/.exec(text) : null;
  const instead = promoted ? `write what the pawn becomes, as ${promoted[0]}=Q, or another move`
    : kind === 'foreign' ? 'write the men with these letters, as a PGN has them'
    : kind === 'word'    ? `write words in braces: {${text}}`
                         : insteadOf(why);
  return (text ? `${text}: ${words}` : words) + (instead && !words.includes(': ') ? `: ${instead}` : '');
}

/** Why the moves of a game do not fit that has no tag FEN. */
export const NO_POSITION =
  'it has no tag FEN, so it begins from the initial position: write [FEN ".."] above its moves in the PGN';

/**
 * Where a study ends that is a game up to a bad move: the move, as `7. b6`, and why the game was left out.
 * @typedef {{move: string, game: LeftOut}} Cut
 */

/** Faults at a place among the moves. */
const AMONG_MOVES = new Set([
  'NotSan', 'NoSuchMove', 'Ambiguous', 'CastlingLeftOut', 'Numbering', 'NullMove', 'BehindWord', 'BehindResult',
  'TagInMoves', 'Byte', 'OpenComment', 'NoMoveBefore', 'NotOpened', 'OpenVariation', 'TooDeep', 'TreeFull', 'TooNested'
]);
/**
 * Whether a game can be read up to what is wrong with it.
 * @param {LeftOut | null} game
 */
export const canBeCut = game => game !== null && game.column > 0 && AMONG_MOVES.has(game.why);

/**
 * Where a study ends that is a game up to a bad move, as the remarks above its position say.
 * @param {string[]} remarks
 * @returns {Cut | null}
 */
export function cutIn(remarks) {
  const own = remarks.filter(line => line.includes(' up to ')).map(ownRemark).find(({word}) => word === 'up');
  if (!own) return null;
  const [move, behind] = cutAt(own.rest.slice('to '.length), ', line '), [place, said] = cutAt(behind, ': ');
  const [line, column] = place.split(', column ').map(Number);
  return said ? {move, game: {game: 0, line, column, author: '', ...whyIn(said)}} : null;
}
const OF_CUT = new Set(['up', 'text:', 'text+:', 'rest:', 'rest+:']);
/**
 * The remarks above a position without what says that the game goes on.
 * @param {string[]} remarks
 */
export const withoutCut = remarks =>
  remarks.filter(line => !OF_CUT.has(ownRemark(line).word) && !remarksOfKind([line], 'not-read').length);
/** Of a game that was saved up to a bad move only its place is known. */
const SAVED = 'the saved game says that it was not read from here on';
/**
 * Why the move that a line stands for was not read, in words; nothing for another line.
 * @param {string} line
 * @param {Cut | null} cut      of its study
 */
export const whyCut = (line, cut) => (!isCutLine(line) ? ''
    : cut                                              ? whyLeftOut(cut.game)
    : /^insert root \d+\./.test(line)                  ? SAVED
                                                       : '');
/**
 * Whether a line stands for the bad move.
 * @param {string} line
 */
export const isCutLine = line => /^insert \S+ \S+ \S/.test(line);
