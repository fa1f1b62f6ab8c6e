// @ts-check
// What is to be done, where a game says it in a comment that no import takes for it: behind other words, or behind the
// first move.
import {TOKEN, isMoveText, oneLine} from './notes.js';
/** @typedef {import('./cut_game.js').CutText} CutText */

/** Words that end there, as those that an import takes. */
const AIM = 'to (?:(?:play|move) and )?(win|draw|mate in \\d+)|(wins|draws|mates in \\d+)',
      SAID = new RegExp(`\\b(white|black) (?:${AIM})(?=\\s*(?:[:.,;!)]|$))`, 'i');
/** Where the moves of a game begin, or the comments before them. */
const MOVES = /^(?![[%;\s])/m;
/**
 * The comments of a game before its second move.
 * @param {string} game
 */
function firstComments(game) {
  const comments = /** @type {string[]} */ ([]);
  let moves = 0;
  for (const [, brace, line, , bracket, , symbol] of game.replace(/^\s*\[[^\n]*\][ \t]*$/gm, '').matchAll(TOKEN)) {
    if (symbol && isMoveText(symbol)) moves++;
    if (bracket || moves > 1) break;
    comments.push(oneLine(brace ?? line ?? ''));
  }
  return comments;
}
/**
 * What is to be done, as a comment before the second move says it anywhere: `White to win`; nothing if none does.
 * @param {CutText} game
 */
export function aimSaid({text, rest}) {
  const [, side, goal, does] = firstComments(text + rest).map(comment => SAID.exec(comment)).find(Boolean) || [];
  const words = side ? `${side} to ${goal || does.replace('s', '')}`.toLowerCase() : '';
  return words.replace(/^./, letter => letter.toUpperCase());
}
/**
 * A game with what is to be done before its moves.
 * @param {string} game
 * @param {string} aim
 */
export const withAim = (game, aim) => game.replace(MOVES, `{${aim}} `);
