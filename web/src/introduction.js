// @ts-check
// The longest introduction of a study: moves before its start. Each move of the hero is the only one to work, and no
// move of the opponent is a mistake. The way that goes back farthest is followed first.
import {aimBefore, movesBefore} from './earlier.js';
import {other, sideOf} from './fen.js';
import {clockText, counted} from './words.js';
/** @typedef {import('./earlier.js').Before} Before @typedef {import('./types.js').Aim} Aim */
/**
 * @typedef {{best: Before[], looked: number, began: number, ended: boolean}} Introduction
 *   the longest so far, its first move first; how many positions were looked at, since when, and whether that is all
 */

const MOST = 40;
/** @param {Before[]} moves */
const movers = moves => moves.map(move => sideOf(move.fen));
/**
 * How many moves of the hero are among these.
 * @param {Before[]} moves
 * @param {import('./types.js').Side} hero
 */
export const ownMoves = (moves, hero) => movers(moves).filter(side => side === hero).length;
/**
 * How far a search has come, in words.
 * @param {Introduction | null} intro
 * @param {import('./types.js').Side} hero
 * @param {boolean} going
 */
export function introductionText(intro, hero, going) {
  const {best, looked, began, ended} = intro || {best: [], looked: 0, began: performance.now(), ended: false},
                              seconds = Math.round((performance.now() - began) / 1000);
  const end = going ? '' : ended ? ', all there are without captures, castling and double steps' : '; stopped there';
  return `${best.length ? `${counted(ownMoves(best, hero), 'only move')} in front` : 'No only move in front'}${
    going ? ' so far' : ''}; ${counted(looked, 'position')} looked at in ${clockText(seconds)}${end}.`;
}
/**
 * @param {string} fen
 * @param {Aim} aim
 * @param {(found: Introduction) => void} report
 * @param {AbortSignal} signal      that it is stopped
 * @param {typeof movesBefore} [before]
 */
export async function longest(fen, aim, report, signal, before = movesBefore) {
  const now = /** @type {Introduction} */ ({best: [], looked: 0, began: performance.now(), ended: false}),
        seen = new Set([placeOf(fen)]), open = [{fen, moves: /** @type {Before[]} */ ([])}];
  for (let at = open.pop(); at && !signal.aborted; at = open.pop()) {
    const {moves} = at, mover = other(sideOf(at.fen)), own = mover === aim.hero;
    const found = await before(at.fen, aimBefore(aim, [mover, ...movers(moves)]));
    now.looked++;
    for (const move of found.moves.filter(({mark}) => mark === (own ? 'only' : 'reply'))) {
      const chain = [move, ...moves];
      if (own && chain.length > now.best.length) now.best = chain;
      if (chain.length < MOST && !seen.has(placeOf(move.fen))) open.push({fen: move.fen, moves: chain});
      seen.add(placeOf(move.fen));
    }
    report(now);
  }
  now.ended = !signal.aborted;
  return now;
}
/**
 * What tells positions apart: all but the counts of moves.
 * @param {string} fen
 */
const placeOf = fen => fen.split(' ').slice(0, 4).join(' ');
