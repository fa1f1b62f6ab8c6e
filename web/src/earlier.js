// @ts-check
// A study begins earlier: the moves that can have led to its start, each found by the program as a legal move of the
// position before. Captures are not looked for: they would need one man more.
import {services, PAGES} from './state.js';
import {isWhite, menOf, placement, samePosition} from './fen.js';
import {readView} from './parse_answers.js';
import {toText} from './script.js';
import {wordOf} from './wording.js';
import {aimWords} from './words.js';
/**
 * @typedef {{fen: string, san: string, from: number, mark: string}} Before
 *   a position, and the move that leads from it; its mark in the study, or of a mistake, if the stipulation is wrong
 */

/**
 * The positions that could stand before one, by each man of the side that has just moved on each free square; a man on
 * the last rank can have been a pawn before it.
 * @param {string} fen
 */
export function placesBefore(fen) {
  const [placed, mover, , , , number] = fen.split(' '), men = menOf(placed), before = mover === 'w' ? 'b' : 'w';
  const moves = Math.max(1, Number(number) - (before === 'b' ? 1 : 0)),
        out = /** @type {{fen: string, from: number, to: number, promoted: string}[]} */ ([]);
  for (const [at, letter] of Object.entries(men)) {
    if (isWhite(letter) !== (before === 'w')) continue;
    const to = Number(at), {[to]: _, ...rest} = men;
    const add = (/** @type {number} */ from, /** @type {string} */ man, promoted = '') => {
      if (!men[from])
        out.push({fen: `${placement({...rest, [from]: man})} ${before} - - 0 ${moves}`, from, to, promoted});
    };
    for (let from = 0; from < 64; from++) add(from, letter);
    if (/[QRBN]/.test(letter) && to > 55) add(to - 8, 'P', letter);
    if (/[qrbn]/.test(letter) && to < 8) add(to + 8, 'p', letter.toUpperCase());
  }
  return out;
}
/**
 * The words of a stipulation from before some moves: a mate comes later by those that are the hero's.
 * @param {import('./types.js').Aim} aim
 * @param {import('./types.js').Side[]} movers
 */
export const aimBefore = (aim, movers) =>
  aimWords({...aim, k: aim.k && aim.k + movers.filter(side => side === aim.hero).length});
/**
 * The moves that can have led to a position, those first that are the only ones to hold, and last those before which
 * the stipulation is wrong.
 * @param {string} fen
 * @param {string} aim      words of a stipulation
 * @param {import('./engine.js').Core} [core]
 * @returns {Promise<{moves: Before[], lacking: string[]}>}      and the tables that promotions would need and that lack
 */
export async function movesBefore(fen, aim, core = services.core) {
  const places = placesBefore(fen), texts = places.map(place => `position ${place.fen}\n`);
  const {text} = await core.answer('run', toText(texts.map(line => line.trim())), 1), replies = text.split('\n');
  const found = /** @type {Before[]} */ ([]), lacking = /** @type {Set<string>} */ (new Set());
  for (const [i, place] of places.entries()) {
    if (!replies[i] || !replies[i].startsWith('position ')) continue;
    const lacks = await services.tables.loadFor([place.fen], core);
    for (const name of lacks) lacking.add(name);
    if (lacks.length) continue;
    const {text: shown} = await core.answer('view root', `${texts[i]}stipulate ${aim}\n`, PAGES),
                 view = readView(shown);
    const move = view &&
      view.moves.find(
        m => m.from === place.from && m.to === place.to && m.promoted === place.promoted && samePosition(m.fen, fen));
    if (!move) continue;
    const mark = view.stamp === wordOf('correct') ? move.mark : 'mistake';
    found.push({fen: place.fen, san: move.san, from: place.from, mark});
  }
  const rank = (/** @type {Before} */ m) => ['only', 'reply', 'dual', 'idle', 'mistake'].indexOf(m.mark);
  return {moves: found.sort((x, y) => rank(x) - rank(y)), lacking: [...lacking]};
}
