// @ts-check
// What a text is by its look, whichever way it comes in: opened, dropped, pasted, or in the address.
import {typedFen} from './fen.js';
import {looksLikePgn} from './imported.js';
import {isCommand, linesOf} from './script.js';

/**
 * A PGN, a script, or a position: one line with a FEN or a list of men. Empty if it is none of these.
 * @param {string} text
 * @returns {'pgn' | 'script' | 'position' | ''}
 */
export function lookOf(text) {
  const line = text.trim();
  if (looksLikePgn(text)) return 'pgn';
  if (linesOf(text).some(isCommand)) return 'script';
  return !line.includes('\n') && ('fen' in typedFen(line, 'w') || MEANT.test(line)) ? 'position' : '';
}
/** Ranks with / between them, in whatever number and of whatever length. */
const MEANT = /^[1-9KQRBNPkqrbnp]+(\/[0-9a-z]+){5,9}(\s|$)/i;
