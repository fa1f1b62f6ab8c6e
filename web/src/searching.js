// @ts-check
// A search for positions, piece by piece: up to three workers take the pieces in turn, and what they find comes in the
// order of the class.
import {placements, readFound} from './finding.js';
import {refusalIn} from './parse_answers.js';
import {services, PAGES} from './state.js';
import {reason} from './words.js';
/** @typedef {import('./engine.js').Core} Core @typedef {import('./finding.js').Found} Found */
/** @typedef {import('./finding.js').Search} Search */
/** @typedef {{name: string, theme: string, filters: string, most: number}} Wanted */

const PIECE = 1 << 14, ALIKE = 300, WORKERS = 3;
/** How many workers search at once, beside what the user does. */
const workers = () => Math.max(1, Math.min(WORKERS, (navigator.hardwareConcurrency || 2) - 1));
/**
 * What an answer has: the positions of a piece, where it ends, and how many numbers there are.
 * @param {string} text
 */
export function readPiece(text) {
  const lines = text.split('\n').filter(Boolean), [, at, of] = /^to (\d+) of (\d+)$/.exec(lines.pop() || '') || [];
  if (!of) throw new Error('the answer has no end');
  return {at: Number(at), of: Number(of), found: lines.map(readFound)};
}
/**
 * What the search has come to with the pieces that follow one another from its beginning.
 * @param {Search} now
 * @param {Map<number, ReturnType<typeof readPiece>>} pieces      by where they begin
 * @param {number} most
 */
export function takeInTurn(now, pieces, most) {
  for (let piece = pieces.get(now.at); piece && !now.ended; piece = pieces.get(now.at)) {
    pieces.delete(now.at);
    const {at, of, found} = piece, many = now.many + found.length;
    Object.assign(now, {at, of, many, found: [...now.found, ...found].slice(0, most)});
    if (many > most || (at < of && many === most)) now.ended = 'enough';
    else if (at >= of) now.ended = 'all';
  }
}
/**
 * Searches until it is stopped, all is looked at, or enough was found. Each piece takes about as long as another.
 * @param {Wanted} wanted
 * @param {() => Core} spawn
 * @param {(search: Search) => void} report
 * @param {AbortSignal} signal      that it is stopped: its workers end at once
 */
export async function search(wanted, spawn, report, signal) {
  const fens = placements(wanted.name), cores = [spawn()],
        now = /** @type {Search} */ ({at: 0, of: 0, found: [], many: 0, ended: ''});
  const pieces = /** @type {Map<number, ReturnType<typeof readPiece>>} */ (new Map());
  let next = 0;
  const over = () => now.ended !== '' || signal.aborted, end = () => cores.forEach(core => core.end());
  signal.addEventListener('abort', end);
  /**
   * A worker takes one piece after the other, or only the first.
   * @param {Core} core
   * @param {boolean} first
   */
  async function look(core, first) {
    await services.tables.loadFor(fens, core);
    if (first && !over()) report(now);
    for (let size = PIECE; !over() && (first || next < now.of); first = false) {
      const from = next, began = performance.now();
      next += size;
      pieces.set(from, readPiece(await answerOf(core, wanted, from, next)));
      takeInTurn(now, pieces, wanted.most);
      report(now);
      if (first) return;
      size = Math.round(size * Math.max(0.25, Math.min(4, ALIKE / (performance.now() - began + 1))));
    }
  }
  try {
    await services.tables.ready(fens);
    await look(cores[0], true);
    while (cores.length < workers() && !over() && !wanted.theme.startsWith('longest')) cores.push(spawn());
    // All of them come to their end: a worker that still loads a table would begin anew after it was ended.
    const looks = await Promise.allSettled(cores.map(core => look(core, false)));
    for (const done of looks)
      if (done.status === 'rejected') throw done.reason;
  } catch (fault) {
    if (!over()) throw fault;
  } finally {
    signal.removeEventListener('abort', end);
    end();
  }
  now.ended = now.ended || 'stopped';
  return now;
}
/**
 * @param {Core} core
 * @param {Wanted} wanted
 * @param {number} from
 * @param {number} to
 */
async function answerOf(core, {name, theme, filters}, from, to) {
  const answer =
    await core.answer(['find', name, theme, filters, from, to].filter(word => word !== '').join(' '), '', PAGES);
  if (answer.ended !== 'done') throw new Error(reason(refusalIn(answer)));
  return answer.text;
}
