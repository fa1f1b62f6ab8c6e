// @ts-check
// How much of the tables the two permanent workers hold. Before others are loaded, a worker drops those that nobody
// needs now, and their memory is used again. It never becomes smaller: a worker that has too much is ended, and its
// next question begins a new one.
/** @typedef {import('./engine.js').Core} Core */

/**
 * In bytes: one worker has room for what any position needs, both together for little more than twice as much, and
 * beside a long script for a little more.
 */
const MOST = 176e6, TOGETHER = 340e6, BESIDE_MUCH = 165e6, SPARE = 40e6, PATIENCE = 20;
const pause = () => new Promise(on => setTimeout(on, 50));
/**
 * @param {Core[]} workers      the permanent ones, that of moves first: nobody waits for the others
 * @param {(name: string) => number} sizeOf
 * @param {(worker: Core) => boolean} isIdle
 * @param {() => boolean} isLong      whether the script that is shown is a long one
 */
export function makeRoom(workers, sizeOf, isIdle, isLong) {
  const together = () => (isLong() ? BESIDE_MUCH : TOGETHER);
  const sum =
    (/** @type {Iterable<string>} */ names) => [...new Set(names)].reduce((all, name) => all + sizeOf(name), 0);
  /**
   * The memory of a worker: that of its tables, and more where it had others before.
   * @param {Core} worker
   */
  const bytesOf = worker => Math.max(sum(worker.held()), worker.last.memory);
  /**
   * Whether these tables fit beside what the other workers hold.
   * @param {string[]} names
   * @param {Core} worker
   */
  const fits = (names, worker) =>
    sum(names) + workers.reduce((all, one) => all + (one === worker ? 0 : bytesOf(one)), 0) <= together();
  /**
   * Whether something is to be done about a worker that has nothing to do. One at work is waited for: not by the worker
   * of moves, if the script is short.
   * @param {Core} worker
   * @param {Core} into      which needs the room
   * @param {() => boolean} isTooMuch
   */
  async function isToYield(worker, into, isTooMuch) {
    const isPatient = isLong() || into !== workers[0];
    for (let i = 0; i < PATIENCE && isPatient && isTooMuch() && !isIdle(worker); i++) await pause();
    return isTooMuch() && isIdle(worker);
  }
  return {
    /**
     * Whether a worker that holds these tables besides its own would hold too much; a new one, where none is named.
     * @param {string[]} names
     * @param {Core} [worker]
     */
    isFull: (names, worker) => sum([...(worker ? worker.held() : []), ...names]) > MOST,
    fits,
    /**
     * Makes room for tables in a worker. The others that were ended for it are returned.
     * @param {string[]} names
     * @param {Core} into
     */
    async make(names, into) {
      const gone = /** @type {Core[]} */ ([]), all = () => [...into.held(), ...names];
      if (!workers.includes(into)) return gone;
      const hasOthers = () => into.held().some(name => !names.includes(name));
      const isTooMuch = () => hasOthers() && (sum(all()) > MOST || (into !== workers[0] && !fits(all(), into)));
      if (await isToYield(into, into, isTooMuch)) into.keepOnly(names);
      const isTooLarge = () => bytesOf(into) > sum(all()) + SPARE && !fits(all(), into);
      if (await isToYield(into, into, isTooLarge)) into.end();
      for (const other of workers) {
        const hasMuch = () => other !== into && (other.held().length > 0 || bytesOf(other) > SPARE);
        if (!await isToYield(other, into, () => hasMuch() && sum(all()) + bytesOf(other) > together())) continue;
        other.end();
        gone.push(other);
      }
      return gone;
    }
  };
}
