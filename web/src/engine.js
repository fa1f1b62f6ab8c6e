// @ts-check
// Workers around the proved core. A trap or a stop ends a worker and never the page; the next question begins a new
// one.

/** @typedef {import('./types.js').Answer} Answer */

export class Stopped extends Error {}
/**
 * @typedef {{bytes: Uint8Array, ended: string, saved: [string, Uint8Array][], ms: number,
 *   memory: number}} RawAnswer
 */

/** @typedef {object} Core
 * @property {(request: string, script: string | Uint8Array, pages: number) => Promise<Answer>} answer
 * @property {(request: string, script: string | Uint8Array, pages: number) => Promise<RawAnswer>} ask
 * @property {(name: string, bytes: Uint8Array) => Promise<any>} load      the bytes are transferred
 * @property {(name: string) => boolean} has
 * @property {(names: string[]) => void} keepOnly      the other tables are dropped
 * @property {() => string[]} held      the tables that are loaded
 * @property {() => number} waiting      how many questions are not answered yet
 * @property {(why?: Error) => void} end
 * @property {{ms: number, memory: number}} last
 */

/**
 * @param {() => Worker} spawn
 * @param {() => Promise<WebAssembly.Module>} compiled
 * @returns {Core}
 */
export function makeCore(spawn, compiled) {
  let worker = /** @type {Worker | null} */ (null), next = 0;
  const waiting = /** @type {Map<number, {ok: (answer: any) => void, no: (why: Error) => void}>} */ (new Map());
  const loaded = /** @type {Set<string>} */ (new Set()), last = {ms: 0, memory: 0};

  /**
   * @param {any} message
   * @param {Transferable[]} moved
   * @returns {Promise<any>}
   */
  function call(message, moved = []) {
    if (!worker) begin();
    const to = /** @type {Worker} */ (worker), id = ++next;
    return new Promise((ok, no) => {
      waiting.set(id, {ok, no});
      to.postMessage({id, ...message}, moved);
    });
  }
  function begin() {
    const mine = worker = spawn();
    mine.onmessage = ({data}) => {
      if (worker !== mine) return;
      if (data.failed) return end(new Error(data.failed));
      if (data.ms !== undefined) [last.ms, last.memory] = [data.ms, data.memory];
      const who = waiting.get(data.id);
      waiting.delete(data.id);
      if (who) who.ok(data);
    };
    mine.onerror = e => {
      if (worker === mine) end(new Error(e.message || 'the worker did not start'));
    };
    started = compiled().then(module => {
      if (worker === mine) return call({kind: 'start', module});
    });
    started.catch(fault => {
      if (worker === mine) end(fault);
    });
  }
  let started = /** @type {Promise<any>} */ (Promise.resolve());
  /**
   * Ends the worker, with all that is in its memory.
   * @param {Error} why
   */
  function end(why = new Stopped('stopped')) {
    if (worker) worker.terminate();
    worker = null;
    last.memory = 0;
    loaded.clear();
    const left = [...waiting.values()];
    waiting.clear();
    left.forEach(w => w.no(why));
  }
  /**
   * @param {any} message
   * @param {Transferable[]} moved
   */
  async function ready(message, moved = []) {
    if (!worker) begin();
    await started;
    return call(message, moved);
  }
  /**
   * @param {string} request
   * @param {string | Uint8Array} script
   * @param {number} pages
   * @returns {Promise<RawAnswer>}
   */
  const ask = (request, script, pages) => ready({kind: 'answer', request, script, pages});
  return {
    ask,
    end,
    last,
    answer: async (request, script, pages) => {
      const {bytes, ended} = await ask(request, script, pages);
      return {text: new TextDecoder().decode(bytes), ended};
    },
    load(name, bytes) {
      loaded.add(name);
      return ready({kind: 'load', name, bytes: bytes.buffer}, [bytes.buffer]);
    },
    keepOnly(names) {
      for (const name of loaded)
        if (!names.includes(name)) loaded.delete(name);
      if (worker) ready({kind: 'keep', names}).catch(() => {});
    },
    has: name => loaded.has(name),
    held: () => [...loaded],
    waiting: () => waiting.size,
  };
}
