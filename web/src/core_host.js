// @ts-check
// The page's side of the proved core: one instance, its memory, the tables in it, and calls over them.
//
// Memory, from below: the core's own (up to __heap_base) | the files of tables, one after another | what a call needs:
// request, script, directory, room for the text, and the blocks that the core requests while it runs. Nothing of the
// core outlives a call, so each call begins again at the end of the tables. What the page owes: each block new within
// its call, aligned, inside of the memory, never null; no export is called during a call; after a trap a new instance.

export const CLASSES =
  ('KK KQK KRK KBK KNK KPK KQQK KQRK KQBK KQNK KQPK KRRK KRBK KRNK KRPK KBBK KBNK KBPK KNNK KNPK KPPK ' +
    'KQKQ KQKR KQKB KQKN KQKP KRKR KRKB KRKN KRKP KBKB KBKN KBKP KNKN KNKP KPKP')
    .split(' ');
const PAGE = 65536;

/**
 * How an answer ended: `done`, `refused`, or why it was stopped.
 * @param {string} line
 */
export const ending = line => (/^(answered|ran )/.test(line) ? 'done' : line.replace(/^stopped /, ''));

/**
 * @param {WebAssembly.Module} module
 * @param {number} most
 */
export function makeCore(module, most = 2 ** 32 - PAGE) {
  let top = 0, saved = /** @type {Map<string, Uint8Array>} */ (new Map());
  const spans = /** @type {{name: string, start: number, length: number}[]} */ ([]);
  const host = {
    /**
     * A block of n bytes, at multiples of 16.
     * @param {bigint | number} to
     * @param {bigint | number} n
     */
    host_allocate(to, n) {
      const at = room(Number(n)), view = new DataView(memory.buffer);
      view.setUint8(Number(to), at < 0 ? 0 : 1);
      view.setBigUint64(Number(to) + 8, BigInt(at < 0 ? 16 : at), true);
    },
    /**
     * A file that the script saved.
     * @param {number} place
     * @param {bigint | number} at
     * @param {bigint | number} n
     */
    host_save(place, at, n) { saved.set(CLASSES[place], bytesAt(at, n).slice()); },
  };
  const {memory, answer_request: run, __heap_base: heap} =
    /** @type {any} */ (new WebAssembly.Instance(module, {host}).exports);
  const even = (/** @type {number} */ n) => Math.ceil(n / 16) * 16;
  const base = even(Number(heap.value));
  let filled = base;
  /**
   * @param {bigint | number} at
   * @param {bigint | number} n
   */
  const bytesAt = (at, n) => new Uint8Array(memory.buffer, Number(at), Number(n));

  /** @param {number} pages */
  function grow(pages) {
    for (const n of [BigInt(pages), pages]) try {
        memory.grow(n);
        return true;
      } catch (e) {
        if (!(e instanceof TypeError)) return false;
      }
    return false;
  }
  /**
   * Memory up to `end`, in steps of 16 MB where that goes.
   * @param {number} end
   */
  function reach(end) {
    const lacks = end - memory.buffer.byteLength;
    if (end > most) return false;
    if (lacks <= 0) return true;
    const least = Math.ceil(lacks / PAGE), limit = Math.floor((most - memory.buffer.byteLength) / PAGE);
    return grow(Math.min(Math.max(least, 256), limit)) || grow(least);
  }
  /**
   * The place of a new block, or -1.
   * @param {number} bytes
   */
  function room(bytes) {
    const at = even(top), end = at + Math.max(bytes, 1);
    if (!reach(end)) return -1;
    top = end;
    return at;
  }
  /** @param {number} bytes */
  function need(bytes) {
    const at = room(Math.max(bytes, 16));
    if (at < 0) throw new Error('no memory is left for what the page hands in');
    return at;
  }
  /** @param {Uint8Array} bytes */
  function put(bytes) {
    const at = need(bytes.length);
    bytesAt(at, bytes.length).set(bytes);
    return at;
  }
  /**
   * Puts a copy of the file of a class after the others.
   * @param {string} name
   * @param {Uint8Array} bytes
   */
  function load(name, bytes) {
    if (CLASSES.indexOf(name) < 0) throw new Error('no class ' + name);
    if (spans.some(span => span.name === name)) keepOnly(spans.map(span => span.name).filter(other => other !== name));
    top = filled;
    const at = put(bytes);
    spans.push({name, start: at - base, length: bytes.length});
    filled = even(top);
  }
  /**
   * Only these files stay, one after another: what was between them is used again.
   * @param {string[]} names
   */
  function keepOnly(names) {
    const kept = spans.filter(({name}) => names.includes(name)), all = new Uint8Array(memory.buffer);
    filled = base;
    for (const span of kept) {
      const from = base + span.start;
      all.copyWithin(filled, from, from + span.length);
      span.start = filled - base;
      filled = even(filled + span.length);
    }
    spans.splice(0, spans.length, ...kept);
  }
  const directory = () => new Uint8Array(
    BigUint64Array.from(spans.flatMap(s => [CLASSES.indexOf(s.name), s.start, s.length]), BigInt).buffer);
  const encode = (/** @type {string} */ text) => new TextEncoder().encode(text);

  /**
   * @param {Uint8Array} request
   * @param {Uint8Array} script
   * @param {number} pages
   * @param {number} size
   */
  function once(request, script, pages, size) {
    top = filled;
    saved = new Map();
    const numbers = directory();
    const requestAt = put(request), scriptAt = put(script), directoryAt = put(numbers), answerAt = need(size);
    const slice = (/** @type {number} */ at, /** @type {number} */ n) => [BigInt(at), BigInt(n)];
    const n = Number(run(...slice(requestAt, request.length), ...slice(scriptAt, script.length),
      ...slice(directoryAt, numbers.length / 8), ...slice(base, filled - base), pages, ...slice(answerAt, size)));
    return {length: n, bytes: bytesAt(answerAt, Math.min(n, size))};
  }
  /**
   * An answer over the tables, read by pages or whole (0). Where the text was longer than its room the request is made
   * once more. A long PGN has a script twice as long.
   * @param {string} request
   * @param {string | Uint8Array} script
   * @param {number} pages
   */
  function answer(request, script, pages) {
    const words = encode(request), text = typeof script === 'string' ? encode(script) : script;
    const first = Math.max(1 << 18, (request.startsWith('import') ? 4 : 16) * text.length);
    let done = once(words, text, pages, first);
    if (done.length > first) done = once(words, text, pages, done.length);
    if (!done.length) throw new Error('no memory is left');
    const line = done.bytes.indexOf(10);
    return {
      bytes: done.bytes.slice(line + 1),
      ended: ending(new TextDecoder().decode(done.bytes.subarray(0, line))),
      saved: [...saved]
    };
  }
  return {load, keepOnly, answer, size: () => memory.buffer.byteLength};
}
