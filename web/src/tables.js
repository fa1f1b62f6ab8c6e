// @ts-check
// Tables: which a script needs, taken from where they are kept, or built in workers of their own.
//
// A table is taken only where its SHA-256 is that of the list: any page of file:// can write to the store.
import {makeClasses} from './classes.js';
import {DIGESTS} from './digests.js';
import {Stopped} from './engine.js';
import {makeRoom} from './room.js';
import {makeBuilds, readingOrder} from './schedule.js';
import {reason} from './words.js';
import {makeWaiting} from './waiting.js';
/** @typedef {import('./engine.js').Core} Core */
/** @typedef {{text: string, done: number, of: number, reading?: boolean}} Progress      `reading`: no table is built */

/**
 * @param {string} name
 * @param {string} digest
 */
export const isListed = (name, digest) => DIGESTS[name] !== undefined && DIGESTS[name][1] === digest;
const SMALL = 1000000;
const STOPPED = 'Stopped. The tables that were built are kept';
/** @param {string} name */
const sizeOf = name => (DIGESTS[name] ? DIGESTS[name][0] : 5000000);

/**
 * @typedef {ReturnType<typeof import('./file_readers.js').makeReaders>} Readers
 * @typedef {ReturnType<typeof import('./store.js').makeStore>} Store
 */
/**
 * @param {{core: Core, facts: Core, spawn: () => Core, readers: Readers, store: Store,
 *   report: (p: Progress | null) => void, isLong?: () => boolean}} parts      `isLong`: the document itself takes much
 */
export function makeTables({core, facts, spawn, readers, store, report, isLong = () => false}) {
  const {classesOf, knownClasses} = makeClasses(core),
                    right =
                      /** @type {Map<string, Blob>} */ (
                        new Map());  // compared with the list in this visit: a blob never changes
  let builders = /** @type {Core[]} */ ([]), stops = 0, kept = true;

  const fetched = /** @type {Map<string, Promise<Uint8Array | null>>} */ (new Map());
  /**
   * Tables that will be wanted are read, and compared with the list, while the program starts: not those of a long
   * script, which the program holds some at a time.
   * @param {string[]} names
   */
  function fetchAhead(names) {
    if (!isTooMuch(names))
      for (const name of readingOrder(names.filter(name => DIGESTS[name]), sizeOf, SMALL))
        fetched.set(name, bytesOf(name));
    readers.start();
  }
  /**
   * What was fetched ahead is given once, since its bytes go to a core.
   * @param {string} name
   */
  function fetchOnce(name) {
    const bytes = fetched.get(name);
    fetched.delete(name);
    return bytes || bytesOf(name);
  }
  /**
   * A kept table's bytes, if it is right; none where it is only to be compared.
   * @param {string} name
   */
  async function bytesOf(name, wanted = true) {
    const known = right.get(name);
    if (known) {
      const file = await readers.read(known, {wanted, digested: false}).catch(() => null);
      if (file) return file.bytes;
      right.delete(name);
    }
    const blob = await store.get(name), file = blob ? await readers.read(blob, {wanted}).catch(() => null) : null;
    if (!blob || !file) return null;
    if (!isListed(name, file.digest)) {
      await store.remove(name);
      return null;
    }
    right.set(name, blob);
    return file.bytes;
  }
  /** @type {WeakMap<Core, Map<string, Promise<boolean>>>} */
  const loading = new WeakMap();
  /**
   * Puts a kept table into a core, once though several ask for it; false where it is not kept.
   * @param {string} name
   * @param {Core} into
   */
  function loadOne(name, into) {
    const now = loading.get(into) || new Map(), before = now.get(name);
    loading.set(into, now);
    const done = before || loadFetched(name, into).finally(() => now.delete(name));
    now.set(name, done);
    return done;
  }
  /**
   * @param {string} name
   * @param {Core} into
   */
  async function loadFetched(name, into) {
    const bytes = await fetchOnce(name);
    if (bytes && !into.has(name)) await into.load(name, bytes);
    return bytes !== null;
  }
  const isIdle = (/** @type {Core} */ one) => !one.waiting() && !(loading.get(one) || new Map()).size,
        room = makeRoom([core, facts], sizeOf, isIdle, isLong);
  /**
   * Whether these tables are more than one worker is to hold.
   * @param {string[]} names
   */
  const isTooMuch = names => room.isFull(names);
  /** @type {WeakMap<Core, string[]>} */
  const lately = new WeakMap();
  /**
   * Puts into a core the tables that are kept, and returns those that are missing. It may have lost what it held else.
   * @param {string[]} names
   * @param {Core} into
   */
  async function load(names, into = core) {
    const ended = names.every(into.has) ? [] : await room.make(names, into);
    lately.set(into, names);
    const wanted = readingOrder(names.filter(name => !into.has(name)), sizeOf, SMALL);
    const there = await Promise.all(wanted.map(name => loadOne(name, into))),
          lacking = wanted.filter((_, i) => !there[i]);
    for (const other of ended) loadAgain(other);
    return names.filter(name => lacking.includes(name));
  }
  /**
   * A core that was ended gets what was asked of it last, if there is room.
   * @param {Core} into
   */
  function loadAgain(into) {
    const names = lately.get(into) || [];
    if (room.fits(names, into)) load(names, into).catch(() => {});
  }
  /**
   * @param {string[]} fens
   * @param {Core} into
   */
  const loadFor = async (fens, into = core) => load(await classesOf(fens), into);
  /**
   * The worker that answers for the facts of positions, with their tables: beside a long script that of moves, so that
   * no table is held twice.
   * @param {string[]} fens
   */
  async function factsFor(fens) {
    const into = isLong() ? core : facts;
    await loadFor(fens, into);
    return into;
  }
  /**
   * The tables of these positions that are not there. Those that were not compared with the list yet are, and are in
   * the core then, if it has room for all.
   * @param {string[]} fens
   */
  async function lacking(fens) {
    const names = (await classesOf(fens)).filter(name => !right.has(name) && !core.has(name));
    const missing = isTooMuch(names) ? await notKept(names) : await load(names);
    fetched.clear();
    return missing;
  }
  /**
   * Those of these tables that are not kept, each compared with the list.
   * @param {string[]} names
   */
  async function notKept(names) {
    const there = await Promise.all(names.map(name => bytesOf(name, false)));
    return names.filter((_, i) => !there[i]);
  }
  /**
   * Afterwards all tables of these positions are there. What is there already is not waited for, whatever else is being
   * built.
   * @param {string[]} fens
   * @returns {Promise<void>}
   */
  async function ready(fens) {
    const names = await classesOf(fens), missing = await lacking(fens);
    if (!missing.length) return;
    if (navigator.storage && navigator.storage.persist) navigator.storage.persist().catch(() => false);
    for (const name of missing) needs.set(name, names);
    await builds.want(missing);
  }
  const needs = /** @type {Map<string, string[]>} */ (new Map());
  const most = Math.max(1, Math.min(3, (navigator.hardwareConcurrency || 2) - 1)), waiting = makeWaiting(most, report),
        builds = makeBuilds(most, build, waiting.show);
  /**
   * Builds one table; false where one that it needs is not there yet.
   * @param {string} name
   */
  async function build(name) {
    const builder = spawn(), before = stops;
    builders.push(builder);
    waiting.begin(name, false);
    try {
      await load((needs.get(name) || []).filter(other => other !== name), builder);
      if (before !== stops) throw new Stopped(STOPPED);
      waiting.begin(name, true);
      const {bytes, ended} = await builder.ask('make ' + name, '', 0);
      if (before !== stops) throw new Stopped(STOPPED);
      const refusal = ended === 'done' ? '' : new TextDecoder().decode(bytes.slice(0, 200)).trim();
      if (/MissingTable/.test(refusal)) return false;
      if (ended !== 'done')
        throw new Error(`the table ${name} was not built: ${reason('error ' + (refusal || ended))}`);
      waiting.end(name);
      const blob = new Blob([bytes]), file = await readers.read(blob);
      if (!isListed(name, file.digest))
        throw new Error(`the table ${name} is not the one of the list; the browser or the machine is faulty`);
      right.set(name, blob);
      if (!await store.put(name, blob)) kept = false;
      if (!room.isFull([name], core)) await core.load(name, file.bytes);
      return true;
    } catch (fault) {
      for (const other of builders) other.end();
      throw before !== stops ? new Stopped(STOPPED) : fault;
    } finally {
      builder.end();
      builders = builders.filter(b => b !== builder);
    }
  }
  function stop() {
    stops++;
    for (const builder of builders) builder.end(new Stopped(STOPPED));
  }
  /**
   * Files that the user opens: those of the list are kept.
   * @param {File[]} files
   */
  async function open(files) {
    const taken = /** @type {string[]} */ ([]), bad = /** @type {string[]} */ ([]);
    const named = files.map(
      file => ({file, name: (/K[QRBNP]*K[QRBNP]*(?=[^A-Z]*$)/.exec(file.name.replace(/\.dtm$/i, '')) || [''])[0]}));
    for (const {file, name} of named)
      if (!DIGESTS[name]) bad.push(`${file.name}: the name of a table is KQK.dtm, KRKP.dtm and so on`);
    const tables = named.filter(({name}) => DIGESTS[name]), read = /** @type {Promise<string>[]} */ ([]);
    for (const [i, {file, name}] of tables.entries()) {
      for (const {file} of tables.slice(read.length, i + 3)) read.push(readers.digest(file).catch(() => ''));
      if (!isListed(name, await read[i])) {
        bad.push(`${file.name} is not the table ${name}: it is damaged, or made by something else. Nothing was taken`);
        continue;
      }
      if (!await store.put(name, file)) {
        kept = false;
        await store.put(name, new Blob([(await readers.read(file, {digested: false})).bytes]));
      }
      taken.push(name);
    }
    return {taken, bad, kept};
  }
  /**
   * A table that the program built for a script of another program.
   * @param {string} name
   * @param {Uint8Array} bytes
   */
  async function keep(name, bytes) {
    const blob = new Blob([bytes]);
    if (isListed(name, await readers.digest(blob)) && !await store.put(name, blob)) kept = false;
  }
  return {
    classesOf,
    knownClasses,
    fetchAhead,
    load,
    loadFor,
    factsFor,
    isTooMuch,
    lacking,
    ready,
    estimate: waiting.estimate,
    keep,
    stop,
    open,
    store,
    isBuilding: builds.isBusy,
    isComing: builds.isComing
  };
}
