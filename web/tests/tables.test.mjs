// Tables: which positions need them, over a made-up core; and nobody waits for a table that he does not need.
import test from 'node:test';
import assert from 'node:assert/strict';
import {CLASSES} from '../src/core_host.js';
import {DIGESTS} from '../src/digests.js';
import {makeTables} from '../src/tables.js';

if (!globalThis.navigator) globalThis.navigator = {hardwareConcurrency: 2};
const RIGHT = '8/8/8/8/8/1k6/7Q/K7 w - - 0 1', REFUSED = '8/8/8/8/8/1k6/1Q6/K7 w - - 0 1',
      PAWN = '8/8/8/6k1/8/8/1P5K/8 w - - 0 1';
const NEEDED = {
  [RIGHT]: 'KK KQK',
  [PAWN]: 'KK KQK KRK KBK KNK KPK'
};
/**
 * Workers that know two positions; each other one is refused. Builders end when they are stopped. Each kept table is
 * right.
 */
function made(kept = [], classes = NEEDED, isLong = false) {
  const requests = [], reports = [], reads = [], stored = new Map();
  const worker = () => {
    const loaded = new Set();
    return {
      loaded,
      answer: async (request, script) => {
        requests.push(script);
        const all = script.trim().split('\n').flatMap(line => (classes[line.slice(9)] || '').split(' '));
        return {text: [...new Set(all)].reverse().join('\n'), ended: 'done'};
      },
      has: name => loaded.has(name),
      held: () => [...loaded],
      waiting: () => 0,
      load: async name => {
        loaded.add(name);
      },
      keepOnly: names => [...loaded].filter(name => !names.includes(name)).forEach(name => loaded.delete(name)),
      last: {memory: 0},
      end: () => loaded.clear()
    };
  };
  const core = worker(), facts = worker(), {loaded} = core;
  const spawn = () => {
    let end = () => {};
    return {
      has: () => false,
      held: () => [],
      load: async () => {},
      ask: () => new Promise((ok, no) => {
        end = no;
      }),
      end: why => end(why || new Error('ended'))
    };
  };
  const store = {
    get: async name => (kept.includes(name) ? name : undefined),
    put: async (name, blob) => {
      stored.set(name, blob);
      return true;
    },
    remove: async () => {}
  };
  const read = async (blob, what = {}) => {
    const name = blob.name ? blob.name.replace('.dtm', '') : blob;
    reads.push({name, ...what});
    return {bytes: new Uint8Array(1), digest: blob.bad ? '' : DIGESTS[name][1]};
  };
  const readers = {start() {}, read, digest: async blob => (await read(blob, {wanted: false})).digest};
  const tables = makeTables({core, facts, spawn, readers, store, report: p => reports.push(p), isLong: () => isLong});
  return {tables, requests, loaded, reports, reads, stored, core, facts};
}
test('a refused position of the same men takes no classes from a right one, in either order', async () => {
  for (const order of [[RIGHT, REFUSED], [REFUSED, RIGHT]]) {
    const {tables} = made();
    for (const fen of order) await tables.classesOf([fen]);
    assert.deepEqual(await tables.classesOf([RIGHT]), ['KK', 'KQK']);
    assert.deepEqual(await tables.classesOf([REFUSED]), []);
    assert.deepEqual(await tables.classesOf(order), ['KK', 'KQK']);
    assert.deepEqual([tables.knownClasses([RIGHT]), tables.knownClasses([REFUSED]), tables.knownClasses(order)],
      [['KK', 'KQK'], [], ['KK', 'KQK']]);
  }
});
test('each position is requested once, and classes come in the order in which they are built', async () => {
  const {tables, requests} = made();
  assert.deepEqual(await tables.classesOf([PAWN, RIGHT]), ['KK', 'KQK', 'KRK', 'KBK', 'KNK', 'KPK']);
  await tables.classesOf([RIGHT, PAWN]);
  assert.equal(requests.length, 2);
  const many = [...Array(100).keys()].map(i => `${i} w`);
  assert.deepEqual(await tables.classesOf([...many, RIGHT]), ['KK', 'KQK']);
  assert.equal(requests.length, 3);
});
test('while tables are built, a position whose tables are there is ready', async () => {
  const {tables, loaded, reports} = made();
  const first = assert.rejects(tables.ready([PAWN]), /Stopped/), pause = () => new Promise(on => setTimeout(on, 5));
  await pause();
  assert.ok(tables.isBuilding() &&
    /^Building K.*: about \d+ s left|^Building K.*: almost done/.test(reports[reports.length - 1].text));
  assert.deepEqual(await tables.lacking([RIGHT]), ['KK', 'KQK']);
  for (const name of ['KK', 'KQK']) loaded.add(name);
  await tables.ready([RIGHT]);
  const ended = assert.rejects(tables.ready([PAWN]), /Stopped/);
  await pause();
  tables.stop();
  await Promise.all([first, ended]);
  await pause();
  assert.equal(reports[reports.length - 1], null);
});
test('tables that are too many to be held at a time are compared with the list, and not loaded', async () => {
  const {tables, loaded, reads} = made(CLASSES, {[PAWN]: CLASSES.join(' ')});
  assert.deepEqual(await tables.lacking([PAWN]), []);
  assert.deepEqual([loaded.size, reads.length, reads.every(({wanted}) => wanted === false)], [0, 36, true]);
  assert.deepEqual(await tables.lacking([PAWN]), []);
  assert.equal(reads.length, 36);
  tables.fetchAhead(CLASSES);
  assert.equal(reads.length, 36);
  const some = made(CLASSES.slice(1), {[PAWN]: CLASSES.join(' ')});
  assert.deepEqual(await some.tables.lacking([PAWN]), ['KK']);
});
test('beside a long script one worker has the tables of a position, else both', async () => {
  const names = 'KPPK KPKP KNKP KBKP KRKP KQKP', needed = {[PAWN]: names, [RIGHT]: 'KQK'};
  for (const isLong of [true, false]) {
    const {tables, core, facts} = made(CLASSES, needed, isLong);
    await tables.loadFor([PAWN]);
    assert.deepEqual(core.held().sort(), names.split(' ').sort());
    assert.equal(await tables.factsFor([PAWN]), isLong ? core : facts);
    assert.equal(facts.held().length, isLong ? 0 : 6);
  }
});
test('a file that is opened is stored as it is, and read only for its digest', async () => {
  const {tables, reads, stored} = made();
  const files = [{name: 'KK.dtm'}, {name: 'KQK.dtm', bad: true}, {name: 'notes.txt'}];
  const {taken, bad, kept} = await tables.open(files);
  assert.deepEqual([taken, bad.length, kept, [...stored]], [['KK'], 2, true, [['KK', files[0]]]]);
  assert.ok(reads.every(({wanted}) => wanted === false));
});
