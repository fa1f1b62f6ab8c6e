// The page's side of the core, over a module made up in JavaScript: it answers with the tables that it was handed.
import test from 'node:test';
import assert from 'node:assert/strict';
import {CLASSES, makeCore} from '../src/core_host.js';

const HEAP = 64, PAGE = 65536;
/** An instance whose memory grows, and which lists each table by its class, its place and its first and last byte. */
class Instance {
  constructor() {
    const memory = {
      buffer: new ArrayBuffer(PAGE),
      grow(pages) {
        const next = new Uint8Array(memory.buffer.byteLength + Number(pages) * PAGE);
        next.set(new Uint8Array(memory.buffer));
        memory.buffer = next.buffer;
      }
    };
    const answer_request = (...given) => {
      const [, , , , at, words, from, length, , to, room] = given.map(Number);
      const spans = new BigUint64Array(memory.buffer.slice(at, at + 8 * words)), rows = [];
      for (let i = 0; i < words; i += 3) {
        const [place, start, size] = [...spans.subarray(i, i + 3)].map(Number),
                             all = new Uint8Array(memory.buffer, from + start, size);
        assert.ok(start % 16 === 0 && start + size <= length, `${start} ${size} ${length}`);
        rows.push(`${CLASSES[place]} ${start} ${size} ${all[0]} ${all[size - 1]}`);
      }
      const text = new TextEncoder().encode(`answered\n${rows.join('\n')}`);
      if (text.length <= room) new Uint8Array(memory.buffer, to, room).set(text);
      return text.length;
    };
    this.exports = {memory, answer_request, __heap_base: {value: HEAP}};
  }
}
function made() {
  const {Instance: real} = WebAssembly;
  WebAssembly.Instance = Instance;
  const core = makeCore(null);
  WebAssembly.Instance = real;
  const load = (name, size, byte) => core.load(name, new Uint8Array(size).fill(byte));
  const list = () => new TextDecoder().decode(core.answer('', '', 1).bytes).split('\n').filter(Boolean);
  return {core, load, list};
}
test('tables that stay keep their bytes, and the memory of the others is used again', () => {
  const {core, load, list} = made();
  load('KK', 20, 1);
  load('KQK', 3 * PAGE + 5, 2);
  load('KRK', 40, 3);
  load('KBK', PAGE, 4);
  assert.deepEqual(list(), ['KK 0 20 1 1', 'KQK 32 196613 2 2', 'KRK 196656 40 3 3', 'KBK 196704 65536 4 4']);
  const size = core.size();
  core.keepOnly(['KBK', 'KRK', 'KPK']);
  assert.deepEqual(list(), ['KRK 0 40 3 3', 'KBK 48 65536 4 4']);
  load('KNK', 3 * PAGE, 5);
  load('KRK', 50, 6);
  assert.deepEqual(list(), ['KBK 0 65536 4 4', 'KNK 65536 196608 5 5', 'KRK 262144 50 6 6']);
  assert.equal(core.size(), size);
  core.keepOnly([]);
  assert.deepEqual(list(), []);
});
