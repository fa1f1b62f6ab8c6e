// Workers around the core, with made-up workers: a trap or a stop ends a worker, and whoever waits hears of it; the
// next question begins a new one.
import test from 'node:test';
import assert from 'node:assert/strict';
import {ending} from '../src/core_host.js';
import {Stopped, makeCore} from '../src/engine.js';

/** A worker that answers each request by its own text, and traps at `trap`. */
class Made {
  static begun = 0;
  constructor() {
    this.ended = false;
    this.seen = [];
    Made.begun++;
  }
  postMessage(message) {
    this.seen.push(message.kind);
    if (message.request === 'sleep') return;
    setTimeout(() => {
      if (this.ended) return;
      if (message.request === 'trap')
        return this.onmessage({data: {id: message.id, failed: 'RuntimeError: unreachable'}});
      const bytes = new TextEncoder().encode(message.request || '');
      this.onmessage({data: {id: message.id, bytes, ended: 'done', saved: [], ms: 1, memory: 2}});
    });
  }
  terminate() { this.ended = true; }
}
function begun() {
  const workers = [], core = makeCore(() => {
    const w = new Made();
    workers.push(w);
    return w;
  }, async () => ({}));
  return {workers, core};
}
test('answers come to those who wait for them', async () => {
  const {core, workers} = begun();
  const texts = await Promise.all(['a', 'b', 'c'].map(text => core.answer(text, '', 1)));
  assert.deepEqual(texts.map(t => t.text), ['a', 'b', 'c']);
  assert.equal(workers.length, 1);
  assert.equal(workers[0].seen[0], 'start');
});
test('a trap ends the worker, with the tables in it; the next question begins anew', async () => {
  const {core, workers} = begun();
  await core.load('KK', new Uint8Array(8));
  assert.ok(core.has('KK'));
  const waiting = core.answer('sleep', '', 1), other = assert.rejects(waiting, /unreachable/);
  await assert.rejects(core.answer('trap', '', 1), /unreachable/);
  await other;
  assert.ok(!core.has('KK') && workers[0].ended);
  assert.equal((await core.answer('again', '', 1)).text, 'again');
  assert.equal(workers.length, 2);
});
test('tables that nobody needs are dropped, and a worker that has ended has no memory', async () => {
  const {core, workers} = begun();
  for (const name of ['KK', 'KQK', 'KRK']) await core.load(name, new Uint8Array(8));
  core.keepOnly(['KQK', 'KBK']);
  assert.deepEqual([core.held(), core.last.memory], [['KQK'], 2]);
  await core.answer('a', '', 1);
  assert.deepEqual(workers[0].seen, ['start', 'load', 'load', 'load', 'keep', 'answer']);
  core.end();
  core.keepOnly([]);
  assert.deepEqual([core.held(), core.last.memory, workers.length], [[], 0, 1]);
});
test('a stop is reported as a stop', async () => {
  const {core} = begun();
  await core.answer('a', '', 1);
  const waiting = core.answer('sleep', '', 1), stopped = assert.rejects(waiting, fault => fault instanceof Stopped);
  await new Promise(on => setTimeout(on, 5));
  core.end();
  await stopped;
});
test('a module that is not compiled is reported', async () => {
  const core = makeCore(() => new Made(), async () => {
    throw new Error('no module');
  });
  await assert.rejects(core.answer('a', '', 1), /no module/);
});
test('how an answer ended', () => {
  assert.deepEqual(['answered', 'refused', 'ran 7 1', 'stopped LineTooLong 3', 'stopped OutOfMemory'].map(ending),
    ['done', 'refused', 'done', 'LineTooLong 3', 'OutOfMemory']);
});
