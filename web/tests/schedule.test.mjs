// The order of builds: over made-up needs, each table is built once, after what it needs, and never too many at a time;
// who wants a table does not wait for those that others want. The order of reading.
import test from 'node:test';
import assert from 'node:assert/strict';
import {makeBuilds, readingOrder} from '../src/schedule.js';

const NEEDS = {
  A: [],
  B: ['A'],
  C: ['A'],
  D: ['B', 'C'],
  E: ['D'],
  F: []
};
const pause = ms => new Promise(on => setTimeout(on, ms));
for (const most of [1, 2, 3, 9]) {
  test(`${most} at a time`, async () => {
    const there = new Set();
    let running = 0, highest = 0, last = null;
    const builds = makeBuilds(most,
      async name => {
        highest = Math.max(highest, ++running);
        const able = NEEDS[name].every(n => there.has(n));
        await pause(able ? 3 + name.charCodeAt(0) % 5 : 1);
        running--;
        if (able) {
          assert.ok(!there.has(name));
          there.add(name);
        }
        return able;
      },
      ({running: now, waiting}) => {
        last = [now, waiting];
      });
    await Promise.all([builds.want(['A', 'B', 'C', 'D']), builds.want(['A', 'C', 'D', 'E', 'F']), builds.want([])]);
    assert.equal(there.size, 6);
    assert.ok(highest <= most);
    await pause(1);
    assert.deepEqual(last, [[], []]);
    assert.ok(!builds.isBusy());
  });
}
/** Builds that end on demand. */
function held(most = 1) {
  const begun = [], ends = new Map();
  const builds = makeBuilds(most, name => new Promise((ok, no) => {
    begun.push(name);
    ends.set(name, [() => ok(true), no]);
  }),
    () => {});
  return {
    builds,
    begun,
    done: async name => {
      ends.get(name)[0]();
      await pause(0);
    },
    fail: async name => {
      ends.get(name)[1](new Error(name));
      await pause(0);
    }
  };
}
test('a small wish does not wait for the end of a large one, and what is wanted last begins next', async () => {
  const {builds, begun, done} = held(), settled = [];
  builds.want(['A', 'B', 'C', 'D']).then(() => settled.push('large'));
  builds.want(['A', 'X']).then(() => settled.push('small'));
  await done('A');
  await done('X');
  assert.deepEqual([begun, settled], [['A', 'X', 'B'], ['small']]);
  for (const name of ['B', 'C', 'D']) await done(name);
  assert.deepEqual([begun, settled], [['A', 'X', 'B', 'C', 'D'], ['small', 'large']]);
});
test('a fault ends all wishes; a later one begins anew once the other builds have ended', async () => {
  const {builds, begun, done, fail} = held(2), first = assert.rejects(builds.want(['A', 'B', 'C']), /A/);
  await fail('A');
  await first;
  const second = builds.want(['D']);
  assert.deepEqual(begun, ['A', 'B']);
  await done('B');
  assert.deepEqual(begun, ['A', 'B', 'D']);
  await done('D');
  await second;
});
test('what cannot be built is reported', async () => {
  await assert.rejects(makeBuilds(2, async name => name === 'A', () => {}).want(['A', 'B']), /B could not be built/);
  await assert.rejects(makeBuilds(2, async () => {
    throw new Error('a trap');
  }, () => {}).want(['A', 'B']), /a trap/);
});
test('the largest file is read first, then small ones, then the others', () => {
  const sizes = {A: 3, B: 50, C: 90, D: 1, E: 70, F: 50};
  assert.deepEqual(readingOrder(Object.keys(sizes), name => sizes[name], 10), ['C', 'A', 'D', 'E', 'B', 'F']);
  assert.deepEqual(readingOrder([], name => sizes[name], 10), []);
  assert.deepEqual(readingOrder(['D', 'A'], name => sizes[name], 10), ['A', 'D']);
});
