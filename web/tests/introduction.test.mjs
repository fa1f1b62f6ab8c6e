// The longest introduction, over a made-up list of the moves before a position.
import test from 'node:test';
import assert from 'node:assert/strict';
import {introductionText, longest, ownMoves} from '../src/introduction.js';

/** Moves by the position that they lead to, each with the position before and its mark; w or b is to move before. */
const BEFORE = {
  'start w': [['x b', 'reply'], ['y b', 'mistake'], ['z b', 'reply']],
  'x b': [['x1 w', 'dual'], ['x2 w', 'only']],
  'z b': [['z1 w', 'only']],
  'z1 w': [['x b', 'reply'], ['z2 b', 'reply']],
  'z2 b': [['z3 w', 'only'], ['start w', 'only']],
  'y b': [['y1 w', 'only']]
};
const before = async fen => ({
  moves:
    (BEFORE[fen.replace(' - - 0 1', '')] || []).map(([at, mark]) => ({fen: `${at} - - 0 1`, san: at, from: 0, mark})),
  lacking: []
});
const AIM = {
  hero: 'White',
  goal: 'win',
  k: 0
};
test('it goes back as far as only moves go, and never through a mistake or in a circle', async () => {
  const reports = [], signal = new AbortController().signal,
        found = await longest('start w - - 0 1', AIM, now => reports.push(now.best.length), signal, before);
  assert.deepEqual(found.best.map(move => move.san), ['z3 w', 'z2 b', 'z1 w', 'z b']);
  assert.deepEqual([ownMoves(found.best, 'White'), found.ended, found.looked], [2, true, 7]);
  assert.equal(reports.length, found.looked);
});
test('it says what was not looked at once it has ended', () => {
  const began = performance.now(), best = [{fen: 'x b - - 0 1', san: 'Kd5'}, {fen: 'x w - - 0 1', san: 'Kd4'}],
        found = {best: [], looked: 2, began, ended: true},
        text = (more, going) => introductionText({...found, ...more}, 'White', going);
  assert.equal(text({}, false),
    'No only move in front; 2 positions looked at in 0 s, all there are without captures, castling and double steps.');
  assert.equal(text({best, ended: false}, false), '1 only move in front; 2 positions looked at in 0 s; stopped there.');
  assert.equal(text({best, ended: false}, true), '1 only move in front so far; 2 positions looked at in 0 s.');
  assert.equal(introductionText(null, 'White', true), 'No only move in front so far; 0 positions looked at in 0 s.');
});
test('it is stopped, and keeps what it found', async () => {
  const stop = new AbortController(), found = await longest('start w - - 0 1', AIM, now => {
    if (now.best.length) stop.abort();
  }, stop.signal, before);
  assert.deepEqual([found.best.length > 0, found.ended], [true, false]);
});
