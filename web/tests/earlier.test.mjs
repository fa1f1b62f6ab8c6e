// Positions before a move, and what the study is to do from there.
import test from 'node:test';
import assert from 'node:assert/strict';
import {aimBefore, placesBefore} from '../src/earlier.js';

test('a mate comes later by the moves of the hero that are put in front', () => {
  const mate = {hero: 'White', goal: 'mate', k: 2};
  assert.equal(aimBefore(mate, ['White', 'Black']), 'white mate 3');
  assert.equal(aimBefore(mate, ['Black']), 'white mate 2');
  assert.equal(aimBefore({hero: 'Black', goal: 'win', k: 0}, ['Black', 'White']), 'black win');
});
test('the man that has moved stood on some free square', () => {
  const places = placesBefore('8/8/8/8/8/2k5/8/K6R w - - 3 7');
  assert.equal(places.length, 61);
  assert.ok(places.every(({fen, to}) => to === 18 && fen.endsWith(' b - - 0 6')));
});
