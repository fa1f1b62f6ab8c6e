// Values, marks and zugzwangs in the words of the printed page.
import './stand_in.mjs';
import test from 'node:test';
import assert from 'node:assert/strict';
import {answersText, clockText, keepText, lateBy, moveName, valueText, zugzwangText} from '../src/words.js';

const value = (kind, n) => ({kind, n});
test('values', () => {
  assert.equal(valueText('White', value('win', 5)), 'White mates in 3');
  assert.equal(valueText('White', value('loss', 4)), 'Black mates in 2');
  assert.equal(valueText('Black', value('loss', 0)), 'mate');
  assert.equal(valueText('Black', value('draw', 0)), 'draw');
  assert.equal(moveName({parent: null}), 'the start');
  assert.deepEqual(
    [answersText(0), answersText(3), keepText(4, 7)], ['stalemate', '3 answers', '4 of 7 moves keep the draw: ']);
});
test('a time as on a clock', () => {
  assert.deepEqual([0, 59, 60, 185].map(clockText), ['0 s', '59 s', '1:00 minutes', '3:05 minutes']);
});
test('zugzwangs', () => {
  assert.equal(zugzwangText('full'), 'full point; White to move: Black wins; Black to move: White wins');
  assert.equal(zugzwangText('half white'), 'half a point; White to move: draw; Black to move: White wins');
  assert.equal(zugzwangText('half black'), 'half a point; White to move: Black wins; Black to move: draw');
});
test('a mate that comes too late', () => {
  const aim = k => ({hero: 'White', goal: 'mate', k}), black = 'k7/8/8/8/8/8/8/KQ6 b - - 0 2';
  // White has made one move, and mates in 16 more: in 17 of his, whoever began
  assert.equal(lateBy(aim(15), {path: '0', fen: black, value: value('loss', 32)}), 2);
  assert.equal(lateBy(aim(15), {path: '0.0', fen: black, value: value('loss', 32)}), 2);
  assert.equal(lateBy(aim(2), {path: '0.0.0', fen: black, value: value('loss', 2)}), 1);
  assert.equal(lateBy(aim(15), {path: '0', fen: black, value: value('draw', 0)}), 0);
  assert.equal(lateBy({hero: 'White', goal: 'win', k: 0}, {path: '0', fen: black, value: value('loss', 32)}), 0);
});
