import assert from 'node:assert/strict';
import {test} from 'node:test';
import {firstTo, movesElsewhere} from '../src/review_details.js';

const node = (path, fen, children = []) => {
  const made = {path, fen, parent: null, children};
  for (const child of children) child.parent = made;
  return made;
};
// Two ways to the same king moves: 1. Kb2 Kd7 2. Kb3 and 1. Kb3 Kd7; clocks and numbers do not matter, the square that
// a capture in passing reaches does.
const root = node('root', '4k3/8/8/8/8/8/4P3/K7 w - - 0 1', [
  node('0', '4k3/8/8/8/8/8/KP6/8 b - - 1 1', [node('0.0', '8/3k4/8/8/8/8/KP6/8 w - - 2 2')]),
  node('1', '4k3/8/8/8/4P3/8/8/K7 b - e3 0 1'),
  node('2', '8/3k4/8/8/8/8/KP6/8 w - - 7 9'),
]);

test('of several moves that lead to a position the first in written order counts', () => {
  assert.equal(firstTo(root).get('8/3k4/8/8/8/8/KP6/8 w -'), '0.0');
});
test('the start is where no move leads', () => {
  assert.equal(firstTo(root).has('4k3/8/8/8/8/8/4P3/K7 w -'), false);
});
test('a move leads elsewhere by men, side to move and square in passing', () => {
  const moves = [
    {san: 'Kd7', fen: '8/3k4/8/8/8/8/KP6/8 w - - 31 40'},
    {san: 'Ke7', fen: '8/4k3/8/8/8/8/KP6/8 w - - 31 40'},
    {san: 'e4', fen: '4k3/8/8/8/4P3/8/8/K7 b - - 0 1'},
    {san: 'e4', fen: '4k3/8/8/8/4P3/8/8/K7 b - e3 5 3'},
  ];
  assert.deepEqual(movesElsewhere({root, moves}), [['Kd7', '0.0'], ['e4', '1']]);
});
