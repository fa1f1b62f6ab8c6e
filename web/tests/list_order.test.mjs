// The order of the list of entries while its studies are edited.
import test from 'node:test';
import assert from 'node:assert/strict';
import {UNSORTED, besideIn, inOrder} from '../src/list_order.js';

const row = (number, kind, count = 0) =>
  ({number: `${number}`, title: '', author: '', aim: '', kind, faults: [], count});
const shown = ({entries}) => entries.map(({number}) => number).join(' ');
const VERDICT = {
  by: 'verdict',
  back: false
};

test('an edit moves no row of a sorted list, until the reader sorts it again', () => {
  const before = [row(1, 'sound'), row(2, 'duals', 3), row(3, 'wrong'), row(4, 'duals', 1)],
        doc = {id: 'x', lines: ['a']}, ticked = [before[0], row(2, 'accepted'), before[2], before[3]],
        edited = {id: 'x', lines: ['a', 'b']};
  const first = inOrder(UNSORTED, before, doc, VERDICT);
  assert.deepEqual([shown(first), first.late], ['3 2 4 1', false]);
  const then = inOrder(first.held, ticked, edited, VERDICT);
  assert.deepEqual([shown(then), then.late], ['3 2 4 1', true]);
  const again = inOrder(then.held, ticked, edited, {...VERDICT});
  assert.deepEqual([shown(again), again.late], ['3 4 2 1', false]);
});
test('a list is sorted as its facts are found, and when a study comes or goes', () => {
  const open = [row(1, 'faults', 1), row(2, 'faults', 1)], doc = {id: 'x', lines: ['a']},
        first = inOrder(UNSORTED, open, doc, VERDICT);
  assert.equal(shown(first), '1 2');
  const found = inOrder(first.held, [row(1, 'time', 1), row(2, 'mistake', 1)], doc, VERDICT);
  assert.deepEqual([shown(found), found.late], ['2 1', false]);
  const more = [row(1, 'time', 1), row(2, 'mistake', 1), row(3, 'wrong')];
  assert.equal(shown(inOrder(found.held, more, {id: 'x', lines: ['b']}, VERDICT)), '3 2 1');
  assert.equal(shown(inOrder(found.held, more.slice(0, 2).reverse(), {id: 'y', lines: ['c']}, VERDICT)), '2 1');
});
test('the next study is the one below the row that an edit took out of the list', () => {
  const stood = {at: 5, row: 1, chosen: 'duals'};
  assert.equal(besideIn([2, 5, 7], 5, 1, stood, 'duals'), 7);
  assert.deepEqual([besideIn([2, 7], 5, 1, stood, 'duals'), besideIn([2, 7], 5, -1, stood, 'duals')], [7, 2]);
  assert.deepEqual([besideIn([2, 7], 5, 1, stood, 'wrong'), besideIn([2, 7], 5, -1, stood, 'wrong')], [2, 7]);
  assert.equal(besideIn([2], 5, 1, stood, 'duals'), undefined);
});
