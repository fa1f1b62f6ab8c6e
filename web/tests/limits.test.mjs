// Texts of any length: what a field takes, and whether a tree has room for moves, before a line is made of them.
import './stand_in.mjs';
import test from 'node:test';
import assert from 'node:assert/strict';
import {limitOf, tooLong} from '../src/limits.js';
import {insertions, overTree} from '../src/tree_room.js';
import {typedMoves} from '../src/typed.js';

/** A tree of one line, or of moves that all follow the start. */
const node = (path, san) => ({path, san, from: -1, to: -1, promoted: '', children: []});
function line(plies) {
  const root = node('root', '');
  let at = root, path = '';
  for (let ply = 0; ply < plies; ply++) {
    path += path ? '.0' : '0';
    const next = node(path, ply % 2 ? 'Ka8' : 'Ka1');
    at.children.push(next);
    at = next;
  }
  return {root, end: path || 'root'};
}
const row = moves => ({...node('root', ''), children: Array.from({length: moves}, (_, at) => node(`${at}`, `N${at}`))});
test('a field takes a text up to its limit; a longer one is refused with a sentence', () => {
  assert.equal(tooLong('san', 'x'.repeat(65536)), '');
  assert.equal(tooLong('san', 'x'.repeat(65537)),
    'This text has 65,537 letters, and the field for moves takes 65,536: enter fewer moves at a time. ' +
      'Nothing was changed.');
  assert.equal(tooLong('fen', '8/'.repeat(500)),
    'This text has 1,000 letters, and the field for a position takes 200: write a FEN, or men as ' +
      'Kb6 Pc6 / Ka1 Rd5. Nothing was changed.');
  assert.equal(tooLong('tagWhite', 'R'.repeat(201)),
    'This text has 201 letters, and this field takes 200: a script has room for 60. Nothing was changed.');
  assert.match(tooLong('script', 'x'.repeat(200001)), /200,001 letters.* 200,000: save the text as a file, and open/);
  assert.match(tooLong('findSquares', 'x'.repeat(201)), /this field takes 200/);
  assert.deepEqual(['san', 'fen', 'tagDate', 'script', 'cutText', 'findN'].map(id => limitOf(id).where),
    ['board', 'fen', 'head', 'script', 'cut', 'board']);
});
test('a line has at most 256 plies from the start', () => {
  const {root, end} = line(250);
  assert.equal(overTree(root, end, Array(6).fill('Kb1')), '');
  assert.equal(overTree(root, end, Array(7).fill('Kb1')),
    'A line has at most 256 plies from the start, and this one would have 257: enter fewer moves. ' +
      'Nothing was changed.');
  // In brackets a move begins where the one before it does.
  assert.equal(overTree(root, end, ['Kb1', 'Kb2', 'Kb3', 'Kb4', 'Kb5', 'Kb6', '(', 'Kc6', ')']), '');
  assert.match(overTree(root, end, ['Kb1', 'Kb2', 'Kb3', 'Kb4', 'Kb5', 'Kb6', '(', 'Kc6', 'Kc7', ')']), / 257:/);
});
test('a tree has at most 4,096 nodes with the start; what is there already is not counted again', () => {
  const there = Array.from({length: 4095}, (_, at) => ['(', `N${at}`, ')']).flat();
  assert.equal(overTree(row(0), 'root', there), '');
  assert.equal(overTree(row(4095), 'root', there), '');
  assert.equal(overTree(row(4094), 'root', ['Kb1']), '');
  assert.equal(overTree(row(4094), 'root', ['Kb1', 'Kb2']),
    'A study has at most 4,095 moves, and with these it would have 4,096: enter fewer moves. Nothing was changed.');
});
test('no line is made of a long paste', () => {
  for (const text of ['Kg3 Kf5 ', '(Ka1) ', '((((', '1', '1 ', 'e.p.', 'a8Q+', ') (', 'Ka1(']) {
    assert.equal(typeof overTree(row(0), 'root', typedMoves(text.repeat(65536 / text.length))), 'string');
  }
  assert.match(overTree(row(0), 'root', typedMoves('Kg3 Kf5 '.repeat(2000))), /would have 4,000:/);
  assert.equal(typedMoves('1'.repeat(65536))[0].length, 40);
  const wide = insertions(row(0), 'root', [Array.from({length: 4095}, (_, at) => ['(', `N${at}`, ')']).flat()]);
  assert.equal(wide.more.length, 4095);
});
