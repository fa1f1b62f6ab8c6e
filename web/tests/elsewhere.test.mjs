// What is known of a man's other squares: answered by a made-up program, and put in order.
import './stand_in.mjs';
import test from 'node:test';
import assert from 'node:assert/strict';
import {byRow, byTree, fenWith, rowAt, thereText, treeAt} from '../src/elsewhere.js';

const FEN = '8/8/8/6k1/8/8/1P5K/8 w - - 0 1';
const spot = (to, row, there) => ({to, sign: 'dot', text: `${to}`, row, there});

test('a man stands on another square, and all else is as it was', () => {
  assert.equal(fenWith(FEN, 15, 23), '8/8/8/6k1/8/7K/1P6/8 w - - 0 1');
  assert.equal(fenWith('4k3/8/8/8/4P3/8/8/4K3 b - e3 3 9', 60, 56), 'k7/8/8/8/4P3/8/8/4K3 b - e3 3 9');
});
test('a row of only moves is a number with moves, or none', async () => {
  const core = (text, ended) => ({answer: async request => ({text: request === `row win ${FEN}` ? text : '?', ended})});
  assert.deepEqual(await rowAt(core('0\n', 'done'), 'win', FEN), {count: 0, moves: []});
  assert.deepEqual(
    await rowAt(core('2 Kxh8 Kg6 Kg8\n', 'done'), 'win', FEN), {count: 2, moves: ['Kxh8', 'Kg6', 'Kg8']});
  assert.equal(await rowAt(core('none\n', 'done'), 'win', FEN), null);
  assert.equal(await rowAt(core('NoTable KRK\n', 'refused'), 'win', FEN), null);
});
test('the longest rows come first, and squares without one are left out', () => {
  assert.deepEqual(
    byRow([spot(1, 2), spot(2, null), spot(3, 5), spot(4, 2), spot(5, 0)]), [[5, ['3']], [2, ['1', '4']]]);
});

/** Refuses the lines that put in one of these moves; the tree has so many faults. */
const made = (refused, faults) => ({
  requests: [],
  async answer(request, script) {
    this.requests.push(request);
    const lines = script.trim().split('\n'), at = lines.findIndex(line => refused.includes(line.split(' ')[2]));
    const nodes = lines.slice(2).map(line => line.split(' ')).filter(([command]) => command === 'insert');
    const rows = nodes.map(
      ([, path, san], i) => `node ${path === 'root' ? i : path + '.0'} ${san} - draw reply faults 0 ${FEN}\n`);
    return {
      ended: 'done',
      text: `study ${FEN}\nstipulation White to win: ${faults ? `unsound ${faults}` : 'sound'}, White mates in 9\n` +
        `stamp ${
          faults ? `${faults} duals`
            : nodes.length ? 'sound'
                           : 'correct, no solution yet'}\n` +
        `node root - - win 17 - faults ${faults} ${FEN}\n${rows.join('')}at root 0\n${
          at < 0 ? '' : `refused ${at + 1} NoSuchMove\n`}`
    };
  }
});
const leaf = (san, ...children) => ({path: '', san, children});
test('a tree on another square: what is legal of it, its faults and its stamp', async () => {
  const tree = leaf('', leaf('Kg3', leaf('Kf5', leaf('Kf3')), leaf('Kh5')), leaf('b4'));
  assert.deepEqual(await treeAt(made([], 0), FEN, 'white win', tree), {kept: 5, of: 5, faults: 0, stamp: 'sound'});
  assert.deepEqual(await treeAt(made(['Kf5'], 0), FEN, 'white win', tree), {kept: 3, of: 5, faults: 0, stamp: 'sound'});
  assert.deepEqual(await treeAt(made([], 2), FEN, 'white win', tree), {kept: 5, of: 5, faults: 2, stamp: '2 duals'});
  const core = made([], 2);
  await treeAt(core, FEN, 'white win', tree);
  assert.deepEqual(core.requests, ['view root']);
  assert.deepEqual(await treeAt(made(['Kg3', 'b4'], 0), FEN, 'white win', tree),
    {kept: 0, of: 5, faults: 0, stamp: 'correct, no solution yet'});
  assert.equal(tree.children.length, 2);
  await assert.rejects(
    treeAt({answer: async () => ({text: 'NoTable KPK\n', ended: 'refused'})}, FEN, 'white win', tree), /the table KPK/);
});
test('a tree that loses many moves is given up', async () => {
  const sans = [...Array(30).keys()].map(i => `m${i}`), core = made(sans, 0);
  assert.equal((await treeAt(core, FEN, 'white win', leaf('', ...sans.map(san => leaf(san))))).kept, 0);
  assert.equal(core.requests.length, 13);
});
test('squares by what they leave of the tree', () => {
  const there = (kept, faults) => ({kept, of: 9, faults, stamp: faults ? `${faults} duals` : 'sound'});
  const list = byTree([
    spot(1, null, there(8, 0)), spot(2, null, there(9, 2)), spot(3, null, null), spot(4, null, there(0, 0)),
    spot(5, null, there(9, 0))
  ]);
  assert.deepEqual(list.map(s => thereText(s.text, s)), ['5: sound', '2: 2 duals', '1: sound, 1 of 9 moves dropped']);
});
