// What a screen reader hears: texts that come together are one text, and the same text is said again.
import './stand_in.mjs';
import test from 'node:test';
import assert from 'node:assert/strict';
import {spokenNode} from '../src/spoken.js';
import {together} from '../src/voice.js';
import {readView} from '../src/parse_answers.js';
import {app} from '../src/state.js';

test('texts that come together', () => {
  assert.equal(together(['white king g3.', 'Verdict: sound'], ''), 'white king g3. Verdict: sound');
  assert.notEqual(together(['white king g3'], 'white king g3'), 'white king g3');
  assert.equal(together(['white king g3'], 'white king g3').trim(), 'white king g3');
});
test('a node with its mark, its value and the words on it', () => {
  const fen = '8/8/8/6k1/8/8/1P5K/8 w - - 0 1', after = '8/8/8/6k1/8/6K1/1P6/8 b - - 1 1';
  const view = readView(`study ${fen}\nnode root - - win 55 reply faults 0 ${fen}\n` +
    `node 0 Kg3 h2g3 loss 54 only faults 0 ${after}\nzugzwang 0 half white\n`);
  const lines = ['#! note Kg3: $1', '#! note Kg3: quiet', `position ${fen}`],
        study = {head: 0, from: 2, end: 3, aim: {hero: 'White', goal: 'win', k: 0}};
  Object.assign(app, {view, history: {now: {lines, studies: [study], at: 0, path: '0'}, past: [], future: []}});
  assert.equal(spokenNode(study, view.root, ''), 'the start, White mates in 28');
  assert.equal(spokenNode(study, view.root.children[0], ''),
    'white king g3, the only move that works, White mates in 27, mutual zugzwang, half a point; White to move: draw; ' +
      'Black to move: White wins, note: ! quiet');
});
