// The position after some moves as the start of a study: what is said of the moves below it.
import test from 'node:test';
import assert from 'node:assert/strict';
import {notesBehind, treeFor} from '../src/ending.js';
import {insertions} from '../src/turning.js';

const node = (path, san, ...children) => ({path, san, children});
const ROOT = node('root', '', node('0', 'Kg3', node('0.0', 'Kf5', node('0.0.0', 'Kf3')), node('0.1', 'Kh5')));
test('the moves below the node come along, those of another start do not', () => {
  const lines = from => insertions(treeFor(ROOT, from)).map(({line}) => line);
  assert.deepEqual(lines({base: '0.0', turns: []}), ['insert root Kf3']);
  assert.deepEqual(lines({base: '0', turns: ['mirror']}), ['insert root Kc5', 'insert 0 Kc3', 'insert root Ka5']);
  assert.deepEqual(lines({base: 'root', turns: []}).length, 4);
});
test('the words, signs and ticks of the moves below stay there; those of moves before are gone', () => {
  const head = [
    '#! tag Annotator X', '#! note -: An old idea.', '#! note -: $18', '#! note Kg3: $3', '#! note Kg3 Kf5: best',
    '#! note Kg3 Kf5 Kf3: $1', '#! note Kg3 Kf5 Kf3: the point [%cal Gf3e4]', '#! accepted Kg3 Kf5 Kf3: dual',
    '#! note Kg3 Kh5: worse'
  ];
  const lines = ['# before', '', ...head, 'position x', 'insert root Kg3', ''],
        study = {head: 2, from: 11, end: 14, last: 12}, found = notesBehind(lines, study, ['Kg3', 'Kf5']);
  assert.deepEqual(found.lines, [
    '# before', '', '#! tag Annotator X', '#! note -: An old idea.', '#! note -: best', '#! note Kf3: $1',
    '#! note Kf3: the point [%cal Gf3e4]', '#! accepted Kf3: dual', 'position x', 'insert root Kg3', ''
  ]);
  assert.deepEqual([found.lines[found.study.from], found.lines.length], ['position x', found.study.end]);
  assert.deepEqual(notesBehind(lines, study, []), {lines, study});
});
