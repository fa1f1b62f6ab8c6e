// Remarks as the program reads them, and the words that it says: test_web has the same rows of both.
import test from 'node:test';
import assert from 'node:assert/strict';
import {readFileSync} from 'node:fs';
import {isOfImport, keepRemarks, known, ownRemark, remarkOf, remarksOfKind, unknownIn} from '../src/remarks.js';
import {commandKind, gameReason, refusalReason, wordOf, wordsNamed} from '../src/wording.js';
import {rowOf} from './stand_in.mjs';

const data = name => readFileSync(new URL(`data/${name}`, import.meta.url), 'utf8'),
      LINES = data('remarks.script').trimEnd().split('\n'), ROWS = data('remarks.rows');
test('the stand-in for the program reads remarks as it does', () => {
  const rows = LINES.flatMap((line, i) => (rowOf(line) ? [`${i + 1}\t${rowOf(line)}\n`] : []));
  assert.equal(rows.join(''), ROWS);
});
test('the fields of a remark', () => {
  known.clear();
  assert.deepEqual(unknownIn([...LINES, LINES[0]]), [LINES.filter(line => /^#!? /.test(line))]);
  keepRemarks(LINES, ROWS);
  assert.deepEqual(unknownIn(LINES), []);
  const none = {game: 0, line: 0, column: 0, author: '', name: '', said: '', games: 0, studies: 0};
  assert.deepEqual(remarkOf(LINES[1]),
    {...none, kind: 'left-out', game: 4, line: 52, column: 17, author: 'Kasparyan, G.', said: 'NoSuchMove at Kb6'});
  assert.deepEqual(remarkOf(LINES[9]), {...none, kind: 'original', name: 'White', said: 'Troickij'});
  assert.deepEqual(remarkOf(LINES[10]), {...none, kind: 'latin-1', name: 'White'});
  assert.deepEqual(remarkOf(LINES[11]), {...none, kind: 'letters', said: 'German'});
  assert.deepEqual(remarksOfKind(LINES, 'total'), [{...none, kind: 'total', games: 7, studies: 2}]);
  assert.deepEqual(ownRemark(LINES[18]), {word: 'note', rest: 'Kg3: good'});
  assert.deepEqual(ownRemark(LINES[0]), {word: '', rest: ''});
  assert.deepEqual([0, 11, 15, 18, 19].map(at => isOfImport(LINES[at])), [true, true, false, false, false]);
});
test('remarks of a long script are read in parts, which a request has room for', () => {
  const lines = [...Array(100001).keys()].map(n => `#! note Kb${n}: good`), parts = unknownIn([...lines, '#> tag A B']);
  assert.deepEqual(parts.flat(), lines);
  assert.ok(parts.every(part => part.length <= 100000));
});
test('the words of the program', () => {
  assert.equal(refusalReason('BadByte'), 'a letter outside plain ASCII');
  assert.equal(gameReason('NullMove'), 'a null move in the main line');
  assert.deepEqual(['shift', 'mark', 'save', 'dance'].map(commandKind), ['edit', 'question', 'table', '']);
  assert.equal(wordOf('lets-go'), ' throws it away: ');
  assert.deepEqual(wordsNamed('ends-heads'), ['After', 'Value', 'Continuation']);
});
