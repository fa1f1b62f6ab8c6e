// What was typed into the text of a game is kept in the browser until the game is read.
import test from 'node:test';
import assert from 'node:assert/strict';
import {makeMended} from '../src/mended.js';

function storage(room = Infinity) {
  let text = null;
  return {
    getItem: () => text,
    setItem(_, value) {
      if (value.length > room) throw new Error('full');
      text = value;
    }
  };
}
test('a text that was typed is there again on the next page, and gone once it is read', () => {
  const local = storage(), page = makeMended(local);
  assert.equal(page.typedFor('1. Ke9'), '1. Ke9');
  page.keep('1. Ke9', '1. Ke3');
  page.keep('1. Ra9', '1. Ra8');
  page.keep('1. Ke9', '1. Ke4');
  const next = makeMended(local);
  assert.deepEqual([next.typedFor('1. Ke9'), next.typedFor('1. Ra9'), next.has('1. Ke4')], ['1. Ke4', '1. Ra8', true]);
  next.drop('1. Ke9');
  assert.deepEqual([page.typedFor('1. Ke9'), page.typedFor('1. Ra9')], ['1. Ke9', '1. Ra8']);
});
test('where the browser has no room it stays as long as the page, which knows that it is not kept', () => {
  const local = storage(60), page = makeMended(local), long = 'x'.repeat(100);
  page.keep('1. Ke9', '1. Ke3');
  page.keep('1. Ra9', long);
  assert.deepEqual([page.typedFor('1. Ra9'), page.has(long), page.has('1. Ke3')], [long, false, true]);
  assert.equal(page.typedFor('1. Ke9'), '1. Ke3');
});
test('what is no list of texts is passed over', () => {
  for (const text of ['', 'x', '{}', '[1, null]', '[{"text": 1}]'])
    assert.equal(makeMended({getItem: () => text, setItem() {}}).typedFor('1. Ke9'), '1. Ke9');
});
