// What is typed into a field of the study is there again after a reload, until it is handed over.
import test from 'node:test';
import assert from 'node:assert/strict';
import {makeUnfinished} from '../src/unfinished.js';

function storage() {
  const texts = new Map();
  return {
    getItem: key => texts.get(key) ?? null,
    setItem: (key, text) => texts.set(key, text),
    removeItem: key => texts.delete(key)
  };
}
const place = {
  of: 'x',
  at: 2,
  path: '0.1'
};
test('the last words are kept for their field, document, study and move', () => {
  const session = storage(), page = makeUnfinished(session);
  assert.equal(page.kept(), null);
  page.keep({id: 'note', value: 'Not', ...place});
  page.keep({id: 'note', value: 'Not the king', ...place});
  const next = makeUnfinished(session);
  assert.deepEqual(next.kept(), {id: 'note', value: 'Not the king', ...place});
  next.drop('note', 'Not');
  assert.equal(next.kept().value, 'Not the king');
  next.drop('note', 'Not the king');
  assert.equal(next.kept(), null);
});
test('a move and a script that are being typed are kept, the script on an empty board too', () => {
  const page = makeUnfinished(storage());
  page.keep({id: 'san', value: 'Kg3 K', ...place});
  assert.equal(page.kept().value, 'Kg3 K');
  page.keep({id: 'script', value: 'position', ...place, of: ''});
  assert.deepEqual(page.kept(), {id: 'script', value: 'position', ...place, of: ''});
});
test('a field that is not of the study, and a board without a study, keep nothing', () => {
  const page = makeUnfinished(storage());
  page.keep({id: 'seek', value: 'Kg3', ...place});
  page.keep({id: 'san', value: 'Kg3', ...place, of: ''});
  page.keep({id: 'notes', value: 'x', ...place});
  page.keep({id: 'tagSite', value: 'Praha', ...place, of: ''});
  assert.equal(page.kept(), null);
  page.keep({id: 'tagSite', value: 'Praha', ...place});
  assert.equal(page.kept().id, 'tagSite');
});
test('a page that can keep nothing, and a text that is not its own, stop nothing', () => {
  const full = {getItem: () => '[', setItem() { throw new Error('full'); }, removeItem() {}};
  const page = makeUnfinished(full);
  page.keep({id: 'note', value: 'x', ...place});
  assert.equal(page.kept(), null);
});
