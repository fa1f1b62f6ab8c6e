// What is requested ahead, over made-up workers: nobody waits for it, it is not requested twice, and what the user does
// goes first.
import './stand_in.mjs';
import test from 'node:test';
import assert from 'node:assert/strict';
import {viewOf} from '../src/answer_cache.js';
import {readView} from '../src/parse_answers.js';
import {cancelPrefetch, prefetch, prefetchView} from '../src/prefetch.js';
import {repliesFor} from '../src/running.js';
import {assumeAccepted} from '../src/assumed.js';
import {app, services} from '../src/state.js';

const FEN = '8/8/8/6k1/8/8/1P5K/8 w - - 0 1',
      VIEW = `study ${FEN}\nnode root - - win 51 reply faults 0 ${FEN}\nat root 0\n`;
/** A worker that answers on demand, or at once. */
function made(requests, name) {
  const pending = [];
  return {
    pending,
    has: () => true,
    waiting: () => pending.length,
    answer: (request, text) => {
      requests.push(`${name} ${request} ${text.split('\n').length - 1}`);
      const replies = () => text.replace(/^pgn$/gm, '[FEN]\n\n1-0\n');
      const answer = {text: request === 'run' ? replies() : VIEW, ended: 'done'};
      return made.slow === name ? new Promise(ok => pending.push(() => ok(answer))) : Promise.resolve(answer);
    }
  };
}
function begin() {
  const requests = [], lines = ['position ' + FEN, 'stipulate white win'];
  made.slow = '';
  Object.assign(services, {
    core: made(requests, 'core'),
    facts: made(requests, 'facts'),
    tables: {
      knownClasses: () => ['KPK'],
      classesOf: async () => ['KPK'],
      load: async () => [],
      loadFor: async () => [],
      isTooMuch: () => false
    }
  });
  Object.assign(app, {
    history: {now: {...assumeAccepted(lines), at: 0, path: 'root', name: ''}, past: [], future: []},
    view: readView(VIEW),
    setup: null
  });
  cancelPrefetch();
  return {requests, lines};
}
const text = lines => lines.map(line => line + '\n').join('');

test('what follows from moves is requested one after the other, and then not again', async () => {
  const {requests, lines} = begin();
  await prefetch('root', [['Kg3'], ['b4']]);
  assert.equal(requests.filter(a => a.startsWith('core run')).length, 2);
  assert.equal(requests.filter(a => a.startsWith('facts view')).length, 2);
  assert.equal((await repliesFor([...lines, 'insert root Kg3'])).replies[3], '[FEN]\n\n1-0\n\n');
  assert.equal(typeof await viewOf(text([...lines, 'insert root Kg3']), '0'), 'object');
  assert.equal(requests.length, 4);
});
test('what the user does ends it', async () => {
  const {requests} = begin(), going = prefetch('root', [['Kh3'], ['b3'], ['Kg1']]);
  cancelPrefetch();
  await going;
  assert.deepEqual(requests, []);
});
test('a view does not wait behind facts', async () => {
  const {requests, lines} = begin(), now = app.history.now;
  made.slow = 'facts';
  services.facts.answer('review', '');
  await prefetchView(now, {lines: [...lines, 'insert root Kh1'], path: '0'});
  assert.deepEqual(requests, ['facts review 0', 'core view 0 3']);
});
test('a view that is coming is waited for, and requested again where it fails', async () => {
  const {requests, lines} = begin(), now = app.history.now, wanted = [...lines, 'insert root Kg2'];
  made.slow = 'facts';
  prefetchView(now, {lines: wanted, path: '0'});
  const view = viewOf(text(wanted), '0');
  services.facts.pending.pop()();
  assert.equal((await view).fen, FEN);
  assert.deepEqual(requests, ['facts view 0 3']);
  services.facts.answer = () => Promise.reject(new Error('stopped'));
  prefetchView(now, {lines: [...lines, 'insert root b3'], path: '0'});
  assert.equal(typeof await viewOf(text([...lines, 'insert root b3']), '0'), 'object');
  assert.deepEqual(requests.slice(1), ['core view 0 3']);
});
