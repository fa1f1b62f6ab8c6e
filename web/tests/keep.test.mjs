// The documents that a browser keeps, over made-up storage: each at its place, with its undo, and two pages never write
// into one.
import './stand_in.mjs';
import test from 'node:test';
import assert from 'node:assert/strict';
import {inOrder, nameInList, summary} from '../src/heads.js';
import {difference, makeKeeper, toSteps, fromSteps} from '../src/keep.js';
import {advance, begin, undo} from '../src/history.js';

/** Storage for so many letters. */
function made(room = 1e6) {
  const map = new Map();
  return {
    map,
    get length() { return map.size; },
    key: i => [...map.keys()][i] ?? null,
    getItem: key => map.get(key) ?? null,
    setItem(key, text) {
      const used = [...map].reduce((sum, [k, v]) => sum + (k === key ? 0 : v.length), 0);
      if (used + text.length > room) throw new Error('QuotaExceededError');
      map.set(key, text);
    },
    removeItem: key => map.delete(key)
  };
}
const doc = (id, ...lines) =>
  ({id, lines, studies: [], refused: [], at: 0, path: 'root', name: '', note: '', judged: true});
const history = (id, ...states) =>
  states.slice(1).reduce((h, lines) => advance(h, doc(id, ...lines)), begin(doc(id, ...states[0])));
const texts = list => list.map(d => d.lines.join(' '));

test('a change of lines is what replaces what', () => {
  for (const [old, next] of [['', 'a'], ['a b c', 'a c'], ['a b c', 'a b b c'], ['a', ''], ['a b', 'c d e'],
         ['a b c', 'a b c'], ['a a a', 'a a']]) {
    const [from, to] = [old, next].map(t => t.split(' ').filter(Boolean)),
                 {from: at, gone, lines} = difference(from, to);
    assert.deepEqual([...from.slice(0, at), ...lines, ...from.slice(at + gone)], to);
  }
});
test('states are kept as changes and come back, those of other documents left out', () => {
  const states = [['p'], ['p', 'q'], ['p', 'x', 'q'], ['p', 'q'], []], now = doc('A', 'p', 'q', 'r');
  const steps = toSteps(now, [...states.map(s => doc('A', ...s)), doc('B', 'z')]);
  assert.deepEqual(fromSteps(now, JSON.parse(JSON.stringify(steps))).map(d => d.lines), states);
  assert.ok(fromSteps(now, steps).every(d => !d.judged && d.id === 'A'));
  assert.deepEqual([fromSteps(now, 'nonsense'), fromSteps(now, [{}])[0].lines], [[], ['p', 'q', 'r']]);
});
test('a document is kept with its undo and its redo', () => {
  const local = made(), h = undo(history('A', ['p'], ['p', 'q'], ['p', 'q', 'r']));
  assert.ok(makeKeeper({local, page: '1', now: () => 5}).keep(h, null, ['KK']));
  const {head, history: back} = makeKeeper({local, page: '2'}).open('A', false);
  assert.deepEqual([texts(back.past), back.now.lines, texts(back.future)], [['p'], ['p', 'q'], ['p q r']]);
  assert.deepEqual([head.time, head.tables, head.verdict], [5, ['KK'], 'not judged']);
});
test('a document that no browser has room for costs no other its undo, and one that has none is not tried at each walk',
  () => {
    let tried = 0;
    const local = made(2000), keeper = makeKeeper({
      local: {
        ...local,
        getItem: key => local.getItem(key),
        get length() { return local.length; },
        setItem: (key, text) => {
          tried++;
          local.setItem(key, text);
        }
      },
      page: '1'
    }),
          small = history('A', ['p'], ['p', 'q']);
    keeper.keep(small, null, []);
    assert.equal(keeper.keep(history('B', ['x'.repeat(6e6)]), null, []), false);
    assert.equal(keeper.open('A', false).history.past.length, 1);
    const large = history('C', ['x'.repeat(3000)]);
    assert.equal(keeper.keep(large, null, []), false);
    tried = 0;
    assert.equal(keeper.keep({...large, now: {...large.now, path: '0'}}, null, []), false);
    assert.equal(tried, 0);
    keeper.remove('A');
    keeper.keep(large, null, []);
    assert.ok(tried > 0);
  });
test('each document has a place of its own, the one seen last is first, and a walk does not count as a change', () => {
  let clock = 0;
  const local = made(), keeper = makeKeeper({local, page: '1', now: () => ++clock}), a = history('A', ['p']);
  keeper.keep(a, null, []);
  keeper.keep(history('B', ['q']), null, []);
  const before = keeper.headAt('A').time;
  keeper.keep({...a, now: {...a.now, path: '0.0'}}, null, []);
  assert.deepEqual(keeper.list().map(h => h.id), ['A', 'B']);
  assert.deepEqual([keeper.headAt('A').time, keeper.headAt('A').path], [before, '0.0']);
  keeper.remove('A');
  assert.deepEqual(keeper.list().map(h => h.id), ['B']);
});
test('two pages with one document: the one whose document was taken over goes on at a new place', () => {
  const local = made(), first = makeKeeper({local, page: '1'}), second = makeKeeper({local, page: '2'});
  first.keep(history('A', ['p']), null, []);
  second.open('A', false);
  second.keep(history('A', ['p'], ['p', 'second']), null, []);
  first.keep(history('A', ['p'], ['p', 'first']), null, []);
  second.keep(history('A', ['p'], ['p', 'second', 'again']), null, []);
  first.keep(history('A', ['p'], ['p', 'first', 'again']), null, []);
  const scripts = first.list().map(h => makeKeeper({local, page: '3'}).open(h.id, true).history.now.lines.join(' '));
  assert.deepEqual(scripts.sort(), ['p first again', 'p second again']);
  assert.equal(second.placeOf('A'), 'A');
  assert.notEqual(first.placeOf('A'), 'A');
});
test('a copy leaves the document to its page', () => {
  const local = made(), first = makeKeeper({local, page: '1'}), second = makeKeeper({local, page: '2'});
  first.keep(history('A', ['p']), null, []);
  second.open('A', true);
  second.keep(history('A', ['p', 'copy']), null, []);
  first.keep(history('A', ['p', 'own']), null, []);
  assert.equal(first.placeOf('A'), 'A');
  assert.equal(first.list().length, 2);
});
test('a set-up is kept, with the men put down before', () => {
  const local = made(), keeper = makeKeeper({local, page: '1'});
  const draft = {
    placed: '8/8/8/7k/8/8/1P4K1/8 w - - 0 1|white win',
    past: ['8/8/8/8/8/8/8/8 w - - 0 1|white win'],
    future: [],
    anew: true,
    more: false,
    id: 'D'
  };
  keeper.keep(history('D', []), draft, []);
  assert.equal(keeper.headAt('D').title, 'Set-up: Kg2 Pb2 / Kh5');
  assert.deepEqual(keeper.open('D', false).head.draft, draft);
});
test('where there is no room the undo of other documents goes, never a script', () => {
  const local = made(3000), keeper = makeKeeper({local, page: '1'}), long = 'x'.repeat(400);
  keeper.keep(history('A', [long], ['a', long + 1], ['a', long + 2]), null, []);
  assert.ok(keeper.keep(history('B', ['b', long]), null, []));
  assert.ok(keeper.keep(history('C', ['c', long + long]), null, []));
  assert.deepEqual(['A', 'B', 'C'].map(id => keeper.open(id, true).history.now.lines[0]), ['a', 'b', 'c']);
  assert.deepEqual(keeper.open('A', true).history.past, []);
  assert.ok(!keeper.keep(history('D', [long.repeat(9)]), null, []));
});
test('what another page wrote there is only text, or nothing', () => {
  const local = made(), keeper = makeKeeper({local, page: '1'});
  local.setItem('studyboard.head.X', '{"title": {"a": 1}, "time": "<b>", "tables": 7, "draft": 5}');
  local.setItem('studyboard.head.Y', '{"script"');
  local.setItem('studyboard.body.X', '[1');
  assert.deepEqual(keeper.list().map(h => [h.id, h.title, h.time, h.tables, h.draft]), [['X', '', 0, [], null]]);
  assert.deepEqual(keeper.open('X', false).history.now.lines, []);
});
test('what a list says of a document', () => {
  const fen = '8/8/1KP5/3r4/8/8/8/k7 w - - 0 1', lines = ['position ' + fen, 'insert root c7'];
  const study = (verdict, Event) => ({
    verdict,
    tags: {Event, White: 'Réti'},
    originals: {},
    place: {Event: 1, White: 1},
    fen,
    from: 0,
    end: 2,
    aim: {hero: 'White', goal: 'win', k: 0}
  });
  const said = (studies, shown = lines, reviews = [], open = []) =>
    summary({studies, lines: shown, refused: []}, reviews, open);
  assert.deepEqual(said([study('unsound 3', 'A')]), {title: 'A, Réti', verdict: '3 faults'});
  assert.deepEqual(said([study('unsound 1', 'A')], lines,
                     [{faults: [{path: '0', kind: 'dual', duals: 2, time: 2}], stamp: 'sound, duals waste time'}]),
    {title: 'A, Réti', verdict: 'sound, duals waste time'});
  assert.equal(said([study('unsound 1', 'A'), study('sound', 'B')], lines,
                 [{faults: [{path: '0', kind: 'dual', duals: 2, time: 2}], stamp: 'sound, duals waste time'}])
                 .verdict,
    '1 sound; 1 sound, duals waste time');
  assert.deepEqual(said([study('unsound 3', '?'), study('sound', 'B'), study('sound', 'B')]),
    {title: 'Réti and 2 more studies', verdict: '2 sound; 1 with duals'});
  assert.deepEqual(
    said([study('sound', 'A')], [lines[0], '']), {title: 'A, Réti', verdict: 'correct, no solution yet'});
  assert.deepEqual(said([{...study('', '?'), tags: {}}]), {title: 'Kb6 Pc6 / Ka1 Rd5', verdict: 'not judged'});
  assert.equal(said([study('unsound 3', 'A')], lines, [], [true]).verdict, '3 faults …');
  assert.equal(
    said([study('unsound 3', 'A'), study('sound', 'B')], lines, [], [true, false]).verdict, '1 sound; 1 with faults …');
  const out = '#! game 2, line 60, column 3: NoSuchMove at Kb6';
  assert.equal(said([study('sound', 'A'), study('sound', 'B')], [...lines, out]).verdict, '2 sound; 1 left out');
  assert.equal(said([study('sound', 'A')], [...lines, out]).verdict, '1 sound; 1 left out');
});
test('the verdict of a script that is opened again stays until its facts are found', () => {
  const lines = ['position 8/8/1KP5/3r4/8/8/8/k7 w - - 0 1', 'insert root c7'], local = made();
  const study = {verdict: 'unsound 1', tags: {}, originals: {}, place: {}, fen: lines[0].slice(9), from: 0, end: 2},
        review = {faults: [{path: '0', kind: 'dual', duals: 1, time: 0}], stamp: 'cook: 1. c7'};
  let known = true;
  const factsOf = () => (known ? {reviews: [review], open: [false]} : {reviews: [null], open: [true]});
  const keeper = makeKeeper({local, page: '1', factsOf}), verdict = () => keeper.headAt('A').verdict;
  const state = {...doc('A', ...lines), studies: [{...study, aim: {hero: 'White', goal: 'win', k: 0}}]};
  keeper.keep(begin(state), null, []);
  assert.equal(verdict(), 'cook: 1. c7');
  known = false;
  keeper.keep(begin({...state, studies: [...state.studies]}), null, []);
  assert.equal(verdict(), 'cook: 1. c7');
  keeper.keep(begin({...state, lines: [...lines, 'insert root Kb7'], studies: [...state.studies]}), null, []);
  assert.equal(verdict(), '1 fault …');
});
test('after a copy of the open document that one is the next version, and the copy is what it was before', () => {
  let clock = 0;
  const local = made(), keeper = makeKeeper({local, page: '1', now: () => ++clock});
  keeper.keep(history('A', ['p']), null, []);
  assert.ok(keeper.copy('A', true));
  keeper.keep(history('A', ['p'], ['p', 'q']), null, []);
  const heads = inOrder(keeper.list(), 'time');
  assert.deepEqual(heads.map(({id, version}) => [version, keeper.linesOf(id)]), [[2, ['p', 'q']], [1, ['p']]]);
  assert.deepEqual(heads.map(({id}) => id === 'A'), [true, false]);
});
test('copies are versions of one document, a name is kept, and the list can be sorted', () => {
  let clock = 0;
  const local = made(), keeper = makeKeeper({local, page: '1', now: () => ++clock});
  keeper.keep(history('A', ['p'], ['p', 'q']), null, []);
  assert.ok(keeper.rename('A', 'Rook study') && keeper.copy('A') && keeper.copy('A'));
  keeper.keep(history('B', ['r']), null, []);
  keeper.keep(history('A', ['p'], ['p', 'q', 's']), null, []);
  const heads = keeper.list(), names = list => list.map(head => nameInList(head, heads));
  assert.deepEqual(names(inOrder(heads, 'name')),
    ['Empty', 'Rook study, version 1', 'Rook study, version 2', 'Rook study, version 3']);
  assert.equal(names(inOrder(heads, 'time'))[0], 'Rook study, version 1');
  assert.equal(names(inOrder(heads, 'name', true))[3], 'Empty');
  const copy = heads.find(head => head.version === 2);
  assert.deepEqual(keeper.linesOf(copy.id), ['p', 'q']);
  assert.deepEqual(keeper.open(copy.id, false).history.past.map(d => d.lines), [['p']]);
  const other = makeKeeper({local, page: '2', now: () => ++clock});
  other.open('A', true);
  other.keep(history('A', ['x']), null, []);
  assert.deepEqual(names(inOrder(keeper.list(), 'name')).slice(4), ['Rook study, version 4']);
});
