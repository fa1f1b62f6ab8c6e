// What is found and what can have been before, as the page asks for it and reads it.
import test from 'node:test';
import assert from 'node:assert/strict';
import {placesBefore} from '../src/earlier.js';
import {menOf} from '../src/fen.js';
import {
  linesOf,
  manMissing,
  narrowing,
  opened,
  partText,
  placements,
  readFound,
  rowSought,
  searchText
} from '../src/finding.js';

test('a line of a list is read', () => {
  assert.deepEqual(readFound('1B6/3K4/8/1k6/8/P7/8/8 w - - 0 1 draw loss 38'),
    {fen: '1B6/3K4/8/1k6/8/P7/8/8 w - - 0 1', values: [{kind: 'draw', n: 0}, {kind: 'loss', n: 38}], key: ''});
  assert.deepEqual(readFound('8/8/8/5n2/8/1RK5/8/2k5 w - - 0 1 win 69 Kd3'),
    {fen: '8/8/8/5n2/8/1RK5/8/2k5 w - - 0 1', values: [{kind: 'win', n: 69}], key: 'Kd3'});
});
test('a zugzwang opens with the side to move with which somebody wins', () => {
  const {fen, value} = opened(readFound('1B6/3K4/8/1k6/8/P7/8/8 w - - 0 1 draw loss 38'));
  assert.equal(fen, '1B6/3K4/8/1k6/8/P7/8/8 b - - 0 1');
  assert.deepEqual(value, {kind: 'loss', n: 38});
  assert.equal(
    opened(readFound('8/8/8/5n2/8/1RK5/8/2k5 w - - 0 1 win 69 Kd3')).fen, '8/8/8/5n2/8/1RK5/8/2k5 w - - 0 1');
  assert.equal(
    opened(readFound('8/8/8/8/1pK5/kP6/8/8 w - - 0 1 loss 20 loss 22')).fen, '8/8/8/8/1pK5/kP6/8/8 w - - 0 1');
});
test('a position opens with its row of only moves', () => {
  const draw = readFound('6kR/8/5K2/8/8/8/8/8 b - - 0 1 draw Kxh8'), row = ['Kxh8', 'Kg6', 'Kg8'],
        head = ['position 6kR/8/5K2/8/8/8/8/8 b - - 0 1', 'stipulate black draw', 'insert root Kxh8'];
  const whole = [...head, 'insert 0 Kg6', 'insert 0.0 Kg8'];
  assert.deepEqual(linesOf(draw, 'draw 2', 'KRK draw 2', row), whole);
  assert.deepEqual(linesOf(draw, 'draw 1', 'KRK draw 1', row), head);
  assert.deepEqual(linesOf(draw, 'draw 1', 'KRK draw 1 row-zugzwang', row), whole);
  assert.deepEqual(linesOf(draw, 'into draw', 'KRK into draw', []), head);
  const win = readFound('8/8/8/5n2/8/1RK5/8/2k5 w - - 0 1 win 69 Kd3');
  assert.equal(linesOf(win, 'win 1', 'KRKN win 1', ['Kd3', 'Kd1', 'Rb1+']).length, 5);
  const lost = readFound('8/8/8/8/1pK5/kP6/8/8 w - - 0 1 loss 20 loss 22');
  assert.equal(linesOf(lost, 'zugzwang', 'KPKP zugzwang', []).length, 2);
  const sought = ['win 6', 'draw 12', 'zugzwang', 'try win'];
  assert.deepEqual(sought.map(theme => rowSought(win, theme, `KRKN ${theme}`)), ['win', 'draw', null, null]);
  assert.equal(rowSought(win, 'try win', 'KRKN try win Kc3 row-offer'), 'win');
  assert.equal(rowSought(draw, 'into draw', 'KRK into draw row-stalemate'), 'draw');
});
test('a man that a class does not have', () => {
  assert.equal(manMissing('KPK', 'pa7'), 'KPK has no P of Black, so pa7 fits no position');
  assert.equal(manMissing('KPK', 'white Pa2-h4 ka8'), '');
  assert.equal(manMissing('KRKN', 'no-check Nb1'), 'KRKN has no N of White, so Nb1 fits no position');
});
test('placements have the men of their class', () => {
  for (const name of ['KK', 'KPKP', 'KRKN', 'KQQK']) {
    const fens = placements(name, 70),
          wanted = [...name.replace(/K(.*)K(.*)/, (_, w, b) => `K${w}k${b.toLowerCase()}`)].sort().join('');
    assert.equal(new Set(fens).size > 60, true);
    for (const fen of fens) assert.equal(Object.values(menOf(fen)).sort().join(''), wanted, fen);
  }
});
test('what can have stood before a position', () => {
  const places = placesBefore('8/8/8/8/8/1k6/8/K6P w - - 3 5');
  assert.equal(places.length, 61);
  assert.ok(places.every(({fen, to}) => to === 17 && / b - - 0 4$/.test(fen)));
  assert.equal(placesBefore('k7/8/8/8/4P3/8/8/K7 b - - 0 1').filter(({to}) => to === 28).length, 64 - 3);
  const pawns = placesBefore('3Q4/8/8/8/8/2k5/8/K2r4 b - - 0 1').filter(({promoted}) => promoted);
  assert.deepEqual(pawns, [{fen: '8/3P4/8/8/8/2k5/8/K2r4 w - - 0 1', from: 51, to: 59, promoted: 'Q'}]);
  assert.equal(placesBefore('3Q4/8/8/8/8/2k5/8/K2r4 w - - 0 1').find(({promoted}) => promoted)?.promoted, 'R');
  assert.equal(placesBefore('3Q4/3r4/8/8/8/2k5/8/K7 b - - 0 1').some(({promoted}) => promoted), false);
});
test('how a search stands', () => {
  const search = {at: 50, of: 100, found: Array(3), many: 3, ended: ''}, advice = narrowing('zugzwang', 4);
  assert.equal(searchText(search, advice), '3 positions found; 50 % looked at: searching …');
  assert.equal(searchText({...search, ended: 'stopped'}, advice), '3 positions found; 50 % looked at: stopped.');
  assert.equal(partText({...search, ended: 'stopped'}), ' so far, 50 % looked at');
  assert.equal(partText({...search, ended: 'enough'}), ' that are listed');
  assert.equal(partText({...search, ended: 'all'}), '');
  assert.equal(searchText({...search, ended: 'enough', many: 7}, advice),
    'more than 3 positions found; stopped after 50 %: the first 3 are listed; narrow it down by squares.');
  assert.equal(searchText({...search, ended: 'enough'}, ''),
    'at least 3 positions found; stopped after 50 %: the first 3 are listed.');
  assert.equal(searchText({...search, at: 100, ended: 'enough', many: 7}, narrowing('win N', 4)),
    '7 positions found: all there are, and the first 3 are listed; narrow it down by squares, or by more only moves.');
  assert.equal(searchText({...search, at: 100, ended: 'enough', many: 7}, narrowing('longest white', 4)),
    '7 positions found: all there are, and the first 3 are listed.');
  assert.equal(narrowing('draw N', 12), '; narrow it down by squares');
  assert.equal(searchText({...search, at: 100, ended: 'all'}, advice), '3 positions found: all there are.');
});
