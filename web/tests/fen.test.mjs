// Placement, control lines and codes of positions. Expected texts are from the PGN Standard, EG's code, and by hand.
import test from 'node:test';
import assert from 'node:assert/strict';
import {control, fromControl, menOf, placement, spokenMove, squareAt, squareName, typedFen} from '../src/fen.js';

const SAAVEDRA = '8/8/1KP5/3r4/8/8/8/k7 w - - 0 1';
test('a placement is read and written', () => {
  for (const fen of ['rnbqkbnr/pppppppp/8/8/8/8/PPPPPPPP/RNBQKBNR', SAAVEDRA.split(' ')[0], '8/8/8/8/8/8/8/8'])
    assert.equal(placement(menOf(fen)), fen);
});
test('squares count from a1', () => {
  assert.deepEqual(['a1', 'h1', 'a2', 'h8'].map(squareAt), [0, 7, 8, 63]);
  for (let s = 0; s < 64; s++) assert.equal(squareAt(squareName(s)), s);
});
test('control line and code', () => {
  assert.equal(control(SAAVEDRA), 'Kb6 Pc6 / Ka1 Rd5');
  assert.equal(fromControl('Kb6 Pc6 / Ka1 Rd5'), SAAVEDRA.split(' ')[0]);
  assert.equal(fromControl('white kb6 pc6 black ka1 rd5'), SAAVEDRA.split(' ')[0]);
  assert.equal(fromControl('white Kb6 Sc6 black Ka1'), '8/8/1KN5/8/8/8/8/k7');
  assert.equal(fromControl('Kb6 Zc6 / Ka1'), null);
});
test('what is typed for a position', () => {
  assert.deepEqual(typedFen('Kb6 c6 / Ka1 Rd5', 'b'), {fen: '8/8/1KP5/3r4/8/8/8/k7 b - - 0 1'});
  assert.deepEqual(typedFen('8/8/1KP5/3r4/8/8/8/k7', 'w'), {fen: SAAVEDRA});
  assert.deepEqual(typedFen('8/8/1KP5/3r4/8/8/8/k7 b - - 5 31', 'w'), {fen: '8/8/1KP5/3r4/8/8/8/k7 b - - 5 31'});
  for (const text of ['', 'hello', '8/8/8', '8/8/1KP5/3r4/8/8/8/kk8 w', '9/8/8/8/8/8/8/8 w'])
    assert.ok('bad' in typedFen(text, 'w'), text);
});
test('a move as it is heard', () => {
  assert.equal(spokenMove(SAAVEDRA, {san: 'c7', to: 50}), 'white pawn c7');
  assert.equal(spokenMove('8/2P5/1K6/3r4/8/8/8/k7 b - - 0 1', {san: 'Rd6+', to: 43}), 'black rook d6, check');
  assert.equal(spokenMove(SAAVEDRA, {san: 'c8=R', to: 58}), 'white pawn c8, becomes a rook');
  assert.equal(spokenMove(SAAVEDRA, {san: 'Kxd5#', to: 35}), 'white king takes d5, mate');
});
