// What is to be done, where only a comment says it that an import passes over.
import './stand_in.mjs';
import test from 'node:test';
import assert from 'node:assert/strict';
import {whyGone} from '../src/cut_game.js';
import {aimSaid, withAim} from '../src/said_aim.js';

const TAGS = '[Event "White to win"]\n[Result "*"]\n[FEN "8/8/8/6k1/8/8/1P5K/8 w - - 0 1"]\n\n';
const said = moves => aimSaid({text: TAGS, rest: `${moves} *\n`});
test('a comment before the second move says it, behind other words or behind the first move', () => {
  assert.equal(said('{Shakhmaty 1931, 2nd prize. White to win} 1. Kg3 Kf5'), 'White to win');
  assert.equal(said('{A prize:\nBlack to play and draw!} 1. Kg3 Kf5'), 'Black to draw');
  assert.equal(said('1. Kg3 {white wins.} 1... Kf5'), 'White to win');
  assert.equal(said('{Bulletin} {No. 7; White mates in 12} 1. Kg3 Kf5'), 'White to mate in 12');
  assert.equal(said('{Bulletin} 1. Kg3 ; White draws\n Kf5'), 'White to draw');
});
test('it is no word of a later move, of a variation, of a title, or of a longer clause', () => {
  for (const moves of ['1. Kg3 Kf5 {White wins}', '1. Kg3 (1. b4? {White draws}) 1... Kf5', '1. Kg3 Kf5',
         '{White wins a pawn} 1. Kg3', '{White to move} 1. Kg3', '{Whitewater to win} 1. Kg3'])
    assert.equal(said(moves), '', moves);
});
test('why it was left out says what the comment has, and where it is to stand', () => {
  const game = {game: 1, line: 1, column: 0, author: '', why: 'NoStipulation', text: ''};
  assert.equal(whyGone(game, {text: TAGS, rest: '1. Kg3 {White wins} *'}),
    'a comment says White to win, but the game does not begin with it: write {White to win} before the first move');
  assert.equal(whyGone(game, {text: TAGS, rest: '1. Kg3 *'}),
    'it does not say what is to be done: write {White to win} before the first move');
});
test('it comes before the comments and moves, and below the tags', () => {
  assert.equal(withAim(`${TAGS}{1931} 1. Kg3 *\n`, 'White to win'), `${TAGS}{White to win} {1931} 1. Kg3 *\n`);
});
