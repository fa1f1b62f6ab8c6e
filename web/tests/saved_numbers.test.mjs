// The number of a game in its first file, which a saved game keeps.
import './stand_in.mjs';
import test from 'node:test';
import assert from 'node:assert/strict';
import {inNumbers} from '../src/numbering.js';
import {remarksOf} from '../src/notes.js';
import {numberText, savedNumbers, withoutNumber} from '../src/saved_numbers.js';

const game = words => `[Event "x"]\n[FEN "8/8/8/6k1/8/8/1P5K/8 w - - 0 1"]\n\n{${words}} 1. Kg3 1-0\n`,
      saved = more => game(`White to win: sound, White mates in 28${more && `. ${more}`}`);
test('a game says its number where its place in the saved file is another', () => {
  const study = {origin: {game: 7, tail: null}, games: [saved('')]};
  assert.equal(numberText(study, 5), 'Game 7 of the first file');
  assert.equal(numberText(study, 7), '');
  assert.equal(numberText({...study, origin: {game: 0, tail: null}}, 5), '');
});
test('it has this number when the file is opened, and the author\'s words are without it', () => {
  const texts = [saved(''), saved('Game 3 of the\nfirst file'), saved('Game 12 of the first file. Good!')];
  assert.deepEqual(savedNumbers(texts), [1, 3, 12]);
  assert.deepEqual(remarksOf(texts[2]), ['#! note -: Good!', '#! result 1-0']);
  assert.deepEqual(remarksOf(texts[1]), ['#! result 1-0']);
  assert.equal(withoutNumber('See Game 3 of the first file'), 'See Game 3 of the first file');
  const lines = ['#! game 2, line 9: stipulated by its comment', 'position x', '#! game 3, line 15: left out: 7 men'];
  assert.deepEqual(inNumbers(lines, [1, 3, 12]),
    ['#! game 3, line 9: stipulated by its comment', 'position x', '#! game 12, line 15: left out: 7 men']);
  assert.equal(inNumbers(lines, []), lines);
});
test('a game whose place is taken comes behind all, and files that were put together are numbered anew', () => {
  assert.deepEqual(savedNumbers([saved('Game 2 of the first file'), saved(''), saved('')]), [2, 4, 3]);
  assert.deepEqual(savedNumbers([saved('Game 2 of the first file'), saved('Game 2 of the first file')]), []);
  assert.deepEqual(savedNumbers([saved(''), game('As in Game 5 of the first file')]), []);
});
