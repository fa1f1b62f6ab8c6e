// A game with more than four men that was read up to a bad move in one of its parts: what is replaced once its text is
// read again, and what is left where the study ends there.
import './stand_in.mjs';
import test from 'node:test';
import assert from 'node:assert/strict';
import {assumeAccepted} from '../src/assumed.js';
import {endedHere, placeOf, wholeOf} from '../src/whole_game.js';

const BEFORE = ['#! game 3, line 20: left out: 7 men, never four or fewer', '', 'position F', 'pgn', ''],
      PART = number => [`#! tail ${number} of 2 of game 4, node 0.${number}, after 1... Rxb5`, 'position F',
        'stipulate white win', 'pgn', ''];
const GAME = [
  '#! game 4, line 40, column 9 (Judge): not read: NotSan at Qh9', '#! game 4, line 31: stipulated by its comment',
  '#> position 8/8/2P5/1Pr5/8/8/N7/k2K4 w - - 0 1', '#> insert root Nc1', ''
];
const [heading, ...moves] = PART(2),
                CUT = ['#! up to 4. Qh9, line 40, column 9: NotSan at Qh9', '#! text: a', '#! rest+: b'];
const LINES = [
  ...BEFORE, ...GAME, ...PART(1), heading, ...CUT, ...moves.slice(0, 2), 'insert root Kc2', 'insert 0 4. Qh9', 'pgn',
  '', '#! game 5, line 60, column 2: not read: NotSan at Ka9', '#! game 5, line 55: stipulated by its comment',
  'position G', 'pgn'
];
const script = assumeAccepted(LINES), second = script.studies[2];
test('a game that is read again takes the place of its remark that it was not read, and its line in the file', () => {
  const {first, head, end} = wholeOf(script, second);
  assert.deepEqual([first, LINES[head], LINES[end - 1]], [1, GAME[0], '']);
  assert.equal(LINES[end], '#! game 5, line 60, column 2: not read: NotSan at Ka9');
  assert.deepEqual(placeOf(LINES, second), {game: 4, line: 31});
});
test('where a part ends at its bad move nothing says any more that its game was not read', () => {
  const lines = endedHere(LINES, second), gone = [GAME[0], ...CUT, 'insert 0 4. Qh9'];
  assert.deepEqual(lines, LINES.filter(line => !gone.includes(line)));
});
