// What is said of two files that become one document names their games by the numbers that they have there.
import './stand_in.mjs';
import test from 'node:test';
import assert from 'node:assert/strict';
import {importNote} from '../src/imported.js';
import {joinedNote} from '../src/joined_note.js';
import {notKept} from '../src/not_kept.js';
import {movedGames, numberedApart} from '../src/numbering.js';

const study = n => [`#! game ${n}, line ${n}: stipulated by its comment`, '#! not taken over: repeated 1', 'position F',
        'stipulate white win', ''],
      out = n => [`#! game ${n}, line ${n}, column 3: NoSuchMove at Kb6`, ''];
const LETTERS = 'The tags of games 1, 2 have letters that are no UTF-8, read as Latin 1: Òðîèöêèé, A.';
const said = (lines, games, studies, letters = '') => [importNote([...lines, `#! games ${games}, studies ${studies}`]),
  letters, notKept(lines)].filter(Boolean).join(' ');
const joined = (first, second) => {
  const both = [...first.lines, ...second.lines], lines = numberedApart(both);
  return {lines, name: 'first.pgn', note: joinedNote(first, second, lines, movedGames(both, lines))};
};
const FIRST = [...study(1), ...out(2), ...study(3)], SECOND = [...study(1), ...study(2)];
const first = {
  lines: FIRST,
  name: 'mess.pgn',
  note: said(FIRST, 3, 2)
},
      second = {
        lines: SECOND,
        name: 'one.pgn',
        note: said(SECOND, 2, 2, LETTERS)
      };
test('games of a second file are named by the numbers that they have behind the first, and counted with those', () => {
  assert.equal(joined(first, second).note,
    'mess.pgn and one.pgn: 5 games, 4 studies. Left out: game 2, with its reason in the list. ' +
      'The tags of games 4, 5 have letters that are no UTF-8, read as Latin 1: Òðîèöêèé, A. ' +
      'Not kept of this PGN: 4 repeated moves (games 1, 3, 4, 5).');
});
test('a third file comes behind two, and one with letters of an older code before another', () => {
  const {note} = joined(joined(second, first), {...second, name: 'three.pgn'});
  assert.equal(note,
    'one.pgn and mess.pgn and three.pgn: 7 games, 6 studies. Left out: game 4, with its reason in the list. ' +
      `${LETTERS} ${LETTERS.replace('1, 2', '6, 7')} Not kept of this PGN: 6 repeated moves.`);
});
test('behind a script a PGN says its name, and a script behind a PGN says nothing', () => {
  const script = {lines: ['position F', 'stipulate white win', ''], name: 'mine', note: ''};
  assert.equal(joined(script, second).note, `one.pgn: ${second.note}`);
  assert.equal(joined(first, script).note, `mess.pgn: ${first.note}`);
  assert.equal(joined(script, script).note, '');
});
