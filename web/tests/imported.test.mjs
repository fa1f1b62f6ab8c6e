// What the program makes of a PGN, as the page reads it; the lines are those of an independent reference.
import './stand_in.mjs';
import test from 'node:test';
import assert from 'node:assert/strict';
import {
  decode,
  documentOf,
  importNote,
  looksLikePgn,
  noteAfter,
  originalsIn,
  plainBytes,
  withoutAim
} from '../src/imported.js';
import {notKept, stillGone} from '../src/not_kept.js';
import {leftOut, whyLeftOut} from '../src/left_out.js';
import {copyStudy, dropStudy} from '../src/study_edits.js';
import {savedGames} from '../src/saved_games.js';
import {assumeAccepted} from '../src/assumed.js';
import {readScript} from '../src/script.js';
import {gameFaults} from '../src/wording.js';

const LINES = [
  '#! game 1, line 1: stipulated by its comment',
  '#! not taken over: comments 9, NAGs 4, tags 1, repeated 1, moves behind 2', '#! White was: Троицкий',
  'position 7K/8/8/8/8/8/8/k7 w - - 0 1', 'stipulate white draw', 'tag White Troickij', 'pgn', '',
  '#! game 2, line 14: left out: 7 men, never four or fewer', '', '#! game 3, line 31, column 17: NoSuchMove at Kb6',
  '', '#! game 4, line 40: NoStipulation', '', '#! game 5, line 52: stipulated by its tag Result',
  '#! not taken over: comments 1', 'position 7K/8/8/8/8/8/8/k7 w - - 0 1', 'stipulate white draw', 'tag White ?', 'pgn',
  '', '#! games 5, studies 2'
];
test('a file in UTF-16 is read by its mark', () => {
  const text = '[White "Réti"]', codes = [...text].map(letter => letter.charCodeAt(0));
  const little = codes.flatMap(code => [code & 255, code >> 8]), big = codes.flatMap(code => [code >> 8, code & 255]);
  for (const bytes of [[0xff, 0xfe, ...little], [0xfe, 0xff, ...big]])
    assert.equal(decode(plainBytes(Uint8Array.from(bytes))), text);
  const plain = new TextEncoder().encode(text);
  assert.equal(decode(plainBytes(plain)), text);
  assert.equal(decode(plainBytes(new TextEncoder().encode('[FEN "x"]\r\r1. Kb3\r'))), '[FEN "x"]\n\n1. Kb3\n');
  const windows = new TextEncoder().encode('a\r\nb\r\n');
  assert.equal(plainBytes(windows), windows);
});
test('a PGN is distinguished from a script', () => {
  for (const text of ['[Event "x"]', '\ufeff\n [White "x"]', '% a remark\n[FEN "x"]', 'by an editor\n\n[FEN "x"]'])
    assert.ok(looksLikePgn(text), text);
  for (const text of ['', 'position x', '# [FEN "x"]', '{"FEN": 1}', '[1, 2]']) assert.ok(!looksLikePgn(text), text);
});
test('a file is UTF-8, else Latin 1', () => {
  assert.equal(decode(new TextEncoder().encode('Réti')), 'Réti');
  assert.equal(decode(Uint8Array.from([82, 0xe9, 116, 105])), 'Réti');
});
test('games that were left out, and why', () => {
  const men = 'go on with a line until four men are left',
        legal = 'no legal move of this position: write a legal move; perhaps a move before it is missing or wrong, ' +
    'or the FEN has the wrong side to move',
        aim = 'it does not say what is to be done: write {White to win} before the first move';
  assert.deepEqual(leftOut(LINES).map(whyLeftOut), [`7 men, never four or fewer: ${men}`, `Kb6: ${legal}`, aim]);
  assert.deepEqual(leftOut(LINES)[1], {game: 3, line: 31, column: 17, author: '', why: 'NoSuchMove', text: 'Kb6'});
  const named = '#! game 5, line 40, column 4 (Kasparyan, G.): NoSuchMove at Kb6';
  assert.deepEqual(
    leftOut([named]), [{game: 5, line: 40, column: 4, author: 'Kasparyan, G.', why: 'NoSuchMove', text: 'Kb6'}]);
  assert.match(importNote([named, '#! games 5, studies 4']), /Left out: game 5, with its reason in the list\./);
  assert.equal(withoutAim(LINES), 1);
  assert.equal(importNote(LINES), '5 games, 2 studies. Left out: 3 games, each with its reason in the list.');
  assert.equal(importNote([...LINES.filter(line => !/^#! games/.test(line)), '#! games 3, studies 0']),
    `3 games, 0 studies. Left out: game 2, line 14: 7 men, never four or fewer: ${men}; ` +
      `game 3, line 31, column 17: Kb6: ${legal}; game 4, line 40: ${aim}.`);
  assert.equal(
    importNote(['#! game 1, line 1: stipulated by its result', '', '#! games 1, studies 1']), '1 game, 1 study.');
  const doubted = ['#! game 1, line 1: stipulated by its comment', '#! the stipulation differs from its tag Result'];
  assert.equal(importNote([...doubted, 'position x', '', '#! games 1, studies 1']),
    '1 game, 1 study. Sources of the stipulation differ in game 1.');
});
test('a game that is opened up to its bad move is no longer said to be left out', () => {
  const [first, second, third] = LINES.filter(line => leftOut([line]).length),
                        note = importNote(LINES) + ' Not kept: 1 tag.';
  assert.equal(noteAfter(note, LINES, LINES.filter(line => line !== second)),
    '5 games, 2 studies. Left out: 2 games, each with its reason in the list. Not kept: 1 tag.');
  const one =
    '5 games, 4 studies. Left out: ' + importNote([first, '#! games 5, studies 4']).slice(30) + ' Not kept: 1 tag.';
  assert.equal(noteAfter(one, [first], []), '5 games, 4 studies. Not kept: 1 tag.');
  assert.ok(third);
});
test('each reason says what to write instead', () => {
  const why = words => leftOut([`#! game 8, line 70, column 8: ${words}`]).map(whyLeftOut)[0];
  assert.equal(why('NotSan at stalemate'), 'stalemate: not a move: write words in braces: {stalemate}');
  assert.equal(why('NotSan at Dg2+'),
    'Dg2+: not a move with the letters K Q R B N: write the men with these letters, as a PGN has them');
  assert.equal(why('NotSan at Schach.'), 'Schach.: not a move: write words in braces: {Schach.}');
  assert.equal(why('NotSan at Kh9'), 'Kh9: not a move: write it as Kb6 or c8=R');
  assert.equal(why('NullMove'), 'a null move in the main line: show a threat in a variation');
  assert.equal(why('BehindResult'), 'moves behind the result: delete the result before them, or write them in braces');
  assert.equal(why('Numbering at 3'),
    '3: a move number that does not fit: write the move that is missing before it, or the right number');
  assert.equal(why('StipulationUnread at its comment'),
    'its comment: a stipulation that is not understood: write {White to win}, {White to draw} or {White to mate in 3}');
  assert.equal(why('left out: 17 men'), '17 men: set up at most sixteen men of a side');
  assert.equal(why('left out: 7 men, never four or fewer'),
    '7 men, never four or fewer: go on with a line until four men are left');
  assert.equal(why('OpponentInCheck'),
    'the side that is not to move is in check: write the other side to move, or correct the men');
  for (const name of gameFaults()) assert.match(why(name), /: \S/, name);
});
test('what a script has no place for, with the games where these are few', () => {
  assert.equal(notKept(LINES), 'Not kept of this PGN: 1 repeated move (game 1), 2 moves behind null moves (game 1).');
  const gone = n => [`#! game ${n}, line ${n}: stipulated by its result`, '#! not taken over: repeated 1'];
  assert.equal(notKept([2, 3].flatMap(gone)), 'Not kept of this PGN: 2 repeated moves (games 2, 3).');
  assert.equal(notKept([1, 2, 3, 4, 5, 6].flatMap(gone)), 'Not kept of this PGN: 6 repeated moves.');
  assert.equal(notKept(['#! game 1, line 1: stipulated by its result']), '');
  const beside =
    ['#! behind the result: line 14, column 715', '#! note Kg3 --: threat', '#! note -- Kf6: $6', '#! note Kg3: --'];
  assert.equal(notKept(['#! not taken over: null moves 2, moves behind 1', ...beside]),
    'Not kept of this PGN: 2 null moves, 1 move behind a null move, 2 comments and NAGs there, text behind a result.');
});
test('remarks above a position are the study\'s, and names stay in their letters', () => {
  const lines = documentOf(LINES), {studies} = assumeAccepted(lines);
  assert.equal(lines.length, LINES.length - 2);
  assert.deepEqual(studies.map(s => [s.head, s.from, s.end]), [[0, 3, 8], [14, 16, lines.length]]);
  assert.deepEqual(studies.map(s => s.originals), [{White: 'Троицкий'}, {}]);
  const dropped = assumeAccepted(dropStudy(lines, studies, 0).lines);
  assert.deepEqual(dropped.studies.map(s => s.originals), [{}]);
  assert.deepEqual(leftOut(dropped.lines), leftOut(lines));
  assert.deepEqual(leftOut(copyStudy(lines, studies, 0).lines), leftOut(lines));
  assert.deepEqual(originalsIn(['#! Site was:  a b ']), {Site: 'a b'});
  const game = '[Event "?"]\n[White "Troickij"]\n\n1-0\n\n', sent = lines.map((text, line) => ({text, line}));
  const replies = lines.map(text => (text === 'pgn'            ? game
                                : text.startsWith('stipulate') ? 'stipulate White to draw'
                                                               : text));
  const script = readScript(lines, sent, replies);
  assert.equal(savedGames(script), game.replace('Troickij', 'Троицкий') + game);
});
test('what the page keeps as remarks is not counted as gone', () => {
  assert.deepEqual(stillGone('#! not taken over: comments 9, NAGs 4, tags 1, repeated 1, moves behind 2'),
    ['#! not taken over: repeated 1, moves behind 2']);
  assert.deepEqual(stillGone('#! not taken over: comments 1'), []);
  assert.deepEqual(stillGone('tag White Reti'), ['tag White Reti']);
});
