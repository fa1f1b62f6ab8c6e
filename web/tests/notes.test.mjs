// What a PGN says beside its moves is kept, and written again.
import {printedRemark} from '../src/reporting.js';
import './stand_in.mjs';
import test from 'node:test';
import assert from 'node:assert/strict';
import {stipulate, withMoves} from '../src/edits.js';
import {gamesIn} from '../src/games.js';
import {headOf, sourceText} from '../src/imported.js';
import {namesOf, notesMoved, remarksOf, savedRemark} from '../src/notes.js';
import {savedGames, withNotes} from '../src/saved_games.js';
import {readScript} from '../src/script.js';
import {wordOf} from '../src/wording.js';

const GAME = `[Event "Rigaer Tageblatt"]
[White "Reti"]
[Annotator "an editor"]
[FEN "8/8/8/6k1/8/8/1P5K/8 w - - 0 1"]

{A study for practice.} 1. Kg3! {The only move} (1. b4? $4 Kf6 {draws
[%cal Gg5f6]}) 1... Kf5 2. Kf3 $1 1-0
`;
const OURS = `[Event "Rigaer Tageblatt"]
[White "Reti"]
[FEN "8/8/8/6k1/8/8/1P5K/8 w - - 0 1"]
[SetUp "1"]

{White to win: sound, White mates in 28} 1. Kg3 $1 {White mates in 28} (1. b4 $4
{draw} Kf6 {draw}) 1... Kf5 {White mates in 27} 2. Kf3 $1 {White mates in 27}
1-0

`;
test('a stipulation before the first move is written again, and is not one of the author\'s words', () => {
  const game = (/** @type {string} */ words) => `[FEN "8/8/8/6k1/8/8/1P5K/8 w - - 0 1"]\n\n{${words}} 1. Kg3 *\n`;
  assert.deepEqual(remarksOf(game('White to win. After Grigoriev')), ['#! note -: After Grigoriev', '#! result *']);
  assert.deepEqual(remarksOf(game('White to mate in 12')), ['#! result *']);
  assert.deepEqual(remarksOf(game('White to play and win')), ['#! note -: White to play and win', '#! result *']);
});
test('a stipulation that only a saved game states is from no comment of the author', () => {
  const known = words => {
    const game = `[FEN "8/8/8/6k1/8/8/1P5K/8 w - - 0 1"]\n\n{${words}} 1. Kg3 1-0\n`;
    return sourceText(headOf(['#! game 1, line 1: stipulated by its comment', ...savedRemark(game)]).origin);
  };
  for (const words
         of ['White to win: sound, White mates in 28', 'White to win: cook: 1. Kg1, White mates\nin 28. Good!'])
    assert.equal(known(words), '', words);
  for (const words of ['White to win', 'White to win: a sound study', 'A study. White to win: sound, draw'])
    assert.equal(known(words), 'from the comment', words);
});
test('title and author of a game that is left out', () => {
  assert.deepEqual(namesOf(GAME), ['#! its Event was: Rigaer Tageblatt', '#! its White was: Reti']);
  assert.deepEqual(namesOf('[Event "?"]\n[White "A \\"B\\" C"]\n\n1. e4 *\n'), ['#! its White was: A "B" C']);
});
test('remarks of a game, at the moves that lead to them', () => {
  assert.deepEqual(remarksOf(GAME), [
    '#! tag Annotator an editor', '#! note -: A study for practice.', '#! note Kg3: $1', '#! note Kg3: The only move',
    '#! note b4: $2', '#! note b4: $4', '#! note b4 Kf6: draws [%cal Gg5f6]', '#! note Kg3 Kf5 Kf3: $1', '#! result 1-0'
  ]);
  assert.deepEqual(remarksOf(OURS), ['#! mark Kg3: $1', '#! mark b4: $4', '#! mark Kg3 Kf5 Kf3: $1', '#! result 1-0']);
});
test('a comment at a null move is none of the move before it', () => {
  const game = GAME.replace('(1. b4? $4 Kf6 {draws\n[%cal Gg5f6]})', '{kept} (1. -- {threat} Kf6 $6) (1. Z0 {same})');
  assert.deepEqual(remarksOf(game).filter(line => /kept|--/.test(line)),
    ['#! note Kg3: kept', '#! note --: threat', '#! note -- Kf6: $6', '#! note --: same']);
  const text = withNotes(OURS, remarksOf(game));
  assert.ok(text.includes('kept') && !text.includes('threat') && !text.includes('$6'), text);
});
test('headers as other programs write them, and braces in a comment to the end of the line', () => {
  const game =
    GAME.replace('[Annotator "an editor"]', ' [ Annotator  "an \\"editor\\""] [ECO "A00"]\n% [Site "x"]\n; {early}')
      .replace('{The only move}', '; see {1}\n');
  assert.deepEqual(remarksOf(game).slice(0, 6), [
    '#! tag Annotator an "editor"', '#! tag ECO A00', '#! note -: (early)', '#! note -: A study for practice.',
    '#! note Kg3: $1', '#! note Kg3: see (1)'
  ]);
});
/** What stands behind the tags, in one line. */
const movesOf = text => text.slice(text.indexOf('\n\n')).replace(/\s+/g, ' ').trim();
test('at a move there is one comment, the author\'s words first, and one glyph that judges it, the author\'s', () => {
  const text = withNotes(OURS, remarksOf(GAME));
  assert.match(text, /\[SetUp "1"\]\n\[Annotator "an editor"\]\n\n/);
  assert.equal(movesOf(text),
    '{White to win: sound, White mates in 28. A study for practice.} 1. Kg3 $1 {The only move; White mates in 28} ' +
      '(1. b4 $2 {draw} Kf6 {draws [%cal Gg5f6] draw}) 1... Kf5 {White mates in 27} 2. Kf3 $1 {White mates in 27} 1-0');
  assert.equal(withNotes(OURS, []), OURS);
  assert.equal(withNotes(OURS, ['#! note Kh1: gone']).replace(/\s+/g, ' '), OURS.replace(/\s+/g, ' '));
});
test('without the program\'s marks a game is the author\'s', () => {
  assert.equal(movesOf(withNotes(OURS, remarksOf(GAME), false)),
    '{A study for practice.} 1. Kg3 $1 {The only move} (1. b4 $2 Kf6 {draws [%cal Gg5f6]}) 1... Kf5 2. Kf3 $1 1-0');
  assert.equal(movesOf(withNotes(OURS, [], false)), '1. Kg3 (1. b4 Kf6) 1... Kf5 2. Kf3 1-0');
  assert.equal(
    movesOf(withNotes(OURS, ['#! note Kg3: !', '#! note Kg3 Kf5: on'], false, ['White to win', 'not read: 2. x'])),
    '{White to win. not read: 2. x} 1. Kg3 {!} (1. b4 Kf6) 1... Kf5 {on} 2. Kf3 1-0');
});
test('words among the moves are no moves', () => {
  const game = GAME.replace('1... Kf5 2. Kf3 $1 1-0', 'matt 1... Kf5 etc. 2. Kf3 wins at once $1 1-0');
  assert.deepEqual(remarksOf(game).slice(-2), ['#! note Kg3 Kf5 Kf3: $1', '#! result 1-0']);
});
test('comments at moves in letters of another language', () => {
  const
    ours =
      '[FEN "8/8/8/8/8/8/8/8 w - - 0 1"]\n\n1. Qg2+ {White mates in 2} Kf8 {White mates in 1} 2. Rh8# {mate} 1-0\n\n',
    text = withNotes(ours, ['#! note Dg2: good', '#! note Dg2 Kf8 Th8: matt']);
  assert.equal(movesOf(text), '1. Qg2+ {good; White mates in 2} Kf8 {White mates in 1} 2. Rh8# {matt; mate} 1-0');
});
/** Saavedra's study as its second entry in a tourney: the program calls 1... Rd1 in the try no mistake. */
const ROOK = `[Event "?"]
[Result "1-0"]
[FEN "8/8/1KP5/3r4/8/8/8/k7 w - - 0 1"]
[SetUp "1"]

{White to win: unsound 3, White mates in 26} 1. c7 $1 {White mates in 26} 1...
Rd6+ {White mates in 25} 2. Kb5 $1 {White mates in 25} (2. Kc5 $4 {draw} 2...
Rd1 {draw} 3. c8=Q {draw} 3... Rc1+ {draw}) 2... Rd5+ {White mates in 24} 1-0

`;
test('comments and glyphs of an author and of the program do not run into one another', () => {
  const author =
    '[Result "1-0"]\n\n{Gewinn} 1. c7! Rd6+ 2. Kb5 $3 $14 (2. Kc5 $2 Rd1 $1 {und ...Rc1} 3. c8=Q Rc1+ {so} ' +
    '{patt}) 2... Rd5+ {Ende?} 1-0\n';
  const saved = withNotes(ROOK, remarksOf(author));
  assert.equal(movesOf(saved),
    '{White to win: unsound 3, White mates in 26. Gewinn} 1. c7 $1 {White mates in 26} 1... Rd6+ {White mates in 25} ' +
      '2. Kb5 $3 $14 {White mates in 25} (2. Kc5 $2 {draw} 2... Rd1 $1 {und ...Rc1; draw} 3. c8=Q {draw} 3... Rc1+ ' +
      '{so. patt; draw}) 2... Rd5+ {Ende? White mates in 24} 1-0');
  assert.equal(withNotes(ROOK, remarksOf(saved)), saved);
  assert.equal(movesOf(withNotes(ROOK, remarksOf(author), false)),
    '{Gewinn} 1. c7 $1 Rd6+ 2. Kb5 $3 $14 (2. Kc5 $2 Rd1 $1 {und ...Rc1} 3. c8=Q Rc1+ {so. patt}) 2... Rd5+ {Ende?} ' +
      '1-0');
  const old = '{White to win: unsound 3, White mates in 26} {Gewinn} 1. c7 $1 {White mates in 26} 1... Rd6+ ' +
    '{White mates in 25} 2. Kb5 $1 {White mates in 25} $3 {!} (2. Kc5 $4 {draw} $2) 1-0';
  assert.deepEqual(remarksOf('[Result "1-0"]\n\n' + old), [
    '#! tag Result 1-0', '#! note -: Gewinn', '#! mark c7: $1', '#! note c7 Rd6 Kb5: $3', '#! note c7 Rd6 Kb5: !',
    '#! note c7 Rd6 Kc5: $2'
  ]);
});
test('the result is the author\'s, where he states one', () => {
  const saved = (tag, behind, marks = true) => {
    const text = withNotes(ROOK, remarksOf(`${tag && `[Result "${tag}"]\n\n`}1. c7 ${behind}\n`), marks);
    return [(/\[Result "(.*)"\]/.exec(text) || [])[1], movesOf(text).split(' ').pop()];
  };
  assert.deepEqual(saved('1/2-1/2', '1/2-1/2'), ['1/2-1/2', '1/2-1/2']);
  assert.deepEqual(saved('', '0-1'), ['0-1', '0-1']);
  assert.deepEqual(saved('', '½-½'), ['1/2-1/2', '1/2-1/2']);
  assert.deepEqual(saved('0-1', '1/2-1/2'), ['0-1', '1/2-1/2']);
  assert.deepEqual(saved('1/2-1/2', ''), ['1/2-1/2', '1/2-1/2']);
  assert.deepEqual(saved('*', '*'), ['1-0', '1-0']);
  assert.deepEqual(saved('*', '*', false), ['*', '*']);
  assert.deepEqual(saved('', ''), ['1-0', '1-0']);
});
test('another stipulation or position is not that of the file', () => {
  const head = [
    '#! game 7, line 43: stipulated by its tag Result', '#! the stipulation differs from its result',
    '#! White was: Réti', '#! tag Result 1-0', '#! tag ECO A00', '#! result 1/2-1/2', '#! mark Kg3: $1',
    '#! note Kg3: $3'
  ];
  const kept = ['#! game 7, line 43: stipulated by hand', '#! White was: Réti', '#! tag ECO A00', '#! note Kg3: $3'];
  const lines = ['', ...head, 'position x', 'stipulate white win', 'insert root Kg3'],
        study = {head: 1, from: 9, end: 12, place: {aim: 10}, aim: {hero: 'White', goal: 'win', k: 0}};
  assert.deepEqual(
    stipulate(lines, study, 'white draw').lines, ['', ...kept, 'position x', 'stipulate white draw', lines[11]]);
  assert.deepEqual(stipulate(lines, study, 'white win').lines, lines);
  assert.deepEqual(withMoves(lines, study, 'y', 'white win', []).lines, ['', ...kept, 'position y', lines[10]]);
});
test('a long comment is one comment again', () => {
  for (const word of ['plain', 'größer']) {
    const long = Array(90).fill(word).join(' '), lines = remarksOf(GAME.replace('The only move', long));
    assert.ok(lines.length > 8 && lines.every(line => new TextEncoder().encode(line).length < 1024), lines);
    const text = withNotes(OURS, lines).replace(/\s+/g, ' ');
    assert.ok(text.includes(`{${long}; White mates in 28}`), text);
  }
});
test('what is written is read and written again the same', () => {
  const dual = OURS.replace('2. Kf3 $1 {White mates in 27}', '2. Kf3 {White mates in 27; dual 2}'),
        text = withNotes(dual, remarksOf(GAME));
  assert.ok(text.replace(/\s+/g, ' ').includes('2. Kf3 $1 {White mates in 27; dual 2} 1-0'), text);
  assert.equal(withNotes(dual, remarksOf(text)), text);
});
test('the verdict on a try is none of the author\'s words', () => {
  for (const words of ['works from here', 'works from here; the try is refuted in 1.2', 'refuted'])
    assert.deepEqual(remarksOf(`[Event "?"]\n\n{White to draw: ${words}, White mates in 5. Mine} 1. Kg3 1-0\n`),
      ['#! note -: Mine', '#! result 1-0']);
});
test('a dual that a judge accepts is one when the game is read again', () => {
  const game = `[Event "?"]\n\n{White to win: unsound 1, White mates in 9} 1. Kg3! {White mates in 9} Kf5
2. Kf3 $4 {White mates in 8; dual 2} 1-0\n\n`,
        tick = '#! accepted Kg3 Kf5 Kf3: dual', saved = withNotes(game, [tick, '#! note Kg3 Kf5 Kf3: Or Kf2.']);
  assert.match(saved, /\{Or Kf2\. White mates in 8; dual 2; accepted\}/);
  assert.deepEqual(remarksOf(saved).filter(line => /accepted|note/.test(line)), [tick, '#! note Kg3 Kf5 Kf3: Or Kf2.']);
  assert.doesNotMatch(withNotes(game, [tick], false), /accepted/);
});
test('a study without a move of the hero is not saved as sound', () => {
  const position = 'position 8/8/8/6k1/8/8/1P5K/8 w - - 0 1', lines = [position, 'stipulate white win', 'pgn'],
        replies = [position, 'stipulate White to win', '[Event "?"]\n\n{White to win: sound, draw} 1-0\n\n'];
  const saved = savedGames(readScript(lines, lines.map((text, line) => ({text, line})), replies));
  assert.ok(saved.includes(`{White to win: ${wordOf('correct')}, draw} 1-0`), saved);
  assert.deepEqual(remarksOf(saved), ['#! result 1-0']);
  const before =
    saved.replace(wordOf('correct'), 'sound').replace('draw}', 'draw. holds: no move of the solution is given}');
  assert.deepEqual(remarksOf(before), ['#! result 1-0']);
});
test('a study that was not read to its end says so where it is saved', () => {
  const script = {
    lines: ['position 8/8/8/6k1/8/8/1P5K/8 w - - 0 1', 'insert root 1.Kg3', 'insert root Kg3'],
    studies: [{
      head: 0,
      from: 0,
      end: 3,
      originals: {},
      games: [OURS],
      verdict: 'sound',
      start: 'White mates in 28',
      fen: '8/8/8/6k1/8/8/1P5K/8 w - - 0 1',
      aim: {hero: 'White', goal: 'win', k: 0}
    }],
    refused: [{line: 1, text: 'insert root 1.Kg3', reply: 'error NotSan'}]
  };
  assert.ok(
    savedGames(script).replace(/\s+/g, ' ').includes('{White to win: not read: 1.Kg3, White mates in 28} 1. Kg3'));
  assert.equal(savedGames({...script, refused: []}), OURS);
});
test('notes follow their moves', () => {
  const lines = ['#! note Kb2: of another study', '', '#! note -: all', '#! note Kg3 Kf5: here', 'position x'];
  assert.deepEqual(notesMoved(lines, {head: 2, from: 4}, moves => 'Kg2 Kg5 ' + moves),
    ['#! note Kb2: of another study', '', '#! note -: all', '#! note Kg2 Kg5 Kg3 Kf5: here', 'position x']);
});
test('arrows and circles follow their squares', () => {
  const lines = ['#! note -: to b2 [%csl Gb2] [%cal Gb2a3,Re5d5]', '#! note Kb2: b2', 'position x'],
        mirror = text => text.replace(/[a-h]/g, c => 'hgfedcba'['abcdefgh'.indexOf(c)]);
  assert.deepEqual(notesMoved(lines, {head: 0, from: 2}, mirror, mirror),
    ['#! note -: to b2 [%csl Gg2] [%cal Gg2h3,Rd5e5]', '#! note Kg2: b2', 'position x']);
});
test('a comment before the first move of a variation is one of that move', () => {
  const game = GAME.replace('(1. b4? $4', '({A try:} 1. b4? $4 {v}').replace('1... Kf5', '{on} 1... Kf5');
  assert.deepEqual(remarksOf(game).filter(line => /try|v$|on$/.test(line)),
    ['#! note b4: A try:', '#! note b4: v', '#! note Kg3: on']);
});
test('games are cut as the program cuts them', () => {
  assert.equal(gamesIn(GAME + '\n' + OURS).length, 2);
  assert.equal(gamesIn('[Event "a"]\n[Event "b"]\n\n1. e4 *\n').length, 2);
  assert.equal(gamesIn('prose\n[Event "a"]\n').length, 2);
  assert.equal(gamesIn('1. e4 *\n\ufeff[Event "b"]\n').length, 2);
  assert.deepEqual(gamesIn('; to whom\n\n [ Event  "a"]\r\n1. e4 *\r\n [FEN "x"]\n[_a "b"]\n[Event"c"]\n')
                     .map(text => text.split('\n').length - 1),
    [2, 2, 1]);
});
test('what the report prints of an author and of a judge', () => {
  const fen = '8/8/8/6k1/8/8/1P5K/8 w - - 0 1', printed = line => printedRemark(line, fen);
  assert.equal(printed('#! note Kg3 Kf5: a d\u00e9fense [%cal Gg5f5]'), '#! comment: 1... Kf5: a d\u00e9fense');
  assert.equal(printed('#! note+ Kg3 Kf5 Kf3: and more'), '#! comment: 2. Kf3: and more');
  assert.equal(printed('#! note -: White to win'), '#! comment: White to win');
  assert.equal(printed('#! accepted Kg3 Kf5 Kf3: dual'), '#! comment: 2. Kf3: the dual is accepted');
  assert.equal(printed('#! tag Result 1-0'), '#! comment: the claimed result is 1-0');
  for (const line of ['#! note Kg3: $1', '#! tag Result *', '#! tag ECO A00', '#! mark Kg3: $1', '# mine', 'pgn'])
    assert.equal(printed(line), line);
  assert.equal(
    printedRemark('#! note Kd5: the point', '8/8/8/4k3/8/3K4/3P4/8 b - - 0 7'), '#! comment: 7... Kd5: the point');
  const gone = '#! note Kg2: too hasty';
  assert.equal(printedRemark(gone, fen, new Set(['g3', 'g3 f5'])), gone);
  assert.equal(printedRemark('#! accepted Kg3 Kf5: dual', fen, new Set(['g3', 'g3 f5'])),
    '#! comment: 1... Kf5: the dual is accepted');
});
