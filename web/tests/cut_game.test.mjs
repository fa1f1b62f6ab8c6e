// A game with a bad move: its text is cut there, kept in remarks, and what stands before is a study that is not read.
import './stand_in.mjs';
import test from 'node:test';
import assert from 'node:assert/strict';
import {asGame, badMove, cutBlock, cutOf, leftOutText, remedyOf, textIn, textRemarks} from '../src/cut_game.js';
import {replacePosition, stipulate, tidy, withMoves} from '../src/edits.js';
import {entriesOf} from '../src/entries.js';
import {stampOf, unreadIn} from '../src/stamps.js';
import {canBeCut, cutIn, leftOutBy, withoutCut} from '../src/left_out.js';
import {readScript} from '../src/script.js';
import {copyStudy} from '../src/study_edits.js';
import {bareTree} from '../src/unmarked.js';

/** The sixth entry of a tourney: in its second variation a pawn steps from b4 to b6. */
const HEAD = '[Event "Entry 6"]\n[White "Smith, John"]\n[FEN "8/8/8/6k1/8/8/1P5K/8 w - - 0 1"]\n\n',
      MOVES = '1. Kg3! Kf5 2. Kf3 Ke5 (2... Kg5 3. Ke4 Kf6 4. Kd5 Ke7 5. Kc6 Kd8 (5... Ke6 6. b4 Ke7 7. ',
      REST = 'b6) 6. Kb7) 3. Ke3 1-0', CUT = {
        text: HEAD + MOVES,
        rest: REST
      };
test('a game is cut at the place that its remark gives', () => {
  const game = leftOutBy(`#! game 6, line 79, column ${MOVES.length + 1} (Smith, John): NoSuchMove at b6`),
        letters = count => count;
  assert.ok(canBeCut(game));
  assert.deepEqual(cutOf(HEAD + MOVES + REST + '\n\n', 75, game, letters), CUT);
  assert.deepEqual(cutOf('[FEN "x"]\n\n1. Kg3 {größer}\nKh9 *\n', 1, {...game, line: 4, column: 1}, letters),
    {text: '[FEN "x"]\n\n1. Kg3 {größer}\n', rest: 'Kh9 *'});
  for (const words of ['left out: 7 men', 'NoStipulation', 'OpponentInCheck'])
    assert.ok(!canBeCut(leftOutBy(`#! game 2, line 9: ${words}`)), words);
  assert.ok(!canBeCut(leftOutBy('#! game 2, line 9, column 1: TagForm')));
});
/** The text before a bad move, the rest, and the move with its number; `/` is a line feed. */
const CASES = `
1. Kg3 Kf5 2. Kf3 |Kh9 3. Ke3 1-0|2... Kh9
1. Kg3 Kf5 |Kz3 *|2. Kz3
1... Kg8 2.|Dg2+ Kf8 3.Th8 matt 1-0|2. Dg2+
1...Kg8 |Dg2+ 1-0|2. Dg2+
1. c8=R! (1. c8=Q? |stalemate) Ka6 1-0|1... stalemate
1. Kg3 Kf5 (1... |Kz5) *|1... Kz5
1. Kg3 Kf5 |3. Kf3 *|3. Kf3
1. Kg3 Kf5 ; see 1./|Kh9 *|1. Kh9
1. Kg3 (1. Kg2 Kf4) |Kh9|1... Kh9
1. Kg3 1-0 2. |Kf3|2. Kf3
1. Kg3 {open| Kf5 1-0|1... Kf5
1. Kg3 |{open Kf5 1-0|1... {open
1. Kg3 |& Kf5 1-0|1... &
`;
test('the bad move has its number', () => {
  assert.equal(badMove(CUT), '7. b6');
  for (const row of CASES.trim().split('\n')) {
    const [text, rest, move] = row.split('|').map(part => part.replaceAll('/', '\n'));
    assert.equal(badMove({text, rest}), move, row);
  }
});
test('its text is kept in remarks', () => {
  assert.deepEqual(textRemarks({text: '[FEN "x"]\n\n1. Kg3 ', rest: 'Kh9\n2. Kf3 *'}),
    ['#! text: [FEN "x"]', '#! text: ', '#! text: 1. Kg3 ', '#! rest+: Kh9', '#! rest: 2. Kf3 *']);
  const long = 'größer '.repeat(200);
  for (const cut of [CUT, {text: long, rest: long}, {text: '\n\na', rest: ''}, {text: '', rest: 'b\n\nc'}]) {
    const lines = textRemarks(cut);
    assert.deepEqual(textIn(lines), cut);
    assert.ok(lines.every(line => new TextEncoder().encode(line).length <= 1024), lines);
  }
  assert.equal(textIn(['#! note Kg3: text']), null);
  const lines = ['', '#! game 6, line 79, column 98: NoSuchMove at b6', '#! its Event was: A', ...textRemarks(CUT), ''];
  assert.deepEqual(leftOutText(lines, 1), {game: leftOutBy(lines[1]), cut: CUT, end: lines.length - 1});
});
test('what can be done with a game that was left out', () => {
  const remedy = (remark, cut) => remedyOf([remark, '#! its Event was: A', ...(cut ? textRemarks(cut) : []), ''], 0);
  const tags = '[FEN "8/8/8/6k1/8/8/1P5K/8 w - - 0 1"]\n\n', bad = '#! game 6, line 79, column 98: NoSuchMove at b6';
  assert.equal(remedy(bad, {text: `${tags}1. Kg3 `, rest: 'b6 *'}), 'open');
  assert.equal(remedy(bad, {text: '1. Kg3 ', rest: 'b6 *'}), 'mend');
  assert.equal(remedy('#! game 6, line 79: NoStipulation', {text: '', rest: `${tags}1. Kg3 *`}), 'mend');
  assert.equal(remedy(bad, null), '');
  assert.equal(
    remedy('#! game 6, line 79: left out: 7 men, never four or fewer', {text: '', rest: `${tags}1. Kg3 *`}), 'mend');
  const five = (moves, rest) => remedy(bad, {text: `[FEN "k7/8/1K6/8/8/8/1p6/1RR5 w - - 0 1"]\n\n${moves} `, rest});
  assert.equal(five('1. Rc2 Kb8 2.', 'Rz9 Ka8 3. Rxb2 *'), 'mend');
  for (const moves of ['1. Rxb2 Kb8 2.', '1. Rc2 (1. Rxb2 Kb8) 1... Kb8 2.', '1. Rc2 Kb8 2. Rc2:b2 Ka8 3.'])
    assert.equal(five(moves, 'Rz9 *'), 'open', moves);
  const six = '[FEN "k7/8/1K6/8/8/8/1p6/1RRN4 w - - 0 1"]\n\n1. Rxb2 (1. Nxb2 Kb8) (1. Rc2 Kb8 2. Rcxb2 ';
  assert.equal(remedy(bad, {text: six, rest: 'Ka9) *'}), 'mend');
});
const GAME = leftOutBy('#! game 6, line 79, column 98: NoSuchMove at b6'), BLOCK = [
  '#! game 1, line 5, column 98: not read: NoSuchMove at b6', '#! game 1, line 1: stipulated by its tag Result',
  '#! tag Result 1-0', 'position 8/8/8/6k1/8/8/1P5K/8 w - - 0 1', 'stipulate white win', 'tag White Smith, John',
  'insert root Kg3', 'insert 0 Kf5', 'insert 0.0 Kf3', 'pgn'
];
const SHORT = {
  text: '1. Kg3 Kf5 2. Kf3 ',
  rest: 'Kh9 1-0'
},
      STUDY = cutBlock(asGame(BLOCK, 6, 75), GAME, SHORT);
test('a line that no program accepts stands for the bad move', () => {
  assert.deepEqual(STUDY, [
    '#! game 6, line 79, column 98: not read: NoSuchMove at b6', '#! game 6, line 75: stipulated by its tag Result',
    '#! tag Result 1-0', '#! up to 2... Kh9, line 79, column 98: NoSuchMove at b6', '#! text: 1. Kg3 Kf5 2. Kf3 ',
    '#! rest+: Kh9 1-0', ...BLOCK.slice(3, -1), 'insert root 2... Kh9', 'pgn'
  ]);
  assert.deepEqual(cutIn(STUDY), {move: '2... Kh9', game: {...GAME, game: 0}});
  assert.deepEqual(withoutCut(STUDY.slice(0, 7)), [STUDY[1], STUDY[2], STUDY[6]]);
  assert.equal(bareTree(STUDY).children[0].children[0].children[0].children.length, 0);
});
test('it is not read, whatever the verdict on its part', () => {
  const saved = '[Event "?"]\n\n{White to win: sound, White mates in 28} 1. Kg3 1-0\n\n';
  const replies = STUDY.map(text => (text === 'pgn'            ? saved
                                : /2\.\.\./.test(text)         ? 'error BadArguments'
                                : text.startsWith('stipulate') ? 'stipulate White to win'
                                : text.startsWith('insert')    ? 'insert 0'
                                                               : text));
  const script = readScript(STUDY, STUDY.map((text, line) => ({text, line})), replies), [s] = script.studies;
  assert.deepEqual(stampOf(script, s, null), {kind: 'not read', text: 'not read: 2... Kh9'});
  assert.equal(unreadIn(script, s), 'not read: 2... Kh9');
  assert.deepEqual(entriesOf({...script, at: 0}).map(row => [row.number, row.stamp]), [['6', 'not read: 2... Kh9']]);
  assert.equal(stampOf({...script, refused: []}, s, null).kind, 'not read');
  const root = {fen: s.fen, parent: null, children: []};
  assert.ok(tidy(STUDY, s, root).lines.includes('insert root 2... Kh9'));
  assert.ok(stipulate(STUDY, s, 'white draw').lines.includes(STUDY[3]));
  assert.equal(cutIn(replacePosition(STUDY, s, '8/8/8/6k1/8/8/1P5K/8 b - - 0 1', 'white win').lines), null);
  const moved = withMoves(STUDY, s, '8/8/8/1k6/8/8/K5P1/8 w - - 0 1', 'white win', ['insert root Kb3']).lines;
  assert.deepEqual(moved.slice(-3), ['insert root Kb3', 'insert root 2... Kh9', 'pgn']);
  assert.deepEqual(cutIn(moved), cutIn(STUDY));
  assert.deepEqual(cutIn(copyStudy(STUDY, script.studies, 0).lines.slice(STUDY.length)), cutIn(STUDY));
});
