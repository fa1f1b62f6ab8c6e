// Tails of games with more than four men: their headings, the way to them, and what their games say there.
import './stand_in.mjs';
import test from 'node:test';
import assert from 'node:assert/strict';
import {asGame, cutBlock} from '../src/cut_game.js';
import {notReadIn, remarksOf, saidInTail} from '../src/notes.js';
import {assumeAccepted} from '../src/assumed.js';
import {replacePosition, withMoves} from '../src/edits.js';
import {entriesOf} from '../src/entries.js';
import {numberedApart, numbersOf, placeAtRow, reportNumbers, withNumbers} from '../src/numbering.js';
import {savedGames} from '../src/saved_games.js';
import {withReasons} from '../src/reporting.js';
import {stampOf} from '../src/stamps.js';
import {copiedLines, copyStudy, joinedLines} from '../src/study_edits.js';
import {gamesWithoutPart, tailIn, tailText, wayTo} from '../src/tails.js';

const HEADING = '#! tail 2 of 3 of game 4, node 0.1.0, after 5. cxb8=Q, beside the solution';
const WHOLE = [
  '#> position 8/8/2P5/1Pr5/8/8/N7/k2K4 w - - 0 1', '#> stipulate white win', '#> insert root Nc1', '#> insert 0 Rxb5',
  '#> insert 0.0 c7', '#> insert 0 Rd5+', '#> insert 0.1 Nd3'
];
test('a heading names a tail', () => {
  assert.deepEqual(
    tailIn(HEADING), {number: 2, game: 4, node: '0.1.0', after: '5. cxb8=Q', beside: true, alone: false});
  assert.equal(tailIn('#! tail 1 of 1 of game 2, node root, after ').beside, false);
  assert.equal(tailIn('#! not taken over: comments 1'), null);
});
test('the way to a tail is that of its node', () => {
  assert.deepEqual(wayTo(WHOLE, '0.1.0'), ['Nc1', 'Rd5+', 'Nd3']);
  assert.deepEqual(wayTo(WHOLE, '0.0'), ['Nc1', 'Rxb5']);
  assert.deepEqual(wayTo(WHOLE, 'root'), []);
});
test('a bad move is in the part that it follows', () => {
  const part = (number, node, after) => ['', `#! tail ${number} of 2 of game 1, node ${node}, after ${after}`,
    'position F', 'stipulate white win', 'pgn'];
  const block = [...WHOLE, ...part(1, '0.0', '1... Rxb5'), ...part(2, '0.1.0', '2. Nd3')],
        game = {game: 1, line: 9, column: 1, author: '', why: 'NoSuchMove', text: 'Kh4'};
  const cutAt = text => cutBlock(block, game, {text: `[FEN "x"]\n\n${text} `, rest: 'Kh4 *'})
                          .filter(line => /^(#! tail|insert|#! up)/.test(line))
                          .map(line => line.slice(0, 11));
  assert.deepEqual(cutAt('1. Nc1 Rd5+ 2. Nd3 Rxd3 3.'), ['#! tail 1 o', '#! tail 2 o', '#! up to 3.', 'insert root']);
  assert.deepEqual(
    cutAt('1. Nc1 Rd5+ (1... Rxb5 2. c7 Rb8 3. '), ['#! tail 1 o', '#! up to 3.', 'insert root', '#! tail 2 o']);
  assert.deepEqual(asGame([HEADING.replace('game 4', 'game 1')], 7, 20), [HEADING.replace('game 4', 'game 7')]);
});
test('a game of which no part became a study has a row with its reason', () => {
  const lines = [
    '#! game 2, line 8: stipulated by its comment', ...WHOLE, '',
    '#! tail 1 of 1 of game 2, node 0.0, after 1... Rxb5: left out: the mate is due'
  ];
  assert.deepEqual(gamesWithoutPart(lines),
    [{game: 2, line: 8, column: 0, author: '', why: 'the mate is due', text: '', at: lines.length - 1}]);
  const [row] = entriesOf({lines, studies: [], refused: []});
  assert.deepEqual([row.number, row.stamp], ['2', 'left out: the mate is due (line 8)']);
  assert.deepEqual(gamesWithoutPart([...lines, '#! tail 2 of 2 of game 2, node 0.1.0, after x', 'position F']), []);
});
test('where the reading ended is known again when a saved game is opened', () => {
  const tags = '[Event "A"]\n[FEN "x"]\n\n';
  assert.deepEqual(
    notReadIn(`${tags}{White to win: not read: 2. Kf3, White mates\nin 9. Fine.} 1. c7 *`), ['insert root 2. Kf3']);
  assert.deepEqual(notReadIn(`${tags}{White to win. not read: 2... Kf3. Fine.} 1. c7 *`), ['insert root 2... Kf3']);
  assert.deepEqual(notReadIn(`${tags}{Fine.} 1. c7 {not read: 2. Kf3} *`), []);
});
test('a tail has what its game says behind the way to it', () => {
  const remarks = [
    '#! tag Annotator X', '#! note -: the whole', '#! note Nc1 Rd5+ Nd3 Rxd3+ Kc2: a point', '#! note Nc1: key',
    '#! mark Nc1 Rd5 Nd3: $1'
  ];
  assert.deepEqual(saidInTail(remarks, ['Nc1', 'Rd5+', 'Nd3']), ['#! tag Annotator X', '#! note Rxd3+ Kc2: a point']);
  assert.deepEqual(saidInTail(['#! note Nc1: $14', '#! note Nc1: $1'], ['Nc1']), ['#! note -: $14']);
  assert.deepEqual(saidInTail(remarks, []), remarks);
});
/** A game of five men in Czech letters whose three parts begin after moves of one name. */
const tail = (n, node, beside = '') => ['', `#! tail ${n} of 3 of game 7, node ${node}, after 3... Kxb2${beside}`,
  `position 8/8/8/8/8/8/1k6/K2R4 w - - 0 4`, 'stipulate white win', 'tag Event Ctyri kameny',
  'tag White Fritz, Jindrich', 'insert root Rd2', 'pgn'];
const CZECH = [
  '#! game 7, line 3: stipulated by its tag Result', '#! Event was: Čtyři kameny', '#! White was: Fritz, Jindřich',
  '#! letters: Czech', '#> position 8/8/8/8/8/1k6/1P6/K2R4 w - - 0 1', '#> stipulate white win',
  '#> tag Event Ctyri kameny', '#> tag White Fritz, Jindrich', '#> insert root Rd3', '#> insert 0 Kc4',
  '#> insert 0.0 Rd8', '#> insert 0.0.0 Kb3', '#> insert 0.0.0.0 Rd7', '#> insert 0.0.0.0.0 Kxb2', '#> insert root Rd4',
  '#> insert 1 Kc3', '#> insert 1.0 Rd8', '#> insert 1.0.0 Kb3', '#> insert 1.0.0.0 Rd7', '#> insert 1.0.0.0.0 Kxb2',
  '#> insert 1.0 Rd7', '#> insert 1.0.1 Kb3', '#> insert 1.0.1.0 Rd8', '#> insert 1.0.1.0.0 Kxb2',
  ...tail(1, '0.0.0.0.0.0'), ...tail(2, '1.0.0.0.0.0', ', beside the solution'),
  ...tail(3, '1.0.1.0.0.0', ', beside the solution')
];
const czech = lines => ({...assumeAccepted(lines), at: 0, path: 'root', name: '', id: 'x', note: '', judged: true});
test('each part of a game has the names of the game in their own letters, as long as its tags are the game\'s', () => {
  const d = czech(CZECH), rows = entriesOf(d);
  assert.deepEqual(rows.map(row => row.author), ['Fritz, Jindřich', 'Fritz, Jindřich', 'Fritz, Jindřich']);
  assert.ok(rows.every(row => row.title.startsWith('Čtyři kameny (after ')), rows[0].title);
  assert.ok(d.studies.every(s => s.origin.letters === 'Czech'));
  d.studies[0].games = ['[Event "Ctyri kameny"]\n[White "Fritz, Jindrich"]\n[Result "1-0"]\n\n4. Rd2 1-0\n\n'];
  const saved = savedGames(d), plain = savedGames(d, false).replace(/\s+/g, ' ');
  assert.match(saved, /\[Event "Čtyři kameny"\]\n\[White "Fritz, Jindřich"\]/);
  assert.match(saved, /\{Tail 1 of game 7, after 3\.\.\. Kxb2\} 4\. Rd2 1-0/);
  assert.match(plain, /\{White to win\. Tail 1 of game 7, after 3\.\.\. Kxb2\} 4\. Rd2 1-0/);
  const [first, ...others] = czech(CZECH.map((line, at) => (at === 29 ? 'tag White Prokes' : line))).studies;
  assert.deepEqual([first.tags.White, first.originals.White], ['Prokes', undefined]);
  assert.ok(others.every(s => s.originals.White === 'Fritz, Jindřich'));
});
test('parts that begin after moves of one name are told apart by the moves before it', () => {
  const d = czech(CZECH);
  assert.deepEqual(entriesOf(d).map(row => row.title.slice('Čtyři kameny '.length)),
    ['(after 1. Rd3 .. 3... Kxb2)', '(after 1. Rd4 .. 2. Rd8 .. 3... Kxb2)', '(after 1. Rd4 .. 2. Rd7 .. 3... Kxb2)']);
  const rest = ' Judged from there on; the moves before, with more than four men, are not judged';
  assert.equal(tailText(d.lines, d.studies[1]),
    'Tail 2 of game 7, after 3... Kxb2, beside the solution: a try, which should fail.' +
      `${rest}: 1. Rd4 Kc3 2. Rd8 Kb3 3. Rd7 Kxb2.`);
  assert.equal(tailText([], d.studies[0]), `Tail 1 of game 7, after 3... Kxb2.${rest}.`);
});
test('the report has the numbers of the list, whatever was left out, moved or removed', () => {
  const position = 'position 8/8/8/8/8/8/1k6/K2R4 w - - 0 4',
        game = n => [`#! game ${n}, line ${50 * n}: stipulated by its comment`, position, 'stipulate white win',
          'insert root Rd2', 'pgn', ''];
  const lines = [
    ...game(5), ...game(1), '#! game 2, line 60, column 3: NoSuchMove at Kb6', '', ...game(3), ...CZECH, '', position,
    'stipulate white win', 'insert root Rd2', '', '#! game 8, line 90, column 3: NoSuchMove at Kb6'
  ];
  const d = {...assumeAccepted(lines), refused: [], at: 0}, numbers = reportNumbers(d);
  assert.deepEqual(numbers, ['5', '1', '2', '3', '7.1', '7.2', '7.3', '9', '8']);
  assert.deepEqual(numbers, entriesOf(d).map(({number}) => number));
  const page = [1, 2, 4].map(n => `<article id="e${n}"><p class="note">No. ${n}</p><p>No. 1</p></article>`).join('') +
    '<article class="sum"><tr><td>1</td><td><a href="#e1">1</a></td></tr><tr><td>4</td><td>x</td></tr></article>',
        said = withNumbers(page, numbers);
  assert.deepEqual([...said.matchAll(/<article id="(e\d)"><p class="note">(No. [\d.]+)</g)].map(m => `${m[1]} ${m[2]}`),
    ['e1 No. 5', 'e2 No. 1', 'e4 No. 3']);
  assert.ok(said.includes('<tr><td>5</td><td><a href="#e1">1</a>') && said.includes('<tr><td>3</td><td>x'), said);
  assert.ok(said.includes('<p>No. 1</p>'));
});
test('of joined scripts no two games have one number', () => {
  const game = n => [`#! game ${n}, line ${n}: stipulated by its comment`, 'position F', 'stipulate white win', ''],
        out = ['#! game 3, line 9, column 3: NoSuchMove at Kb6', ''],
        one = [...game(1), ...game(2), ...out, ...CZECH, ''], joined = numberedApart([...one, ...one]);
  assert.deepEqual(entriesOf({...czech(joined)}).map(({number}) => number),
    ['1', '2', '3', '7.1', '7.2', '7.3', '8', '9', '10', '14.1', '14.2', '14.3']);
  assert.equal(numberedApart(one), one);
  assert.ok(czech(joined).studies.every((s, i) => i < 7 || !s.origin.tail || s.originals.White === 'Fritz, Jindřich'));
});
test('a study comes to the row of the list that is typed, left-out games counted', () => {
  const rows = [0, -1, 1, 2].map(at => ({at}));
  assert.deepEqual(
    [placeAtRow(rows, 0, 4), placeAtRow(rows, 2, 1), placeAtRow(rows, 2, 3), placeAtRow(rows, 1, 3)], [2, 0, 1, 1]);
});
test('a part of a game with other men is a study by itself with its names', () => {
  const d = czech(CZECH), [, , part] = d.studies, other = '8/8/8/8/8/8/1k6/K1R5 w - - 0 4';
  const [alone] = czech(copiedLines(d.lines, part)).studies, copy = copiedLines(d.lines, part);
  for (const [lines, s] of [[d.lines, part], [copy, alone]])
    for (const moves of [[], ['insert root Rc2+']]) {
      const made = czech(withMoves(lines, s, other, 'white win', moves).lines), [last] = made.studies.slice(-1);
      assert.deepEqual([tailText(made.lines, last), last.origin.tail, last.origin.game], ['', null, 0]);
      assert.equal(last.originals.White, 'Fritz, Jindřich');
      assert.equal(stampOf(made, {...last, verdict: 'sound', start: 'White mates in 9'}, null).kind, 'correct');
      assert.doesNotMatch(made.lines.slice(last.head).join(), / tail /);
    }
  assert.deepEqual(numbersOf(czech(replacePosition(d.lines, part, other, 'white win').lines)), ['7.1', '7.2', '8']);
  const same = czech(replacePosition(d.lines, part, part.fen, 'white draw').lines);
  assert.deepEqual(numbersOf(same), ['7.1', '7.2', '7.3']);
});
/** A saved game is opened again: what stands above its position. */
const openedAgain = game => [`#! game 1, line 1: stipulated by its comment`, ...remarksOf(game)];
const study = (head, study) => czech([...head, ...CZECH.slice(CZECH.length - 6, CZECH.length - 1), ...study]);
test('a try says that it is one in a copy, in another document, and when its saved game is opened', () => {
  const d = czech(CZECH), heading = '#! tail 1 of 1 by itself: tail 3 of game 7, after 3... Kxb2, beside the solution';
  const kept = lines => lines.filter(line => line.startsWith('#! tail ') || line.startsWith('#! White was'));
  assert.deepEqual(kept(copiedLines(d.lines, d.studies[2])), [heading, '#! White was: Fritz, Jindřich']);
  const copied = czech(copyStudy(d.lines, d.studies, 2).lines), [copy] = copied.studies.slice(-1);
  assert.deepEqual([copy.origin.tail.beside, copy.originals.White, copy.origin.game], [true, 'Fritz, Jindřich', 0]);
  assert.deepEqual(numbersOf(copied), ['7.1', '7.2', '7.3', '8']);
  assert.equal(stampOf(copied, {...copy, verdict: 'wrong', start: 'draw'}, null).text, 'refuted');
  const other = czech(copiedLines(d.lines, d.studies[2])), [alone] = other.studies;
  assert.deepEqual(copiedLines(other.lines, alone), other.lines);
  alone.games = ['[Event "Ctyri kameny"]\n[Result "1-0"]\n\n{White to win: wrong, draw} 4. Rd2 1-0\n\n'];
  Object.assign(alone, {verdict: 'wrong', start: 'draw'});
  for (const marks of [true, false]) {
    const saved = savedGames(other, marks), again = study(openedAgain(saved), []).studies[0];
    assert.match(saved.replace(/\s+/g, ' '), /Tail 3 of game 7, after 3... Kxb2, beside the solution: a try, which/);
    assert.equal(again.origin.tail.beside, true);
    assert.deepEqual([again.origin.game, openedAgain(saved).includes(heading)], [1, true]);
  }
});
test('the report says which move of which game was not read, and why, in words', () => {
  const refused = (move, name = 'BadArguments') =>
          `<p class="warn">Line 36 was refused: <code>insert root ${move}</code> <b>${name}</b>: a word too few</p>`,
        lines = [
          '#! game 4, line 13, column 15: not read: NotSan at <b', '#! game 4, line 8: stipulated by its comment',
          '#! up to 2. <b, line 13, column 15: NotSan at <b', 'position F', 'stipulate white win', 'insert root 2. <b',
          '', 'position F', 'stipulate white win', 'insert root 7... Kh9', 'insert root Kh1 Kh2'
        ];
  const d = assumeAccepted(lines), page = [refused('2. &lt;b'), refused('7... Kh9'), refused('Kh1 Kh2')].join('');
  const said = withReasons(page, d).split('</p>');
  assert.equal(said[0], '<p class="warn">No. 4: 2. &lt;b was not read: &lt;b: not a move: write it as Kb6 or c8=R');
  assert.equal(
    said[1], '<p class="warn">No. 5: 7... Kh9 was not read: the saved game says that it was not read from here on');
  assert.equal(said[2] + '</p>', refused('Kh1 Kh2'));
});
test('of two documents as one each study is what it was alone, and no two games have one number', () => {
  const game = n => [`#! game ${n}, line ${n}: stipulated by its comment`, 'position F', 'stipulate white win',
          `tag White Author ${n}`, ''],
        first =
          assumeAccepted([...game(1), 'position F', 'stipulate white win', 'tag White Nobody', '', ...game(2), '']),
        second = assumeAccepted(['build KK', '', 'position G', 'stipulate black draw', 'tag Event X', '', ...game(1)]);
  const d = assumeAccepted(numberedApart(joinedLines(first, second)));
  assert.deepEqual(d.studies.map(({fen, tags}) => [fen, tags.White, tags.Event]), [
    ['F', 'Author 1', undefined], ['F', 'Nobody', undefined], ['F', 'Author 2', undefined], ['G', '?', 'X'],
    ['F', 'Author 1', 'X']
  ]);
  assert.deepEqual(d.studies.map(({aim}) => aim.hero), ['White', 'White', 'White', 'Black', 'White']);
  assert.deepEqual([numbersOf(first), numbersOf(d)], [['1', '3', '2'], ['1', '3', '2', '5', '4']]);
});
