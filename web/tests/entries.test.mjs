// Entries, their stamps and the list as a file; whole studies copied and moved; diagrams turned with their moves.
import './stand_in.mjs';
import test from 'node:test';
import assert from 'node:assert/strict';
import {textRemarks} from '../src/cut_game.js';
import {setTag} from '../src/edits.js';
import {byCause, entriesOf, nameOf, newlyRefused, studyName, unreadNote, withFacts} from '../src/entries.js';
import {numbersOf} from '../src/numbering.js';
import {besideSentence, hasSolution, partSentence, stampOf} from '../src/stamps.js';
import {countsOf, csvOf, isOfKind, kindWords, menuText} from '../src/entry_list.js';
import {judgedBy, readReview} from '../src/parse_answers.js';
import {assumeAccepted} from '../src/assumed.js';
import {readScript} from '../src/script.js';
import {copyStudy, dropStudy, moveStudy} from '../src/study_edits.js';
import {insertions, isTurn, legalPart, turnedAim, turnedFen, turnedSan, turnedTree} from '../src/turning.js';

const FEN = '7K/8/k1P5/7p/8/8/8/8 w - - 0 1',
      game = verdict => `[Event "?"]\n\n{White to win: ${verdict}, draw} 1-0\n\n`;
const LINES = [
  'position ' + FEN, 'stipulate white win', 'tag Event A, "first"', 'tag White Reti', 'insert root Kg7', 'pgn', '',
  'position ' + FEN, 'tag Event B', 'pgn', '', 'position x', 'tag White Kasparyan, G.', '',
  '#! game 9, line 3: left out: 7 men, never four or fewer', '', 'position ' + FEN, 'insert root Kz9', 'pgn'
];
function doc(verdicts) {
  const sent = LINES.map((text, line) => ({text, line})), left = [...verdicts];
  const replies = LINES.map(text => (text === 'pgn'            ? game(left.shift())
                                : text === 'position x'        ? 'error FieldCount'
                                : /Kz9|Kasparyan/.test(text)   ? 'error NotSan'
                                : text.startsWith('stipulate') ? 'stipulate White to win'
                                : text.startsWith('insert')    ? 'insert 0'
                                                               : text));
  return {...readScript(LINES, sent, replies), at: 0, path: 'root', name: '', id: 'x', note: '', judged: true};
}
const REVIEW = 'study 1 x\nstipulation White to win: unsound 1, draw\nfault 0 Kg7 win 3 dual 2 time 2\n' +
  'waste sound but for loss of time\nmissing 0 Kb6 win 3 0\n';
const reviewed = () =>
  judgedBy(readReview(REVIEW), {stamp: 'sound, duals waste time', worst: '1. Kg7: also Kh7, wastes time'});
test('each entry has a row and a stamp', () => {
  const d = doc(['unsound 1', 'sound', 'sound']), review = reviewed();
  const rows = entriesOf(d, [review]);
  assert.deepEqual(rows.map(r => [r.kind, r.title, r.author, r.stamp]), [
    ['time', 'A, "first"', 'Reti', 'sound, duals waste time'],
    ['correct', 'B', 'Reti (set for an earlier study)', 'correct, no solution yet'],
    ['left out', '', 'Kasparyan, G.', 'left out: not six fields, and not four'],
    [
      'left out', 'line 3 of the PGN', '',
      'left out: 7 men, never four or fewer: go on with a line until four men are left (line 3)'
    ],
    ['not read', 'Kh8 Pc6 / Ka6 Ph5', '', 'not read: line 18, Kz9']
  ]);
  assert.deepEqual(
    countsOf(rows), [['time', 1], ['correct', 1], ['not read', 1], ['left out', 2], ['waste', 1], ['same', 3]]);
  assert.equal(stampOf(d, d.studies[0], null).text, '1 fault');
  assert.deepEqual(d.studies.map(s => hasSolution(d.lines, s, null)), [true, false, false]);
  assert.equal(nameOf({...d.studies[0], originals: {White: 'Réti'}}, 'White'), 'Réti');
});
test('rows whose facts were found are made anew, the others stay', () => {
  const d = doc(['unsound 1', 'sound', 'sound']), before = entriesOf(d),
        after = withFacts(before, d, new Set([0]), [reviewed()]);
  assert.deepEqual(after.map((row, at) => row === before[at]), [false, true, true, true, true]);
  assert.equal(after[0].stamp, 'sound, duals waste time');
});
test('a game without a position is said to begin from the initial one', () => {
  const said = tags => {
    const text = textRemarks({text: `${tags}[Result "1/2-1/2"]\n\n1. `, rest: 'g6 1/2-1/2\n'}),
          lines = ['#! game 6, line 49, column 4: NoSuchMove at g6', ...text];
    return entriesOf({...readScript(lines, [], []), at: 0, path: 'root', name: '', id: 'x', note: '', judged: true})
      .map(({stamp}) => stamp);
  };
  assert.deepEqual(said(''), ['left out: it has no tag FEN, so it begins from the initial position: ' +
    'write [FEN ".."] above its moves in the PGN ' +
    '(line 49, column 4)']);
  assert.match(said('[FEN "7K/8/k1P5/7p/8/8/8/8 w - - 0 1"]\n')[0], /^left out: g6: no legal move of this position/);
});
test('a game that was left out has its title and its author, where remarks behind it have them', () => {
  const lines = [
    '#! game 2, line 9: left out: 7 men, never four or fewer', '#! Event was: A "prize"', '#! White was: Kasparyan, G.',
    '', '#! game 3, line 20, column 8: NoSuchMove at Kh9', '#! White was: Réti',
    '#! game 4, line 31: left out: 6 men, never four or fewer',
    '#! game 5, line 40 (Kasparyan, G.; "A prize"): left out: 5 men, never four or fewer',
    '#! game 6, line 49 ("B"): left out: 6 men, never four or fewer',
    '#! game 7, line 58 (Kubbel, L.): left out: 6 men, never four or fewer'
  ];
  const rows =
    entriesOf({...readScript(lines, [], []), at: 0, path: 'root', name: '', id: 'x', note: '', judged: true});
  const men = 'men, never four or fewer: go on with a line until four men are left',
        move =
          'Kh9: no legal move of this position: write a legal move; perhaps a move before it is missing or wrong, ' +
    'or the FEN has the wrong side to move';
  assert.deepEqual(rows.map(r => [r.number, r.title, r.author, r.stamp]), [
    ['2', 'A "prize"', 'Kasparyan, G.', `left out: 7 ${men} (line 9)`],
    ['3', 'line 20 of the PGN', 'Réti', `left out: ${move} (line 20, column 8)`],
    ['4', 'line 31 of the PGN', '', `left out: 6 ${men} (line 31)`],
    ['5', 'A prize', 'Kasparyan, G.', `left out: 5 ${men} (line 40)`], ['6', 'B', '', `left out: 6 ${men} (line 49)`],
    ['7', 'line 58 of the PGN', 'Kubbel, L.', `left out: 6 ${men} (line 58)`]
  ]);
  assert.deepEqual(rows.map(row => menuText([], row)), [
    '2. A "prize", Kasparyan, G.: left out', '3. line 20 of the PGN, Réti: left out', '4. line 31 of the PGN: left out',
    '5. A prize, Kasparyan, G.: left out', '6. B: left out', '7. line 58 of the PGN, Kubbel, L.: left out'
  ]);
});
test('a study has the number of its game, and no name of the study before', () => {
  const d = doc(['unsound 1', 'sound', 'sound']), [a, b, c] = d.studies;
  assert.deepEqual([a, b, c].map(studyName), ['A, "first", Reti', 'B', 'Kh8 Pc6 / Ka6 Ph5']);
  assert.deepEqual(
    numbersOf({lines: [], studies: [a, {...b, games: ['', '']}, c, {...a, games: []}]}), ['1', '2\u20133', '', '4']);
  assert.deepEqual(entriesOf(d).map(row => row.number), ['10', '11', '', '9', '']);
});
/** Six of the twelve entries of a tourney; one more was added on the board, and is no game of it. */
const ENTRIES = [
  '#! game 2, line 16: stipulated by its tag Result', 'position ' + FEN, 'stipulate white win', 'pgn', '',
  '#! game 4, line 56, column 12 (Muller, Jurgen): NotSan at Dg2+', '#! its Event was: Entry 4',
  '#! its White was: Müller, Jürgen', '', '#! game 6, line 75: stipulated by its comment',
  '#! the stipulation differs from its tag Result', '#! the stipulation differs from its result', 'position ' + FEN,
  'stipulate white win', 'tag Event Entry 6', 'pgn', '', 'position ' + FEN, 'stipulate white draw', 'tag Event New',
  'pgn', '', '#! game 11, line 120: stipulated by its result', '#! the stipulation of its comment is not understood',
  'position ' + FEN, 'stipulate white win', 'tag Event Entry 11', 'pgn', '',
  '#! game 12, line 129: left out: 5 men, never four or fewer'
];
/** A game of five men, and the two parts of it that begin with four: the second is a try. */
const TAILS = [
  '#! game 3, line 20: stipulated by its comment', '#> position 8/8/8/8/8/8/8/k1K1Q1R1 w - - 0 1', '',
  '#! tail 1 of 2 of game 3, node 0.0, after 2... Kxe1', 'position ' + FEN, 'stipulate white win', 'tag Event Five men',
  'pgn', '', '#! tail 2 of 2 of game 3, node 1.0, after 2... Kxg1, beside the solution', 'position ' + FEN,
  'stipulate white win', 'tag Event Five men', 'pgn'
];
test('a part of a game with more than four men has its number in the game, and a try is refuted', () => {
  const d = {...assumeAccepted(TAILS), at: 0, path: 'root', name: '', id: 'x', note: '', judged: true},
        rows = entriesOf(d);
  assert.deepEqual(rows.map(row => row.number), ['3.1', '3.2']);
  assert.deepEqual(rows.map(row => row.title), ['Five men (after 2... Kxe1)', 'Five men (after 2... Kxg1)']);
  const stamp = (at, verdict) => stampOf(d, {...d.studies[at], verdict, start: 'draw'}, null);
  assert.deepEqual(stamp(0, 'wrong'), {kind: 'wrong', text: 'does not win'});
  assert.deepEqual(stamp(1, 'wrong'), {kind: 'refuted', text: 'refuted'});
  assert.deepEqual(stamp(1, 'sound'), {kind: 'works', text: 'works from here'});
  assert.deepEqual(stamp(0, 'sound'), {kind: 'ends', text: 'correct, and the line ends here'});
});
/** A try, 1. O-O, with two replies: after 1... Rf8 Black holds, after 1... Rh1+ White wins; and one more try. */
const REPLIES = ['0, after 1. Rxh8+', '1.0, after 1... Rf8', '1.1, after 1... Rh1+', '2.0.0.0, after 2... Kf7'].flatMap(
  (way, i) => [`#! tail ${i + 1} of 4 of game 1, node ${way}${i ? ', beside the solution' : ''}`, 'position ' + FEN,
    'stipulate white win', 'pgn', '']);
test('a part that comes after one of several defences says what is known of the try', () => {
  const script = {...assumeAccepted(REPLIES), at: 0, path: 'root', name: '', id: 'x', note: '', judged: true};
  const stamps = verdicts => {
    const studies = script.studies.map((s, i) => ({...s, verdict: verdicts[i], start: 'draw'}));
    return studies.slice(1).map(s => stampOf({...script, studies}, s, null));
  };
  const [refuted, beside, other] = stamps(['sound', 'wrong', 'sound', 'sound']);
  assert.deepEqual(refuted, {kind: 'refuted', text: 'refuted'});
  assert.deepEqual(beside, {kind: 'refuted', text: 'works from here; the try is refuted in 1.2'});
  assert.deepEqual(other, {kind: 'works', text: 'works from here'});
  assert.deepEqual(stamps(['sound', 'sound', 'sound', 'wrong'])[1], {kind: 'works', text: 'works from here'});
  assert.equal(besideSentence(beside),
    'This line is beside the solution, and from here it works; but the try that leads to it is refuted in 1.2.');
  assert.equal(besideSentence(other),
    'This line is beside the solution, and from here it works: a second solution, unless there is a better defence ' +
      'before.');
  assert.deepEqual(countsOf([refuted, beside, other]), [['works', 1], ['refuted', 2]]);
  assert.deepEqual([1, 2].map(n => `${n} ${kindWords('works', n)}`),
    ['1 beside a solution that works from here', '2 beside a solution that work from here']);
});
test('the bad move of a saved game is named without a line of the script', () => {
  const lines = ['position ' + FEN, 'stipulate white win', 'insert root 6. Ke3', 'pgn'], script = {
    ...assumeAccepted(lines),
    refused: [{line: 2, text: 'insert root 6. Ke3', reply: 'error BadArguments'}]
  },
        [study] = script.studies, stamp = stampOf(script, {...study, verdict: 'sound', start: 'draw'}, null);
  assert.deepEqual(stamp, {kind: 'not read', text: 'not read: 6. Ke3'});
});
test('a part from which more is reached than is asked may come after a weak move', () => {
  const script = assumeAccepted(REPLIES.map(line => line.replace('white win', 'white draw'))), [part] = script.studies,
        won = {...part, verdict: 'wrong', start: 'White mates in 9'}, stamp = stampOf(script, won, null);
  assert.equal(stamp.kind, 'more');
  assert.match(stamp.text, /^from here /);
  assert.match(
    partSentence(script, won, stamp), /^From here .*, more than is asked: a weak move before, with more than/);
});
test('a part that does not reach its goal may be spoilt by a move before it, with more than four men', () => {
  const script = assumeAccepted(REPLIES), judged = (s, verdict) => ({...s, verdict, start: 'draw'}),
        said = (s, verdict) => partSentence(script, judged(s, verdict), stampOf(script, judged(s, verdict), null));
  assert.equal(said(script.studies[0], 'wrong'),
    'From here White does not win: a move before, with more than four men, gave it away, or the stipulation is wrong.');
  assert.equal(stampOf(script, judged(script.studies[0], 'wrong'), null).text, 'does not win');
  assert.equal(said(script.studies[0], 'sound'), '');
  assert.match(said(script.studies[1], 'wrong'), /beside the solution, and from here it is refuted/);
  const [whole] = assumeAccepted(['position ' + FEN, 'stipulate white win', 'pgn']).studies;
  assert.equal(said(whole, 'wrong'), '');
});
test('a refutation after moves of the hero that he need not make proves nothing of another defence', () => {
  const lines = REPLIES.map(line => line.replace('node 1.0, after 1... Rf8', 'node 1.0.0.0, after 2... Kxf8')),
        script = assumeAccepted(lines);
  const studies = script.studies.map((s, i) => ({...s, verdict: i === 1 ? 'wrong' : 'sound', start: 'draw'}));
  assert.equal(stampOf({...script, studies}, studies[2], null).text, 'works from here');
});
test('an entry stays an entry: its number is its place in the file, and its stipulation has a source', () => {
  const d = {...assumeAccepted(ENTRIES), at: 0, path: 'root', name: '', id: 'x', note: '', judged: true},
        rows = entriesOf(d);
  assert.deepEqual(rows.map(row => row.number), ['2', '4', '6', '13', '11', '12']);
  assert.deepEqual(rows.map(row => row.aim), [
    'White to win (from the Result)', '', 'White to win (from the comment)', 'White to draw',
    'White to win (from the final result)', ''
  ]);
  assert.deepEqual([rows[1].title, rows[1].author], ['Entry 4', 'Müller, Jürgen']);
  assert.equal(rows[1].stamp,
    'left out: Dg2+: not a move with the letters K Q R B N: write the men with these ' +
      'letters, as a PGN has them (line 56, column 12)');
  assert.equal(menuText(d.studies, rows[1]), '4. Entry 4, Müller, Jürgen: left out');
  assert.equal(menuText(d.studies, {...rows[2], stamp: 'sound'}), '6. Entry 6: sound');
  assert.equal(menuText(d.studies, {...rows[2], title: 'Entry 6 (after 4. Bc8)', stamp: 'sound'}),
    '6. Entry 6 (after 4. Bc8): sound');
  assert.deepEqual(rows.filter(row => isOfKind(row, 'differ')).map(row => row.number), ['6', '11']);
  assert.deepEqual(countsOf(rows).slice(-2), [['differ', 2], ['same', 4]]);
  assert.equal(rows[0].same, 'same position as No. 6, No. 13, No. 11');
  const csv = csvOf(rows).split('\r\n');
  assert.ok(csv[0].endsWith('Sources that differ,First fault,Same position'));
  assert.ok(csv[1].startsWith(`2,Kh8 Pc6 / Ka6 Ph5,,${FEN},White to win (from the Result),`), csv[1]);
  assert.ok(csv[3].includes(',its tag Result differs; its result differs,,'), csv[3]);
  assert.ok(csv[5].includes(',its comment is not understood,,'), csv[5]);
  const copied = assumeAccepted(copyStudy(ENTRIES, d.studies, 1).lines);
  assert.deepEqual(copied.studies.map(s => s.origin.game), [2, 6, 0, 0, 11]);
  const moved = assumeAccepted(moveStudy(ENTRIES, d.studies, 0, 1).lines);
  assert.deepEqual(numbersOf(moved), ['6', '2', '13', '11']);
});
test('the list as comma-separated values', () => {
  const text = csvOf(entriesOf(doc(['unsound 1', 'sound', 'sound']), [reviewed()]));
  const [, first, second] = text.split('\r\n');
  assert.equal(first,
    `10,"A, ""first""",Reti,${FEN},White to win,"sound, duals waste time",1,1,1,,"1. Kg7: also Kh7, wastes time",` +
      '"same position as No. 11, a study without a number"');
  assert.equal(second,
    `11,B,Reti (set for an earlier study),${FEN},White to win (set for an earlier study),` +
      '"correct, no solution yet",,,,,,"same position as No. 10, a study without a number"');
  assert.equal(text.split('\r\n').length, 7);
});
test('a name that was refused is not that of the study before, and facts of a part are not those of the entry', () => {
  const lines =
          ['position ' + FEN, 'stipulate white win', 'tag White Kling', '', 'position ' + FEN, 'tag White Prokeš'],
        sent = lines.map((text, line) => ({text, line})).filter(({text}) => text);
  const script = readScript(
    lines, sent, ['position ' + FEN, 'stipulate White to win', 'tag White', 'position ' + FEN, 'error BadByte']);
  const [, row] =
    entriesOf({...script, at: 0, path: 'root', name: '', id: 'x', note: '', judged: true}, [null, readReview(REVIEW)]);
  assert.deepEqual([row.author, row.stamp, row.review], ['Prokeš', 'not read: line 6, tag White Prokeš', null]);
  const {lines: mended} = setTag(lines, script.studies[1], 'White', 'Prokes', 'Prokeš');
  assert.deepEqual(mended.slice(4), ['#! White was: Prokeš', 'position ' + FEN, 'tag White Prokes']);
});
test('refused lines by what is wrong', () => {
  const row = (line, text, reply) => ({line, text, reply: 'error ' + reply});
  const list = [
    row(1, 'insert root 1.Kg3', 'NotSan'), row(2, 'insert 0 Kf5', 'NoSuchNode'), row(3, 'tag White Réti', 'BadByte'),
    row(4, 'insert 0.0 Kf3', 'NoSuchNode'), row(5, 'solve 2 0.0', 'NoSuchNode'), row(6, 'promote 0', 'NoSuchNode'),
    row(11, 'promote 0', 'AlreadyFirst'), row(12, 'mark 5', 'NoSuchNode'), row(13, 'inzert 0 Kg2', 'UnknownCommand'),
    row(14, 'insert 0.0 Kg4', 'NoSuchNode'), row(15, 'delete 1', 'NoSuchNode'), row(16, 'delete 1.0', 'NoSuchNode'),
    row(21, 'position x', 'FieldCount'), row(22, 'tag White Réti', 'BadByte'), row(23, 'insert root Kg3', 'NoStudy'),
    row(24, 'pgn', 'NoStudy'), row(31, 'tag Event A', 'NoStudy'), row(32, 'pgn', 'NoStudy')
  ];
  assert.deepEqual(byCause(list, line => Math.floor(line / 10)).map(rows => rows.map(r => r.line)),
    [[1, 2, 4, 5, 6], [3], [11], [12], [13, 14], [15, 16], [21, 23, 24], [22], [31, 32]]);
});
test('a study that is removed leaves to the next one what that took over', () => {
  const d = doc(['sound', 'sound', 'sound']), {lines, at} = dropStudy(d.lines, d.studies, 0);
  assert.deepEqual(
    [lines.slice(0, 5), at], [['position ' + FEN, 'stipulate white win', 'tag White Reti', 'tag Event B', 'pgn'], 0]);
  assert.equal(dropStudy(d.lines, d.studies, 2).lines.length, LINES.length - 3);
  const own = [...LINES.slice(0, 8), 'stipulate white draw', 'pgn'],
        studies = [{...d.studies[0], end: 7}, {...d.studies[1], head: 7, from: 7, end: 10, place: {aim: 8}}];
  assert.deepEqual(dropStudy(own, studies, 0).lines, [own[7], own[8], 'tag Event B', 'tag White Reti', 'pgn']);
});
test('what was refused already is not newly refused, whatever the reason', () => {
  const row = (text, reply) => ({line: 0, text, reply: 'error ' + reply}), old = row('insert 0.0 Kf3', 'NoSuchNode');
  assert.equal(newlyRefused([old], [row('insert 0.0 Kf3', 'NoSuchMove'), row('mark 5', 'NoSuchNode')]), undefined);
  assert.equal(newlyRefused([old], [old, old]), old);
  assert.equal(newlyRefused([old], [row('insert 0 Kf9', 'NotSan')]).text, 'insert 0 Kf9');
});
test('studies that are copied and moved stand alone', () => {
  const d = doc(['sound', 'sound', 'sound']), moved = moveStudy(d.lines, d.studies, 0, 1),
        copied = copyStudy(d.lines, d.studies, 1);
  assert.equal(moveStudy(d.lines, d.studies, 0, -1), null);
  assert.equal(moveStudy(d.lines, d.studies, 1, 0), null);
  assert.equal(moveStudy(d.lines, d.studies, 0, 3), null);
  assert.equal(moveStudy(d.lines, d.studies, 0, NaN), null);
  assert.equal(moveStudy(d.lines, d.studies, 0, 2).at, 2);
  assert.equal(moved.at, 1);
  assert.deepEqual(
    moved.lines.slice(0, 5), ['position ' + FEN, 'stipulate white win', 'tag White Reti', 'tag Event B', 'pgn']);
  assert.equal(copied.at, 2);
  assert.equal(copied.lines.filter(l => l === 'tag Event B').length, 2);
});
test('a game that was left out stays in its place when the study before it is moved', () => {
  const order = (by, at) => {
    const moved = assumeAccepted(moveStudy(ENTRIES, assumeAccepted(ENTRIES).studies, at, by).lines);
    return entriesOf({...moved, at: 0, path: 'root', name: '', id: 'x', note: '', judged: true}).map(row => row.number);
  };
  assert.deepEqual(order(-1, 1), ['6', '2', '4', '13', '11', '12']);
  assert.deepEqual(order(1, 0), ['4', '6', '2', '13', '11', '12']);
  assert.deepEqual(order(2, 1), ['2', '4', '13', '11', '12', '6']);
  assert.deepEqual(order(-3, 3), ['11', '2', '4', '6', '13', '12']);
});
test('a game that stands there whole stays so when the study before it is removed, copied or moved', () => {
  const lines =
    ['#! game 2, line 9: stipulated by its comment', 'position ' + FEN, 'stipulate white win', 'pgn', '', ...TAILS];
  const {studies} = assumeAccepted(lines), whole = TAILS.slice(0, 3).join('\n');
  assert.equal(dropStudy(lines, studies, 0).lines.join('\n'), TAILS.join('\n'));
  for (const made of [copyStudy(lines, studies, 0), moveStudy(lines, studies, 0, 1), moveStudy(lines, studies, 1, -1)])
    assert.equal(made.lines.join('\n').split(whole).length, 2);
  assert.ok(moveStudy(lines, studies, 0, 2).lines.join('\n').startsWith(whole));
});
test('a diagram is turned, and its moves with it', async () => {
  assert.ok(isTurn('mirror') && !isTurn('x'));
  assert.equal(turnedFen('left', '8/8/8/8/8/8/8/K6k w - - 0 1'), null);
  assert.equal(turnedFen('mirror', '8/8/8/3pP3/8/8/8/K6k w - d6 0 1'), '8/8/8/3Pp3/8/8/8/k6K w - e6 0 1');
  assert.equal(turnedFen('colours', '8/8/8/3pP3/8/8/8/K6k w - d6 0 1'), 'k6K/8/8/8/3Pp3/8/8/8 b - d3 0 1');
  assert.equal(turnedAim('colours', 'white mate 3'), 'black mate 3');
  assert.equal(turnedAim('left', 'white win'), 'white win');
  assert.equal(turnedSan('mirror', 'Nbd7+'), 'Nge7+');
  assert.equal(turnedSan('colours', 'exd8=Q#'), 'exd1=Q#');
  const tree = {
    path: 'root',
    san: '',
    children: [
      {path: '0', san: 'Ka2', children: [{path: '0.0', san: 'Kh3', children: []}]},
      {path: '1', san: 'Kb1', children: []}
    ]
  };
  const turned = turnedTree(tree, ['mirror', 'up']);
  assert.deepEqual(insertions(turned).map(({line}) => line), ['insert root Kh3', 'insert 0 Ka4', 'insert root Kg2']);
  const lengths = [];
  const kept = await legalPart(turned, async lines => {
    lengths.push(lines.length);
    return lines.indexOf('insert root Kh3');
  });
  assert.deepEqual(kept, {lines: ['insert root Kg2'], fallen: [{san: 'Kh3', below: 1}]});
  assert.deepEqual(lengths, [3, 1]);
});
test('a study that is moved takes its tags behind its stipulation', () => {
  const lines =
          ['position ' + FEN, 'stipulate white win', 'tag White A', '', 'position ' + FEN, 'stipulate white draw'],
        sent = lines.map((text, line) => ({text, line})).filter(({text}) => text),
        script = readScript(lines, sent,
          ['position ' + FEN, 'stipulate White to win', 'tag White', 'position ' + FEN, 'stipulate White to draw']);
  const first = moveStudy(lines, [...script.studies.slice(0, 1), {...script.studies[1], tags: {White: 'B'}}], 1, -1);
  assert.deepEqual(first.lines.slice(0, 3), ['position ' + FEN, 'stipulate white draw', 'tag White B']);
});
test('a study whose tags stand above its stipulation can come first', () => {
  const lines = [
    'position ' + FEN, 'stipulate white win', 'tag White A', '', '# why', 'position ' + FEN, 'tag Event B', '# note',
    'stipulate white draw', 'insert root Kg3', '', 'position ' + FEN, 'mark root', 'stipulate white mate 3'
  ];
  const {studies} = assumeAccepted(lines), second = ['tag White A', 'tag Event B', '# note', 'insert root Kg3'];
  const moved = moveStudy(lines, studies, 1, -1).lines, dropped = dropStudy(lines, studies, 0).lines;
  assert.deepEqual(moved.slice(0, 3), ['# why', 'position ' + FEN, 'stipulate white draw']);
  assert.deepEqual(moved.slice(3, 7), second);
  assert.deepEqual(dropped.slice(0, 7), ['# why', 'position ' + FEN, 'stipulate white draw', ...second]);
  assert.deepEqual(moveStudy(lines, studies, 2, -1).lines.slice(5, 11),
    ['position ' + FEN, 'stipulate white draw', 'tag Event B', 'tag White A', 'mark root', 'stipulate white mate 3']);
  assert.deepEqual(dropStudy(lines, studies.slice(1), 0).lines.slice(-5),
    ['position ' + FEN, 'stipulate white draw', 'tag Event B', 'mark root', 'stipulate white mate 3']);
});
test('a study whose own author was refused is signed by no other one where it comes to', () => {
  const lines = [
    'position ' + FEN, 'stipulate white win', 'tag White A', '', 'position ' + FEN, 'stipulate white draw',
    'tag White R\u00e9ti'
  ];
  const read = texts => readScript(texts, texts.map((text, line) => ({text, line})),
    texts.map(text => (/ti$/.test(text)          ? 'error BadByte'
                  : text.startsWith('stipulate') ? text.replace('white', 'White to')
                                                 : text)));
  assert.equal(read(lines).studies[1].originals.White, 'R\u00e9ti');
  for (const edit of [moveStudy(lines, read(lines).studies, 1, -1), dropStudy(lines, read(lines).studies, 0)]) {
    const script = read(edit.lines), [first] = script.studies;
    assert.equal(first.tags.White, '?');
    assert.equal(entriesOf({...script, at: 0}, [])[0].author, 'R\u00e9ti');
  }
  assert.equal(copyStudy(lines, read(lines).studies, 1).lenient, true);
});
test('a position that was refused ends the study before it, and what carries over', () => {
  const lines = [
    'position ' + FEN, 'stipulate white win', 'tag White Kling', 'insert root Kb2', '', '#! White was: Léger',
    'position 8/8 w', 'tag White B', 'insert root Kg3', '', 'position ' + FEN, 'stipulate white draw'
  ];
  const sent = lines.map((text, line) => ({text, line})).filter(({text}) => text && !text.startsWith('#'));
  const script = readScript(lines, sent, [
    'position ' + FEN, 'stipulate White to win', 'tag White', 'insert 0 Kb2', 'error NotEightRanks', 'error NoStudy',
    'error NoStudy', 'position ' + FEN, 'stipulate White to draw'
  ]);
  const [first, second] = script.studies;
  assert.deepEqual([first.from, first.end, second.from, second.end], [0, 5, 10, 12]);
  assert.deepEqual([second.tags, second.carried, second.aim.goal], [{}, [], 'draw']);
  const moved = moveStudy(lines, script.studies, 1, -1).lines;
  assert.equal(moved.filter(line => line === 'position 8/8 w').length, 1);
  assert.equal(copyStudy(lines, script.studies, 0).lines.filter(line => line === 'insert root Kg3').length, 1);
});
test('how many games of the file were not read is said in words', () => {
  const lines = ['#! game 2, line 60, column 3: NoSuchMove at Kb6', '#! game 3, line 70: 7 men', ''],
        study = cut => ({from: 1, end: 2, origin: {cut: cut ? {move: '7. b6'} : null}});
  assert.equal(unreadNote({lines: [''], studies: [study(false)], refused: []}), '');
  assert.equal(unreadNote({lines, studies: [study(false)], refused: []}), '2 games were not read');
  assert.equal(unreadNote({lines: lines.slice(1), studies: [study(true)], refused: []}),
    '1 game was not read, and 1 game was not read to its end');
});
