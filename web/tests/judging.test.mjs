// What a judge has of a list: kinds of faults, duals that are accepted, the same position twice, names and orders.
import './stand_in.mjs';
import test from 'node:test';
import assert from 'node:assert/strict';
import {accept, acceptedStamp} from '../src/accepted.js';
import {differences} from '../src/comparing.js';
import {entriesOf} from '../src/entries.js';
import {countsOf, findEntries, isOfKind, sortEntries} from '../src/entry_list.js';
import {faultKind} from '../src/fault_kinds.js';
import {judgedText} from '../src/list_facts.js';
import {judgedBy, readReview, readView} from '../src/parse_answers.js';
import {positionsReached, reachedText, samePositions, sameText} from '../src/same_positions.js';
import {assumeAccepted} from '../src/assumed.js';
import {faultyStamp, wrongText} from '../src/stamps.js';
import {moveStudy} from '../src/study_edits.js';
import {bareTree} from '../src/unmarked.js';

const FEN = '7K/8/k1P5/7p/8/8/8/8 w - - 0 1', MIRRORED = 'K7/8/5P1k/p7/8/8/8/8 w - - 0 1',
      COLOURS = '8/8/8/8/7P/K1p5/8/7k b - - 0 1';
/** Moves of Réti's study of 1921, with faults that are made up. */
const LINES = [
  `position ${FEN}`, 'stipulate white win', 'tag Event Réti', 'tag White Réti, Richard', 'insert root Kg7',
  'insert 0 h4', 'insert 0.0 Kf6', 'insert 0 Kb6', 'insert 0.1 Kf6', 'insert 0.1.0 h4', 'insert 0.1.0.0 Ke7', 'pgn', '',
  `position ${MIRRORED}`, 'stipulate white draw', 'tag Event Opposition', 'tag White Čech', 'insert root Kb7', 'pgn',
  '', `position ${COLOURS}`, 'stipulate black draw', 'tag Event Third', 'tag White A', 'insert root Kg2', 'pgn'
];
const VERDICT = {
  stamp: '2 duals, 1 wastes time',
  worst: '2. Kf6: also Kf7'
};
const REVIEW =
  judgedBy(readReview('study 1 x\nfault 0.0.0 Kf6 win 3 dual 1 time 0\nfault 0.1.0.0.0 Ke7 draw dual 2 time 2\n' +
             'also 0.0.0 Kf7 win 3 -\nalso 0.1.0.0.0 Ke6 draw time 1\nalso 0.1.0.0.0 Kd6 draw time 1\n'),
    VERDICT);
const judged = lines => {
  const d = {...assumeAccepted(lines), at: 0, path: 'root', name: '', id: 'x', note: '', judged: true};
  for (const s of d.studies) s.verdict = 'sound';
  d.studies[0].verdict = 'unsound 2';
  return d;
};
const [first] = judged(LINES).studies, root = bareTree(LINES.slice(0, first.end));

test('kinds of faults, and the worst one in words', () => {
  const [row] = entriesOf(judged(LINES), [REVIEW]);
  assert.deepEqual([row.faults, row.fault], [['last', 'waste'], '2. Kf6: also Kf7']);
  assert.deepEqual(countsOf([row]), [['duals', 1], ['last', 1], ['waste', 1], ['same', 1]]);
  const fault = (path, kind, duals = 1, time = 0) => faultKind({path, kind, duals, time});
  assert.deepEqual(
    [
      fault('0', 'mistake'), fault('0', 'dual'), fault('0.0.0', 'dual'), fault('0.1.0', 'dual'),
      fault('0', 'dual', 2, 2)
    ],
    ['fails', 'cook', 'main', 'side', 'waste']);
  assert.deepEqual([fault('0.0', 'dual'), fault('1.0', 'dual')], ['cook', 'cook']);
  const node = (path, ...children) => ({path, san: '', children}),
        tree = node('root', node('0', node('0.0', node('0.0.0', node('0.0.0.0', node('0.0.0.0.0', node('..')))))));
  assert.deepEqual(
    ['0.0.0', '0.0.0.0.0'].map(path => faultKind({path, kind: 'dual', duals: 1, time: 0}, tree)), ['main', 'last']);
});
test('a dual that is accepted is kept as a remark, and said', () => {
  let d = judged(LINES);
  for (const [path, stamp, kind, faults] of [
         ['0.0.0', 'sound but for 1 accepted dual; 1 more wastes time', 'accepted', ['waste']],
         ['0.1.0.0.0', 'sound but for 2 accepted duals', 'accepted', []]]) {
    d = judged(accept(d.lines, d.studies[0], root, path, true).lines);
    const [row] = entriesOf(d, [REVIEW]);
    assert.deepEqual([row.stamp, row.kind, row.faults], [stamp, kind, faults]);
  }
  assert.deepEqual(d.lines.slice(0, 2), ['#! accepted Kg7 h4 Kf6: dual', '#! accepted Kg7 Kb6 Kf6 h4 Ke7: dual']);
  const {lines} = accept(d.lines, d.studies[0], root, '0.0.0', false);
  assert.equal(entriesOf(judged(lines), [REVIEW])[0].stamp, '2 duals, 1 wastes time, 1 accepted');
  assert.equal(acceptedStamp('1 dual', 1, 1).text, 'sound but for 1 accepted dual');
  assert.equal(acceptedStamp('cook: 1. Kc3; main defence 1... Ke7 not given', 2, 4, true, 2).text,
    'cook: 1. Kc3 (accepted), 1 dual accepted; 2 more waste time; main defence 1... Ke7 not given');
  const away = lines.map(line => (line === 'insert 0.1.0 h4' ? 'insert 0.1.0 Kc7' : line));
  assert.equal(entriesOf(judged(away), [REVIEW])[0].stamp, '2 duals, 1 wastes time');
});
test('what is wrong with a stipulation, and the kinds of stamps', () => {
  const aim = (hero, goal, k = 0) => ({hero, goal, k}), fen = '7k/8/8/8/8/8/1q6/K5R1 w - - 0 1';
  const cases = [
    [aim('White', 'draw'), 'sound', 'White mates in 10', 'wrong: White wins'],
    [aim('Black', 'draw'), 'wrong', 'White mates in 10', 'does not draw'], [aim('White', 'draw'), 'sound', 'draw', ''],
    [aim('White', 'win'), 'wrong', 'draw', 'does not win'], [aim('White', 'win'), 'unsound 1', 'White mates in 10', ''],
    [aim('White', 'mate', 3), 'wrong', 'White mates in 2', 'wrong: White mates in 2'],
    [aim('White', 'mate', 3), 'wrong', 'White mates in 4', 'does not mate in 3'],
    [aim('White', 'mate', 3), 'wrong', 'draw', 'does not mate in 3'],
    [aim('White', 'mate', 3), 'sound', 'White mates in 3', ''],
    [aim('Black', 'draw'), 'sound', 'mate', 'wrong: Black wins'],
    [aim('White', 'draw'), 'wrong', 'mate', 'does not draw']
  ];
  for (const [asked, verdict, start, text] of cases) assert.equal(wrongText(asked, verdict, start, fen), text);
  const fault = (path, kind, time) => ({path, san: 'Rg8+', kind, duals: 1, time});
  const kindOf = (...faults) => faultyStamp({faults, stamp: ''}).kind;
  assert.equal(kindOf(fault('0', 'dual', 0), fault('0.1.0', 'mistake', 0)), 'mistake');
  assert.equal(kindOf(fault('0', 'dual', 0), fault('0.0.0', 'dual', 1)), 'duals');
  assert.equal(kindOf(fault('0', 'dual', 1)), 'time');
  assert.equal(faultyStamp({faults: [fault('0', 'dual', 0)], stamp: 'cook: 1. Kb3'}).text, 'cook: 1. Kb3');
});
test('the same position as it is, mirrored, with colours exchanged', () => {
  const same = samePositions([FEN, MIRRORED, COLOURS, FEN, '7K/8/k1P5/7p/8/8/8/8 b - - 0 1']);
  assert.deepEqual(same.map(({first}) => first.map(({at, how}) => `${at} ${how}`.trim())), [
    ['1 mirrored', '2 colours exchanged', '3'], ['0 mirrored', '2 mirrored, colours exchanged', '3 mirrored'],
    ['0 colours exchanged', '1 mirrored, colours exchanged', '3 colours exchanged'],
    ['0', '1 mirrored', '2 colours exchanged'], []
  ]);
  assert.equal(sameText(same[1], ['2', '5', '12', '']),
    'same position as No. 2 (mirrored), No. 12 (mirrored, colours exchanged), a study without a number (mirrored)');
});
test('a position in the main line of another study, as it is or turned', () => {
  const other = '8/8/8/8/8/k7/8/K6R w - - 0 1',
        after = [{fen: MIRRORED, move: '1. Kg6'}, {fen: other, move: '1... h4'}],
        reached = positionsReached([FEN, other, '8/8/8/8/8/8/k1K5/7R w - - 5 9'], [null, after, after]);
  assert.deepEqual(reached.map(({first}) => first), [
    [{at: 1, how: 'mirrored', move: '1. Kg6'}, {at: 2, how: 'mirrored', move: '1. Kg6'}],
    [{at: 2, how: '', move: '1... h4'}], []
  ]);
  assert.equal(reachedText(reached[0], ['1', '2', '']),
    'position of No. 2 after 1. Kg6 (mirrored), a study without a number after 1. Kg6 (mirrored)');
  assert.equal(reachedText(reached[2], ['1', '2', '']), '');
  const twice = entriesOf(judged([...LINES, '', ...LINES]), [], [null, [{fen: FEN, move: '5. Kg7'}]]);
  assert.match(twice[0].same, /^(same position as .* and the )?position of .* after 5\. Kg7$/);
});
test('an entry whose facts are being found says so, and the kinds of its faults are not counted yet', () => {
  const rows = entriesOf(judged(LINES), [], [], [true, true, false]);
  assert.deepEqual(rows.map(({kind, stamp, open, count}) => [kind, stamp, open, count]),
    [['faults', '2 faults …', true, 2], ['sound', 'sound …', true, 0], ['sound', 'sound', false, 0]]);
  assert.deepEqual(countsOf(rows).slice(0, 2), [['sound', 2], ['faults', 1]]);
  const wrong = judged(LINES);
  wrong.studies[0].verdict = 'wrong';
  const [row] = entriesOf(wrong, [], [], [true]);
  assert.deepEqual([row.kind, row.open], ['wrong', false]);
  assert.ok(!row.stamp.includes('…'));
});
test('the facts of a study are of its moves and its stipulation, wherever it stands and whatever it takes over', () => {
  const lines = [
    `position ${FEN}`, 'stipulate white win', 'tag Event One', 'tag Site Riga', 'insert root Kg7', '',
    `position ${MIRRORED}`, 'tag Event Two', 'insert root Kb7', '', `position ${COLOURS}`, 'stipulate black draw',
    'tag White A', 'insert root Kg2'
  ];
  const of = all => judged(all).studies.map(s => judgedText(all, s)), before = of(lines),
        moved = moveStudy(lines, judged(lines).studies, 0, 1).lines;
  assert.deepEqual(before, [
    `position ${FEN}\nstipulate white win\ninsert root Kg7\n`,
    `position ${MIRRORED}\nstipulate white win\ninsert root Kb7\n`,
    `position ${COLOURS}\nstipulate black draw\ninsert root Kg2\n`
  ]);
  assert.deepEqual(of(moved), [before[1], before[0], before[2]]);
  assert.notDeepEqual(of(lines.map(line => line.replace('black draw', 'black win'))), before);
});
test('names are found whatever their accents, and each column sorts', () => {
  const rows = entriesOf(judged(LINES), [REVIEW]), names = list => list.map(({title}) => title);
  assert.deepEqual(names(findEntries(rows, 'reti')), ['Réti']);
  assert.deepEqual(names(findEntries(rows, 'ČECH opp')), ['Opposition']);
  assert.deepEqual(names(findEntries(rows, '')).length, 3);
  const authors = ['Łukasz Groß', 'Kaspar Øster', 'Đorđe Œuvre', 'Þór Æsir'].map(author => ({...rows[0], author})),
        found = ['lukasz', 'gross', 'groß', 'oster', 'dorde', 'thor aesir', 'Łuk', 'oeuvre', 'kasp'];
  assert.deepEqual(found.map(text => findEntries(authors, text).map(({author}) => author.split(' ')[0]).join()),
    ['Łukasz', 'Łukasz', 'Łukasz', 'Kaspar', 'Đorđe', 'Þór', 'Łukasz', 'Đorđe', 'Kaspar']);
  assert.deepEqual(names(sortEntries(rows, 'title', false)), ['Opposition', 'Réti', 'Third']);
  assert.deepEqual(names(sortEntries(rows, 'author', true)), ['Réti', 'Opposition', 'Third']);
  assert.deepEqual(names(sortEntries(rows, 'verdict', false)), ['Réti', 'Opposition', 'Third']);
  assert.deepEqual(names(sortEntries(rows, 'verdict', true)), ['Opposition', 'Third', 'Réti']);
  assert.deepEqual(names(sortEntries(rows, 'number', true)), ['Third', 'Opposition', 'Réti']);
  assert.ok(rows.every(row => isOfKind(row, 'same')));
});
const WIN = {
  hero: 'White',
  goal: 'win',
  k: 0
};
test('the first press on the verdict puts the worst first, and equal ones stay as they come', () => {
  const row = (title, kind, faults = [], count = 0) => ({title, kind, faults, count});
  const rows = [
    row('sound', 'sound'), row('side', 'duals', ['side', 'waste'], 2), row('also sound', 'sound'),
    row('out', 'left out'), row('open', 'faults', [], 9), row('cook', 'duals', ['cook', 'side'], 2),
    row('wrong', 'wrong'), row('more cooks', 'duals', ['cook'], 5), row('time', 'time', ['waste'], 1),
    row('fails', 'mistake', ['fails'], 1)
  ];
  assert.deepEqual(sortEntries(rows, 'verdict', false).map(({title}) => title),
    ['out', 'wrong', 'fails', 'more cooks', 'cook', 'side', 'open', 'time', 'sound', 'also sound']);
  assert.deepEqual(
    sortEntries(rows, 'verdict', true).slice(0, 3).map(({title}) => title), ['sound', 'also sound', 'time']);
});
test('moves of a line that has no other need no move before them', () => {
  const view = (...rows) =>
    readView(`study ${FEN}\n${rows.map(row => `node ${row} 0 ${FEN}\n`).join('')}`.replace(/0 (7K)/g, '0 0 $1'));
  const one = view('root - - draw reply', '0 Kg7 h8g7 draw only', '0.0 h4 h5h4 draw reply', '0.0.0 Kf6 g7f6 draw only'),
        two = view('root - - draw reply', '0 Kg7 h8g7 draw only', '0.0 h4 h5h4 draw reply');
  const [row] = differences(one.root, two.root, [WIN, WIN]);
  assert.deepEqual([row.name, row.after], ['1. Kf6', []]);
});
test('two versions differ in these moves', () => {
  const view = (...rows) =>
    readView(`study ${FEN}\n${rows.map(row => `node ${row} 0 ${FEN}\n`).join('')}`.replace(/0 (7K)/g, '0 0 $1'));
  const one = view('root - - draw reply', '0 Kg7 h8g7 draw only', '0.0 h4 h5h4 draw reply', '1 c7 c6c7 loss 9 mistake'),
        two = view('root - - draw reply', '0 Kg7 h8g7 draw dual 1', '0.0 Kb6 a6b6 draw reply');
  assert.deepEqual(
    differences(one.root, two.root, [WIN, WIN]).map(({name, after, said}) => [name, ...after, ...said]), [
      ['1. Kg7', 'the only move that works', 'dual: one other move works too'],
      ['1. h4', '1. Kg7', 'given', 'not given'], ['1. Kb6', '1. Kg7', 'not given', 'given'],
      ['1. c7', 'throws it away', 'not given']
    ]);
});
