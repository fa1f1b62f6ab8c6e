// The script as the document: its replies read, and what the user does as a change of its lines.
import './stand_in.mjs';
import test from 'node:test';
import assert from 'node:assert/strict';
import {readFileSync} from 'node:fs';
import * as edits from '../src/edits.js';
import {advance, begin, redo, undo} from '../src/history.js';
import {tooManyLines} from '../src/limits.js';
import {readView} from '../src/parse_answers.js';
import {assumeAccepted} from '../src/assumed.js';
import {remarkOf} from '../src/remarks.js';
import {
  editsTo,
  fensOf,
  gamesOf,
  toText,
  linesOf,
  oneGame,
  overLimit,
  readScript,
  reportedLines,
  repliesOf,
  savedScript,
  toRun
} from '../src/script.js';
import {verdictsBefore} from '../src/stamps.js';
import {isListed} from '../src/tables.js';
import {DIGESTS} from '../src/digests.js';
import {SECONDS} from '../src/seconds.js';
import {typedMove, typedMoves} from '../src/typed.js';
import {bareTree, unjudged} from '../src/unmarked.js';

const text = name => readFileSync(new URL('./data/' + name, import.meta.url), 'utf8');
/** A gallery script with the replies that an independent program gives. */
function gallery(name) {
  const lines = linesOf(text(name + '.script')).filter(line => !/^ *(#|$)/.test(line)),
        replies = repliesOf(lines, text(name + '.expected'));
  return {lines, replies, script: readScript(lines, lines.map((t, line) => ({text: t, line})), replies)};
}
const games = name =>
  text(name + '.expected')
    .split('\n')
    .reduce((out, row) => (row.startsWith('[Event') ? [...out, [row]]
                : out.length &&
                  !/^(mark|stipulate|position|insert|shift|fen|moves|solve|error|delete|promote|tag) ?/.test(row)
                ? [...out.slice(0, -1), [...out[out.length - 1], row]]
                : out),
      [])
    .length;

test('replies come line by line', () => {
  for (const name of ['saavedra_1895', 'reti_1921', 'knnk_no_forced_mate']) {
    const {lines, replies} = gallery(name);
    lines.forEach((line, i) => {
      const [command] = line.trim().split(' '), reply = replies[i];
      if (reply.startsWith('error ')) return;
      const first = {build: 'built', load: 'loaded', save: 'saved', pgn: '[Event', verify: 'verified'}[command] ||
        command;
      assert.ok(reply.startsWith(first), `${name}: ${line} -> ${reply.slice(0, 40)}`);
      if (command === 'pgn') assert.ok(reply.endsWith('\n\n'));
    });
  }
});
test('studies, verdicts and refused lines', () => {
  const {script} = gallery('saavedra_1895');
  assert.deepEqual(script.studies.map(s => s.verdict), ['unsound 3', 'sound']);
  assert.equal(script.studies[0].tags.White, 'Barbier and Saavedra');
  assert.deepEqual(script.studies[1].carried, [
    'stipulate white mate 26', 'tag Event Glasgow Weekly Citizen', 'tag White Barbier and Saavedra',
    'tag Date 1895.??.??'
  ]);
  assert.equal(script.refused.length, 0);
  assert.equal(gallery('knnk_no_forced_mate').script.refused.length, 7);
  assert.ok(games('saavedra_1895') >= 1);
});
test('what is run is the script as it is saved, without its remarks and tables, with a game behind each study', () => {
  const lines = [
    'build KK', 'position A', '', 'stipulate white win', '# note', 'pgn', 'mark root', 'position B', 'insert root Kb2',
    'mark 0'
  ];
  const run = lines.filter(line => line && !/^(#|build)/.test(line));
  assert.deepEqual(toRun(lines).map(s => s.text), [...run, 'pgn']);
  assert.deepEqual(toRun(['position A', 'stipulate white win', 'position B']).map(s => s.text),
    ['position A', 'stipulate white win', 'pgn', 'position B', 'pgn']);
  assert.deepEqual(fensOf([' position  8/8 w', 'shift 7/8 b', 'tag Event position 1']), ['8/8 w', '7/8 b']);
});
test('a remark has no reply, and a question that is refused is listed', () => {
  const lines = ['# Réti', 'position A', '', 'stipulate white win', 'mark 0', 'insert root Kb2'], sent = toRun(lines);
  const replies = 'position 8/8/8/8/8/8/8/8 w - - 0 1\nstipulate White to win\nerror NoSuchNode\ninsert 0 Kb2\n' +
    '[Event "?"]\n\n{White to win: sound, draw} *\n\n';
  const script = readScript(lines, sent, repliesOf(sent.map(s => s.text), replies));
  assert.deepEqual(script.refused, [{line: 4, text: 'mark 0', reply: 'error NoSuchNode'}]);
  assert.deepEqual([script.studies[0].last, script.studies[0].verdict], [5, 'sound']);
});
test('a line that no program reads', () => {
  const bytes = n => '#' +
    'a'.repeat(n - 1);
  assert.equal(overLimit(['position A', bytes(1024), '']), '');
  assert.equal(overLimit(['position A', bytes(1025)]), 'LineTooLong 2');
  assert.equal(overLimit([
    '#' +
      'é'.repeat(511),
    '#' +
      'é'.repeat(512)
  ]),
    'LineTooLong 2');
  assert.equal(overLimit(Array(100001).fill('#')), '');
});
test('a script with more lines than the programs read is reported without the remarks that are not printed', () => {
  const kept = ['#! tail 1 of 2 of game 1, node 0, after 1. Kb2', '#! comment: 1. Kb2: good', '#! games 1, studies 1'],
        lines =
          [
            '#! tag Source a book', '#> position A', ...kept, 'position A', 'stipulate white win', 'insert root Kb2', ''
          ],
        many = [...lines, ...Array(100000).fill('#> tag Round ?')], studies = [{aim: {}, last: 7, end: 9}];
  remarkOf(kept[2]);
  assert.equal(reportedLines({lines: many.slice(0, 100000), studies}).length, 100000);
  assert.deepEqual(reportedLines({lines: many, studies}), [...kept, ...lines.slice(5, 8), 'pgn']);
  assert.equal(tooManyLines(100000), '');
  assert.equal(tooManyLines(100001), 'it has 100,001 lines, and the programs read at most 100,000');
});
test('a script whose lines are all accepted is as it was assumed to be', () => {
  for (const name of ['saavedra_1895', 'reti_1921']) {
    const {lines, script} = gallery(name), before = assumeAccepted(lines);
    assert.equal(script.refused.length, 0);
    assert.deepEqual(before.studies.map(s => editsTo(lines, s)), script.studies.map(s => editsTo(lines, s)));
    assert.deepEqual(before.studies.map(s => s.aim), script.studies.map(s => s.aim));
  }
});
test('a study with more than one game', () => {
  const lines = [
    'position A', 'stipulate white win', 'pgn', 'stipulate white mate 26', 'position B', 'stipulate white draw',
    'insert root Kb2', 'pgn', 'mark root'
  ];
  const sent = toRun(lines);
  assert.deepEqual(sent.map(s => s.text), [...lines.slice(0, 4), 'pgn', ...lines.slice(4)]);
  assert.deepEqual(sent.filter(s => s.text === 'pgn').map(s => s.line), [2, -1, 7]);
  const game = text => `[Event "?"]\n\n{${text}, draw} *\n\n`;
  const replies = [
    'position 8/8/8/8/8/8/8/8 w - - 0 1', 'stipulate White to win', game('White to win: wrong'),
    'stipulate White to mate 26', game('White to mate in 26: wrong'), 'position 8/8/8/8/8/8/8/8 w - - 0 1',
    'stipulate White to draw', 'insert 0 Kb2', game('White to draw: sound'), 'mark root draw - faults 0'
  ];
  const script = readScript(lines, sent, replies);
  assert.deepEqual(script.studies.map(s => [s.verdict, s.games.length, verdictsBefore(s)]),
    [['wrong', 2, ['White to win: does not win']], ['sound', 1, []]]);
  assert.equal(gamesOf(script), replies.filter(r => r.startsWith('[')).join(''));
  assert.equal(savedScript(script, []).split('\n').filter(line => line === 'pgn').length, 3);
  assert.deepEqual(reportedLines(script), [...lines.slice(0, 4), 'pgn', ...lines.slice(4)]);
  assert.deepEqual(oneGame(['pgn', '# a', 'pgn', '']), ['# a', 'pgn', '']);
});
test('lines that are reported keep their numbers', () => {
  const block =
          ['position A', 'stipulate white win', 'insert root Kb2', '#! White was: Réti', '# why', '', 'mark 0', ''],
        lines = ['# first', '', ...block, ...block.slice(0, 3)],
        script = {lines, studies: [2, 10].map(from => ({aim: {}, last: from + 2, end: from === 2 ? 10 : 13}))};
  assert.deepEqual(reportedLines(script), [...lines.slice(0, 6), 'pgn', ...lines.slice(7), 'pgn']);
  assert.deepEqual(reportedLines({lines, studies: [{aim: null, last: 4, end: 10}]}), lines);
});
test('dates as PGN writes them', () => {
  const dates = {
    1895: '1895.??.??',
    '1895.05': '1895.05.??',
    '1895.05.01': '1895.05.01',
    '1921-05': '1921.05.??',
    '1921-5-2': '1921.05.02',
    '12 May 1921': '1921.05.12',
    'May 1895': '1895.05.??',
    'September 3, 1950': '1950.09.03',
    '12.5.1921': '1921.05.12',
    '3. Sept 1950': '1950.09.03',
    '29.2.1904': '1904.02.29'
  };
  for (const [text, date] of Object.entries(dates)) assert.equal(edits.wholeDate(text), date, text);
  assert.ok([...Object.values(dates), '????.??.??', '19??.02.29', '1921.??.31'].every(edits.isDate));
  for (const text of ['?', 'spring 1921', '1921.13', '32 May 1921', '29 Feb 1900', '1921.04.31', '21', 'today']) {
    assert.equal(edits.wholeDate(text), text);
    assert.ok(!edits.isDate(text), text);
  }
});
const view = readView(text('saavedra_1895.views').split(/^# view .*\n/m)[1]);
const START = [
  'position 8/8/1KP5/3r4/8/8/8/k7 w - - 0 1', 'stipulate white win', 'tag White A', 'insert root c7', 'insert root Kb7',
  'pgn'
];
const study = {
  head: 0,
  from: 0,
  end: 6,
  last: 4,
  fen: '8/8/1KP5/3r4/8/8/8/k7 w - - 0 1',
  aim: {hero: 'White', goal: 'win', k: 0},
  tags: {White: 'A'},
  place: {aim: 1, White: 2},
  carried: [],
  made: {line: 4, reply: 'insert 1 Kb2'},
  pgn: '',
  verdict: ''
};
test('moves are put in below one another, and walked where they stand', () => {
  assert.deepEqual(edits.insertMoves(START, study, view.root, '1.0', ['Kc7', 'Rd1']),
    {lines: [...START.slice(0, 5), 'insert 1.0 Kc7', 'insert 1.0.0 Rd1', 'pgn'], path: '1.0.0.0'});
  const walked = edits.insertMoves(START, study, view.root, 'root', ['c7', 'Rd6+']);
  assert.equal(walked.lines, START);
  assert.equal(walked.path, '0.0');
  assert.deepEqual(
    edits.insertMoves(START, study, view.root, 'root', ['c7', 'Kb2']).lines.slice(5), ['insert 0 Kb2', 'pgn']);
});
test('moves by both squares, and variations in brackets', () => {
  assert.equal(edits.insertMoves(START, study, view.root, 'root', ['c6c7', 'Rd5d6']).lines, START);
  const added =
    edits.insertMoves(START, study, view.root, 'root', ['c7', '(', 'Ka7', 'Rd7', '(', 'Rd8', ')', ')', 'Rd6+', 'Kb5']);
  const last = view.root.children.length;
  assert.deepEqual(added.lines.slice(5), [`insert root Ka7`, `insert ${last} Rd7`, `insert ${last} Rd8`, 'pgn']);
  assert.equal(added.path, '0.0.0');
});
test('moves as books write them', () => {
  const moves = {
    'Kb6-b7': 'Kb6b7',
    kb7: 'Kb7',
    'Td6+': 'Rd6+',
    'c7-c8D': 'c7c8=Q',
    'c8(Q)': 'c8=Q',
    Sf3: 'Nf3',
    Lxe4: 'Bxe4',
    Dd8: 'Qd8',
    exd6: 'exd6',
    bxc3: 'bxc3',
    b4: 'b4',
    Kb7: 'Kb7',
    'c8=S': 'c8=N',
    'O-O': 'O-O',
    rd1: 'Rd1',
    Nfe4: 'Nfe4',
    'Kc2!?': 'Kc2!?'
  };
  for (const [typed, san] of Object.entries(moves)) assert.equal(typedMove(typed), san, typed);
  assert.deepEqual(typedMoves('1. c7 (1.Kb7 Td6) 1... Rd6+ 2. Kb6-b5 dxc6 e.p.'),
    ['c7', '(', 'Kb7', 'Rd6', ')', 'Rd6+', 'Kb6b5', 'dxc6']);
  assert.deepEqual(typedMoves(' 3. '), []);
  assert.deepEqual(typedMoves('zzz'), ['zzz']);
});
test('the newest move goes with its line, another by a line', () => {
  const at = path => ({path, parent: {path: 'root'}});
  assert.deepEqual(edits.removeNode(START, study, at('1')).lines, [...START.slice(0, 4), 'pgn']);
  assert.deepEqual(edits.removeNode(START, study, at('0')).lines, [...START.slice(0, 5), 'delete 0', 'pgn']);
  assert.deepEqual(edits.promoteNode(START, study, at('0.2'), true).lines.slice(5, 7), ['promote 0.2', 'promote 0.1']);
});
test('stipulation and tags stand in the lines of the study', () => {
  assert.equal(edits.stipulate(START, study, 'white mate 26').lines[1], 'stipulate white mate 26');
  assert.deepEqual(
    edits.setTag(START, study, 'Event', 'B').lines.slice(0, 4), [START[0], START[1], 'tag Event B', START[2]]);
  assert.deepEqual(edits.setTag(START, study, 'White', '').lines, START.filter(l => !l.startsWith('tag')));
  const own = edits.setTag(START, study, 'White', 'Troickij', 'Троицкий').lines;
  assert.deepEqual(own.slice(0, 4), ['#! White was: Троицкий', START[0], START[1], 'tag White Troickij']);
  const again = {...study, head: 0, from: 1, place: {aim: 2, White: 3}};
  assert.deepEqual(edits.setTag(own, again, 'White', 'Reti').lines.slice(0, 3), [START[0], START[1], 'tag White Reti']);
  const carried = ['tag White B', 'tag Date 1921.??.??', 'tag Site ?'],
        old = {...study, tags: {White: 'A', Date: '1921.??.??'}, carried};
  assert.deepEqual(edits.setTag(START, old, 'Date', '').lines[2], 'tag Date ????.??.??');
  // without its own line the study would have the author of the one before
  assert.deepEqual(edits.setTag(START, old, 'White', '').lines[2], 'tag White ?');
  assert.deepEqual(edits.setTag(START, old, 'Site', '').lines, START);
});
test('a tag stands below a stipulation that is not right below the position', () => {
  const lines = ['position x', '', '# why', 'stipulate white wins', 'stipulate white mate 3', 'insert root c7'],
        at = {from: 0, end: 6, place: {aim: 4}, tags: {}, originals: {}, carried: []};
  assert.equal(edits.setTag(lines, at, 'Site', 'B').lines[5], 'tag Site B');
  assert.equal(edits.stipulate(lines, {...at, place: {}}, 'white draw').lines[1], 'stipulate white draw');
});
test('a tag stands below the first stipulation of a study that has two', () => {
  const lines = [
    'position 8/8/1KP5/3r4/8/8/8/k7 w - - 0 1', 'stipulate white win', 'tag Event A', 'insert root c7',
    'stipulate white mate 7'
  ];
  const study = {from: 0, end: 5, place: {aim: 4, Event: 2}, tags: {}, originals: {}, carried: []};
  assert.deepEqual(
    edits.setTag(lines, study, 'Site', 'B').lines.slice(0, 4), [lines[0], lines[1], 'tag Site B', lines[2]]);
});
test('a line with other letters, which is refused, goes where its tag is written in plain ones', () => {
  const lines = ['position F', 'stipulate white win', 'tag White ?', 'insert root c7', 'tag White Łuk', 'pgn'],
        at = {from: 0, head: 0, end: 6, place: {aim: 1, White: 2}, tags: {White: '?'}, originals: {}, carried: []};
  assert.deepEqual(edits.setTag(lines, at, 'White', 'Luk', 'Łuk').lines,
    ['#! White was: Łuk', 'position F', 'stipulate white win', 'tag White Luk', 'insert root c7', 'pgn']);
});
test('another position', () => {
  assert.deepEqual(edits.withMoves(START, study, 'F', 'white win', ['insert root c7']).lines,
    ['position F', 'stipulate white win', 'tag White A', 'insert root c7', 'pgn']);
  assert.deepEqual(edits.replacePosition(START, study, 'F', 'black draw').lines,
    ['position F', 'stipulate black draw', 'tag White A', 'pgn']);
  assert.deepEqual(
    edits.addStudy(START, 'F', 'white win', study).slice(6), ['', 'position F', 'stipulate white win', 'tag White ?']);
});
test('tidy writes the tree anew', () => {
  const {lines} = edits.tidy(START, study, view.root);
  assert.equal(lines.filter(l => l.startsWith('insert')).length, 26);
  assert.deepEqual(lines.slice(0, 4), [START[0], START[1], START[2], 'insert root c7']);
});
test('a saved script has its tables in front and a game behind each study', () => {
  const script = {lines: START.slice(0, 5), studies: [{...study, end: 5}], refused: []};
  assert.equal(savedScript(script, ['KK', 'KRK']), toText(['build KK', 'build KRK', ...START]));
});
test('undo and redo', () => {
  let h = begin(0);
  for (const n of [1, 2, 3]) h = advance(h, n);
  const back = undo(undo(h));
  assert.equal(back.now, 1);
  assert.deepEqual(redo(redo(back)), h);
  assert.equal(undo(undo(undo(undo(h)))).now, 0);
  assert.deepEqual(redo(h), h);
  assert.deepEqual(advance(back, 9).future, []);
});
test('a study before it is judged', () => {
  const lines = [
    'position A', 'tag Event B', 'stipulate white win', 'insert root c7', 'insert 0 Rd6+', 'insert root Kb7',
    'insert root Kc7', 'insert 0 Rd1', 'promote 1', 'insert 9 Ka1', 'insert root Kc7'
  ];
  const tree = node => [node.path, node.san, ...node.children.map(tree)];
  assert.deepEqual(
    tree(bareTree(lines)), ['root', '', ['0', 'Kb7'], ['1', 'c7', ['1.0', 'Rd6+'], ['1.1', 'Rd1']], ['2', 'Kc7']]);
  assert.deepEqual(
    tree(bareTree([...lines, 'delete 0', 'delete 0.1'])), ['root', '', ['0', 'c7', ['0.0', 'Rd6+']], ['1', 'Kc7']]);
  const {studies} = unjudged([...lines, 'pgn', 'position C']);
  assert.deepEqual(studies.map(s => [s.fen, s.verdict, s.games, s.tags.Event, s.aim.goal]),
    [['A', '', [], 'B', 'win'], ['C', '', [], 'B', 'win']]);
});
test('the list of tables', () => {
  assert.equal(Object.keys(DIGESTS).length, 36);
  assert.ok(isListed('KK', DIGESTS.KK[1]));
  assert.ok(!isListed('KK', DIGESTS.KQK[1]) && !isListed('KKR', ''));
  assert.equal(Object.keys(SECONDS).length, 36);
  assert.ok(Object.keys(DIGESTS).every(name => SECONDS[name] > 0));
});
