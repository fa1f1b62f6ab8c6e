// The author's words at the moves of a study: read from remarks, written as remarks, and saved with the games.
import './stand_in.mjs';
import test from 'node:test';
import assert from 'node:assert/strict';
import {glyphOf, shownSigns, shownText, signOf, withGlyph, withWords, wordsIn} from '../src/comments.js';
import {nodeAt, readView} from '../src/parse_answers.js';
import {remarksOf} from '../src/notes.js';
import {withNotes} from '../src/saved_games.js';

const FEN = '8/8/8/6k1/8/8/1P5K/8 w - - 0 1';
const ROWS = [
  ['root', '-', '-', '-'], ['0', 'Kg3', 'h2g3', 'only'], ['0.0', 'Kf5', 'g5f5', 'reply'], ['1', 'b4', 'b2b4', 'mistake']
];
const NODES = ROWS.map(([path, san, to, mark]) => `node ${path} ${san} ${to} draw ${mark} 0 0 ${FEN}\n`);
const {root} = readView(`study ${FEN}\n${NODES.join('')}`);
const LINES = [
  '#! game 1, line 1: stipulated by its tag Result', '#! note -: For practice', '#! note Kg3: $1',
  '#! note Kg3: The only move', '#! note+ Kg3: of all', '#! mark Kg3: $1', `position ${FEN}`, 'insert root Kg3'
];
const STUDY = {
  head: 0,
  from: 6,
  end: 8
};

test('the words of remarks are at their nodes', () => {
  const words = wordsIn(LINES, STUDY, root);
  assert.deepEqual(words.get('root').comments, ['For practice']);
  assert.deepEqual(words.get('0').comments, ['The only move of all']);
  assert.equal(glyphOf(words.get('0'), 0), '$1');
  assert.ok(!words.has('0.0') && !words.has('1'));
});
test('a sign in a game of our own that the program does not give is the author\'s, and can be taken back', () => {
  const lines = ['#! mark Kg3: $1', '#! mark b4: $1', '#! mark Kg3 Kf5: $4', ...LINES.slice(6)],
        study = {head: 0, from: 3, end: 5}, words = wordsIn(lines, study, root);
  assert.deepEqual([...words].map(([path, {glyphs}]) => [path, glyphs]), [['0.0', ['$4']], ['1', ['$1']]]);
  const change = withWords(lines, study, root, nodeAt(root, '1'), {comment: '', glyphs: []});
  assert.deepEqual(change.lines, [lines[0], ...lines.slice(2)]);
});
test('words are written in place of those that stand there', () => {
  const {lines} = withWords(LINES, STUDY, root, nodeAt(root, '0'), {comment: 'Ruhig {so}\n', glyphs: ['$3']});
  assert.deepEqual(
    lines.slice(0, 5), [LINES[0], LINES[1], '#! note Kg3: $3', '#! note Kg3: Ruhig (so)', '#! mark Kg3: $1']);
  assert.deepEqual(
    withWords(lines, {head: 0, from: 5, end: 7}, root, nodeAt(root, '0'), {comment: '', glyphs: []}).lines,
    [LINES[0], LINES[1], '#! mark Kg3: $1', ...LINES.slice(6)]);
  assert.equal(withWords(LINES, STUDY, root, nodeAt(root, '0.0'), {comment: 'then', glyphs: []}).lines[6],
    '#! note Kg3 Kf5: then');
  assert.equal(withWords(LINES, STUDY, root, root, {comment: 'Anew', glyphs: []}).lines[1], '#! note -: Anew');
});
test('a stipulation is from the comment as long as that states it, and from words that do not state it', () => {
  const at = (said, comment) => withWords(['#! game 1, line 1: stipulated by its comment', ...said, ...LINES.slice(6)],
    {head: 0, from: 1 + said.length, end: 3 + said.length}, root, root,
    {comment, glyphs: []}).lines[0];
  const stated = ['#! note -: White wins by zugzwang'], other = ['#! note -: For practice'];
  assert.match(at(stated, 'White wins by zugzwang. A new idea'), /: stipulated by its comment$/);
  assert.match(at(other, 'A new idea'), /: stipulated by its comment$/);
  assert.match(at([], 'A new idea'), /: stipulated by its comment$/);
  assert.match(at(stated, 'A new idea'), /: stipulated by hand$/);
});
test('a long comment is kept whole, in lines of at most 1,024 bytes', () => {
  const comment = 'längere Bemerkung '.repeat(110).trim(),
        {lines} = withWords(LINES, STUDY, root, nodeAt(root, '1'), {comment, glyphs: []});
  assert.ok(lines.every(line => Buffer.byteLength(line) <= 1024));
  assert.deepEqual(wordsIn(lines, {head: 0, from: lines.indexOf(LINES[6])}, root).get('1').comments, [comment]);
});
test('signs by the numbers of the PGN Standard', () => {
  assert.deepEqual(['$1', '$2', '$3', '$4', '$5', '$6', '$10', '$18', '$146'].map(signOf),
    ['!', '?', '!!', '??', '!?', '?!', '=', '+−', '$146']);
  assert.deepEqual(withGlyph({glyphs: ['$1', '$14']}, 0, '$3'), ['$3', '$14']);
  assert.deepEqual(withGlyph({glyphs: ['$1', '$14']}, 1, ''), ['$1']);
  assert.deepEqual(shownSigns({glyphs: ['$1', '$14']}, '!'), ['⩲']);
});
test('what other programs draw is kept in the text and not shown', () => {
  assert.equal(shownText(['good [%cal Gg5f6] so', '[%clk 0:01]']), 'good so');
});
test('what is written comes back from the saved game, with one sign at a move', () => {
  const game =
    `[Event "?"]\n[FEN "${FEN}"]\n\n{White to win: sound, White mates in 28} 1. Kg3 $1 {White mates in 28} ` +
    '(1. b4 $4 {draw}) 1... Kf5 {White mates in 27} 1-0\n\n';
  const {lines} =
    withWords(LINES.slice(6), {head: 0, from: 0, end: 2}, root, nodeAt(root, '0'), {comment: 'Leise', glyphs: ['$3']}),
        saved = withNotes(game, lines);
  assert.match(saved.replace(/\s+/g, ' '), /1\. Kg3 \$3 \{Leise; White mates in 28\} \(1\. b4 \$4/);
  assert.deepEqual(
    remarksOf(saved).filter(line => line.startsWith('#! note')), ['#! note Kg3: $3', '#! note Kg3: Leise']);
});
