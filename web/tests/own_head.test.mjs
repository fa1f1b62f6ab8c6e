// A game with a bad move, with tags, a stipulation, words and accepted duals that were set on the page: its text is
// mended and read again.
import './stand_in.mjs';
import test from 'node:test';
import assert from 'node:assert/strict';
import {assumeAccepted} from '../src/assumed.js';
import {setTag, stipulate} from '../src/edits.js';
import {withOwn} from '../src/own_head.js';

const THEN = [
  '#! game 1, line 1: stipulated by its comment', '#! tag Annotator an editor', '#! tag Result 1-0',
  'position 8/8/8/6k1/8/8/1P5K/8 w - - 0 1', 'stipulate white win', 'tag Event bad move', 'tag White Bad, Author',
  'insert root Kg3', 'insert root 1... Kz9', 'pgn'
];
const READ = THEN.flatMap(line => (line === 'tag Event bad move' ? ['tag Event mended']
                              : /Kz9/.test(line)                 ? []
                                                                 : [line]));
const withOwnHead = (...lines) => withOwn(...lines).lines;
const only = lines => assumeAccepted(lines).studies[0];
const edited = (lines, ...edits) => edits.reduce((all, edit) => edit(all, only(all)).lines, lines);
const told = lines => {
  const {tags, originals, aim, origin} = only(lines);
  return {...tags, ...originals, aim: `${aim.hero} ${aim.goal}`, source: origin.source};
};
test('tags and stipulation that were set on the page stay, the others are those of the text', () => {
  const now = edited(THEN, (lines, s) => setTag(lines, s, 'White', 'Troickij', 'Троицкий'),
    (lines, s) => setTag(lines, s, 'Site', 'Praha'), (lines, s) => setTag(lines, s, 'Date', '1921.??.??'),
    (lines, s) => stipulate(lines, s, 'white draw'));
  const lines = withOwnHead(READ, now.map(line => line.replace('an editor', 'N. N.')), THEN);
  assert.deepEqual(told(lines),
    {Event: 'mended', White: 'Троицкий', Site: 'Praha', Date: '1921.??.??', aim: 'White draw', source: 'hand'});
  assert.ok(lines.includes('#! tag Annotator N. N.') && !lines.includes('#! tag Annotator an editor'));
  assert.ok(lines.includes('insert root Kg3') && !lines.includes('#! tag Result 1-0'));
});
test('what was not set on the page, or was taken away there, is not put in', () => {
  assert.deepEqual(withOwnHead(READ, THEN, THEN), READ);
  const lines = withOwnHead(READ, edited(THEN, (all, s) => setTag(all, s, 'White', '')), THEN);
  assert.equal(told(lines).White, undefined);
});
test('a stipulation that the text does not state stays one that was set by hand', () => {
  const asked = THEN.map(line => line.replace('by its comment', 'by the option')),
        now = edited(asked, (lines, s) => stipulate(lines, s, 'white draw'));
  const read = READ.map(line => line.replace('by its comment', 'by the option').replace('white win', 'white draw'));
  assert.equal(told(withOwnHead(read, now, asked)).source, 'hand');
  assert.equal(told(withOwnHead(read, now, read)).source, 'hand');
});
const GAME = [
  '#! game 1, line 1: stipulated by its comment', '#> position 8/8/2P5/1Pr5/8/8/N7/k2K4 w - - 0 1',
  '#> insert root Nc1', '#> insert 0 Rxb5', '#> insert root Nb4', '#> insert 1 Rxb5', ''
];
const PART = (heading, men) => [`#! tail ${heading}`, `position ${men} w - - 0 3`, 'stipulate white win',
  'tag Event Liburkin', 'insert root c8=Q', 'pgn', ''];
const TRY = PART('1 of 1 of game 1, node 1.0, after 1... Rxb5, beside the solution', '8/2P5/8/8/1r6/8/8/k2K4'),
      MAIN = PART('1 of 2 of game 1, node 0.0, after 1... Rxb5', '8/2P5/8/8/8/3r4/8/k2K4'),
      TRY_BEHIND = TRY.map(line => line.replace('tail 1 of 1', 'tail 2 of 2'));
test('what was written at moves that the game has no more is said to have no place', () => {
  const now =
    THEN.flatMap(line => (/^position/.test(line) ? ['#! note Kg3 Kf5: mine', '#! note Kg3: kept', line] : [line]));
  const {lines, gone} = withOwn(READ, now, THEN);
  assert.deepEqual(gone, ['what you wrote at 1... Kf5']);
  assert.ok(lines.includes('#! note Kg3: kept') && lines.includes('#! note Kg3 Kf5: mine'));
});
test('a stipulation is the user\'s once the comment is deleted that stated it', () => {
  const then = THEN.map(line => (/Annotator/.test(line) ? '#! note -: White wins. Fine' : line)),
        read = READ.map(line => (/Annotator/.test(line) ? '#! note -: White wins. Fine' : line)),
        now = then.map(line => line.replace('by its comment', 'by hand').replace('White wins. Fine', 'Other words'));
  const lines = withOwnHead(read, now, then);
  assert.equal(told(lines).source, 'hand');
  assert.deepEqual(lines.filter(line => line.startsWith('#! note')), ['#! note -: Other words']);
});
test('what is set for a part of a game stays with its moves, whichever number the part has', () => {
  const then = [...GAME, ...TRY], parts = lines => assumeAccepted(lines).studies;
  let now = [...GAME, TRY[0], '#! note -: this try is cheap', ...TRY.slice(1)];
  now = setTag(now, parts(now)[0], 'Event', 'Try only').lines;
  now = stipulate(now, parts(now)[0], 'white draw').lines;
  const {lines, gone, places} = withOwn([...GAME, ...MAIN, ...TRY_BEHIND], now, then);
  const isCheap = ({head, from}) => lines.slice(head, from).includes('#! note -: this try is cheap'),
        [main, attempt] = parts(lines).map(part => [part.tags.Event, part.aim.goal, isCheap(part)]);
  assert.deepEqual(places, [1]);
  assert.deepEqual([main, attempt, gone], [['Liburkin', 'win', false], ['Try only', 'draw', true], []]);
});
test('what is set for a part that is there no more is left out, and said', () => {
  const then = [...GAME, ...TRY], now = [...GAME, TRY[0], '#! note -: cheap', ...TRY.slice(1)],
        block = [...GAME, ...MAIN];
  assert.deepEqual(
    withOwn(block, now, then), {lines: block, gone: ['what was set for the part after 1... Rxb5'], places: [-1]});
  assert.deepEqual(withOwn(block, then, then), {lines: block, gone: [], places: [-1]});
});
test('words and accepted duals stay, as long as the moves to the dual are there', () => {
  const own = ['#! note Kg3: own', '#! accepted Kg3: dual', '#! accepted Kg3 Kf5 b4: dual'], at = THEN.indexOf(THEN[3]),
        now = [...THEN.slice(0, at), ...own, ...THEN.slice(at)], {lines, gone} = withOwn(READ, now, THEN);
  assert.deepEqual(lines, [...READ.slice(0, at), ...own.slice(0, 2), ...READ.slice(at)]);
  assert.deepEqual(gone, ['the accepted dual 2. b4']);
});
test(
  'words that were changed or taken away on the page stay so, and those that were changed in the text are the text\'s',
  () => {
    const at = THEN.indexOf(THEN[3]), put = (lines, notes) => [...lines.slice(0, at), ...notes, ...lines.slice(at)];
    const notes = [
      '#! note -: above', '#! note Kg3: first', '#! note Kg3: $1', '#! note Kg3 Kf5: second',
      '#! note Kg3 Kf5 Kf3: third'
    ];
    const page = ['#! note -: New words', '#! note Kg3: $3', '#! note Kg3: first', '#! note Kg3 Kf5 Kf3: THIRD'],
          text = notes.map(line => line.replace('third', 'another third').replace('first', 'the first')),
          {lines, gone} = withOwn(put(READ, text), put(THEN, page), put(THEN, notes));
    const {head, from} = only(lines), said = lines.slice(head, from).filter(line => line.startsWith('#! note'));
    assert.deepEqual(said.sort(), [
      '#! note -: New words', '#! note Kg3: the first', '#! note Kg3: $3', '#! note Kg3 Kf5 Kf3: another third'
    ].sort());
    assert.deepEqual(gone, []);
  });
test('a tick that was taken away stays away, and words of other men that were set up take away none', () => {
  const at = THEN.indexOf(THEN[3]), put = (lines, notes) => [...lines.slice(0, at), ...notes, ...lines.slice(at)],
        notes = ['#! note Kg3: first', '#! accepted Kg3: dual'], then = put(THEN, notes), block = put(READ, notes);
  assert.deepEqual(withOwn(block, put(THEN, notes.slice(0, 1)), then).lines, put(READ, notes.slice(0, 1)));
  const turned =
    put(THEN.map(line => line.replace('8/8/8/6k1/8/8/1P5K/8', '8/8/8/1k6/8/8/K5P1/8')), ['#! note Kb3: first']);
  assert.ok(withOwn(block, turned, then).lines.includes('#! note Kg3: first'));
});
