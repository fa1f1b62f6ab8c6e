// What comes in: told apart by its look; and a study as a link.
import './stand_in.mjs';
import test from 'node:test';
import assert from 'node:assert/strict';
import {linkNote, linkTo, scriptIn} from '../src/links.js';
import {lookOf} from '../src/looks.js';
import {assumeAccepted} from '../src/assumed.js';
import {toText} from '../src/script.js';
import {aloneLines} from '../src/study_edits.js';

const FEN = '8/8/8/6k1/8/8/1P5K/8 w - - 0 1';
test('a text is a PGN, a script or a position by its look', () => {
  const looks = {
    [FEN]: 'position',
    '  8/8/8/6k1/8/8/1P5K/8  \n': 'position',
    'Kh2 Pb2 / Kg5': 'position',
    'white kh2 pb2 black kg5': 'position',
    [`[FEN "${FEN}"]\n\n1. Kg3 *\n`]: 'pgn',
    '\n[Event "x"]\n': 'pgn',
    [`# a remark\nposition ${FEN}\n`]: 'script',
    'build KQK\n': 'script',
    [`${FEN}\n${FEN}\n`]: '',
    '8/8/8/6k1/8/8/1P5K w': 'position',
    '8/8/1KP6/3r4/8/8/8/k7 w - - 0 1': 'position',
    '1/2-1/2 in 3/4': '',
    '1. Kg3 Kf5 2. Kf3': '',
    'prose, and more of it': '',
    '# a remark': '',
    '': ''
  };
  for (const [text, look] of Object.entries(looks)) assert.equal(lookOf(text), look, text);
});
test('a link has the script, letter for letter', () => {
  const text = 'tag Event A & B + C #1 (50 %)\n#! White was: R\u00e9ti\n';
  const link = linkTo('https://a.b/studyboard.html#script=old', text);
  assert.equal(link,
    'https://a.b/studyboard.html#script=tag+Event+A+%26+B+%2B+C+%231+%2850+%25%29%0A' +
      '%23%21+White+was%3A+R%C3%A9ti%0A');
  assert.equal(scriptIn(new URL(link).hash), text);
  assert.equal(scriptIn('#x&script=a+b&y'), 'a b');
  assert.equal(scriptIn('#script=50%'), '50%');
  assert.deepEqual([scriptIn(''), scriptIn('#study=a')], [null, null]);
});
test('a long link, and one to a file, are said to be so', () => {
  const web = 'https://a.b/c.html#script='.padEnd(2000, 'x');
  assert.equal(linkNote(web), 'Copied: a link of 2,000 letters that opens this study.');
  assert.match(linkNote(web + 'x'), /2,001 letters .* cut a link behind 2,000 letters: send the saved script instead/);
  assert.match(linkNote('file:///a.html#script=x'), /leads to this file on this computer/);
});
test('the study of a link stands alone, with what it takes over', () => {
  const lines = [
    'position 8/8/8/8/8/1k6/7Q/K7 w - - 0 1', 'stipulate white win', 'tag Event First', 'tag White A', '',
    '#! White was: Ž', 'position ' + FEN, 'tag Event Second', 'insert root Kg3', 'pgn', '',
    'position 8/8/8/8/8/1k6/7R/K7 w - - 0 1'
  ];
  const {studies} = assumeAccepted(lines);
  assert.equal(toText(aloneLines(lines, studies[0])), toText(lines.slice(0, 4)));
  assert.deepEqual(aloneLines(lines, studies[1]), [
    '#! White was: Ž', 'position ' + FEN, 'stipulate white win', 'tag White ?', 'tag Event Second', 'insert root Kg3',
    'pgn'
  ]);
});
