// Names in the letters of an older code; their bytes are those of the code pages, written by hand.
import test from 'node:test';
import assert from 'node:assert/strict';
import {foreignGames, foreignText, inUtf8, textIn} from '../src/code_pages.js';
import {decode} from '../src/imported.js';

const ascii = text => [...text].map(letter => letter.charCodeAt(0));
/** Троицкий in code page 1251, and Jiří in 1250. */
const TROITZKY = [0xd2, 0xf0, 0xee, 0xe8, 0xf6, 0xea, 0xe8, 0xe9], JIRI = [0x4a, 0x69, 0xf8, 0xed];
const line = (...parts) => Uint8Array.from(parts.flatMap(part => (typeof part === 'string' ? ascii(part) : part)));
const LINES =
        [
          line('[Event "One"]'), line('[White "Adam"]'), line(''), line('1. Kg3 {', [0xe9], '} 1-0'), line(''),
          line('[Event "', [0xcf], '"]'), line('[White "', TROITZKY, '"]'), line('[Black "', [0xdf], '"]'), line(''),
          line('1. Kg3 1-0'), line(''), new TextEncoder().encode('[White "Réti"]'), line('1. Kg3 1-0'),
          line('[White "', JIRI, '"]'), line('1. Kg3 1-0')
        ],
      STARTS = [1, 6, 12, 14];
test('games whose tags have letters that are no UTF-8', () => {
  const games = foreignGames(LINES, STARTS);
  assert.deepEqual(games.map(({game, name}) => [game, [...name]]), [[2, TROITZKY], [4, JIRI]]);
  assert.equal(
    foreignText(games, ''), 'The tags of games 2, 4 have letters that are no UTF-8, read as Latin 1: Òðîèöêèé.');
  assert.equal(foreignText(games.slice(1), 'windows-1250'),
    'The tags of game 4 have letters that are no UTF-8, read as Central European, 1250: Jiří.');
  assert.equal(foreignText([], ''), '');
  const many = Array.from({length: 10}, (_, i) => ({game: i + 1, name: line('A')}));
  assert.match(foreignText(many, ''), /^The tags of games 1, 2, 3, 4, 5, 6, 7, 8 and 2 more have/);
});
test('a file is read in a code page', () => {
  assert.equal(textIn(line(TROITZKY), 'windows-1251'), 'Троицкий');
  assert.equal(textIn(line(JIRI), 'windows-1250'), 'Jiří');
  assert.equal(textIn(line([0xe9, 0xd8]), 'windows-1252'), 'éØ');
  const rows = decode(inUtf8(LINES, 'windows-1251')).split('\n');
  assert.equal(rows[6], '[White "Троицкий"]');
  assert.equal(rows[3], '1. Kg3 {й} 1-0');
  assert.equal(rows[11], '[White "Réti"]');
  assert.equal(rows.length, LINES.length + 1);
});
test('where only comments have letters that are no UTF-8, these are named', () => {
  const lines = [
    line('[White "Adam"]'), line(''), line('1. Kg3 {the point: ', TROITZKY, '} 1-0'), line(''),
    line('[White "Bertin"]'), line(''), line('1. Kg3 {', TROITZKY, ' saw'), line('it} Kf5 {', JIRI, '} 1-0')
  ];
  const games = foreignGames(lines, [1, 5]);
  assert.deepEqual(
    games.map(({game, name}) => [game, textIn(name, 'windows-1251')]), [[1, 'Троицкий'], [2, 'Троицкий saw']]);
  assert.equal(foreignText(games, 'windows-1251'),
    'The comments of games 1, 2 have letters that are no UTF-8, read as Cyrillic, 1251: Троицкий.');
  assert.equal(decode(inUtf8(lines, 'windows-1251')).split('\n')[6], '1. Kg3 {Троицкий saw');
});
