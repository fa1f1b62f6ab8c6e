// The time that is left of builds: that of the longest row of classes of which each needs the one before, with three
// workers; it grows with a build that takes longer than it was to.
import test from 'node:test';
import assert from 'node:assert/strict';
import {CLASSES} from '../src/core_host.js';
import {NEEDS} from '../src/needs.js';
import {makeWaiting, needsOf, paceOf, progressText, restOf, secondsLeft} from '../src/waiting.js';

const listed = seconds => Object.entries(seconds).map(([name, of]) => ({name, seconds: of}));
/** A before B and C, these before D; E needs none. */
const needs = name => ({B: ['A'], C: ['A'], D: ['B', 'C']})[name] || [];
const left = (waiting, most, running = {}) =>
  secondsLeft({running: listed(running), waiting: listed(waiting), most}, needs);
const SHORT = {
  A: 2,
  B: 3,
  C: 5,
  D: 4,
  E: 1
},
      LONG = {
        ...SHORT,
        E: 20
      };
test('a class waits for those that it needs', () => {
  assert.equal(left({}, 3), 0);
  assert.equal(left(SHORT, 1), 15);  // one after the other
  assert.equal(left(SHORT, 2), 11);  // A to 2, C to 7, D to 11; beside them E and B
  assert.equal(left(SHORT, 3), 11);
  assert.equal(left(LONG, 2), 20);  // E alone takes as long; beside it A, B, C and D to 14
  assert.equal(left({...SHORT, E: 13}, 2), 14);
});
test('what runs holds its place, and what was begun too early waits', () => {
  assert.equal(left({C: 5, D: 4}, 3, {A: 0.5, B: 2}), 9.5);  // C from 0.5 on, since A is left; D behind it
  assert.equal(left({D: 4}, 3, {B: 1, C: 6}), 10);
  assert.equal(left({}, 3, {C: 6, D: 4}), 10);
  assert.equal(left({B: 3, C: 5}, 1, {E: 2}), 10);
});
test('the eleven tables of rook against pawn, with three workers', () => {
  const waiting =
    listed({KK: 1, KQK: 1, KRK: 1, KBK: 1, KNK: 1, KPK: 3, KQKR: 68, KRKR: 28, KRKB: 30, KRKN: 39, KRKP: 170});
  // KK to 1; KQK, KRK, KBK to 2; KNK to 3, then KPK to 6 and KRKB to 36; KQKR to 70; KRKR to 30, then KRKN to 69;
  // KRKP, which needs KQKR, from 70 on.
  assert.equal(secondsLeft({running: [], waiting, most: 3}), 240);
  assert.equal(secondsLeft({running: [], waiting, most: 1}), 343);
  assert.equal(secondsLeft({running: listed({KQKR: 4}), waiting: listed({KRKP: 17}), most: 3}), 21);
});
test('what a class needs comes before it', () => {
  assert.deepEqual(Object.keys(NEEDS), CLASSES);
  for (const name of CLASSES)
    for (const need of needsOf(name)) assert.ok(CLASSES.indexOf(need) < CLASSES.indexOf(name), `${need} ${name}`);
  assert.deepEqual(needsOf('KK'), []);
  assert.deepEqual(needsOf('KRRK'), ['KRK']);
  assert.deepEqual(needsOf('KPPK'), ['KPK', 'KQPK', 'KRPK', 'KBPK', 'KNPK']);
  assert.deepEqual(needsOf('KRKP'), 'KQK KRK KBK KNK KPK KQKR KRKR KRKB KRKN'.split(' '));
});
test('the rest of a build grows once it takes longer than it was to', () => {
  assert.deepEqual([0, 7, 16, 20, 40, 80].map(elapsed => restOf(20, elapsed)), [20, 13, 4, 5, 10, 20]);
});
test('the pace is that of builds that ended or take longer, unless they are too small', () => {
  assert.equal(paceOf([]), 1);
  assert.equal(paceOf([{took: 8, listed: 2}]), 1);
  assert.equal(paceOf([{took: 10, listed: 5}]), 2);
  assert.equal(paceOf([{took: 10, listed: 5}, {took: 30, listed: 5}]), 4);
});
test('the words say what is built and how long it takes', () => {
  const kept = 'Each is built once and kept.';
  assert.equal(progressText(['KRKP'], 10, 11, 17.2), `Building KRKP: about 17 s left, 10 of 11 tables done. ${kept}`);
  assert.equal(
    progressText(['KQKR', 'KRKN'], 7, 11, 62), `Building KQKR, KRKN: about 60 s left, 7 of 11 tables done. ${kept}`);
  assert.match(progressText(['KRKP'], 10, 11, 200), /: about 3 minutes left,/);
  assert.match(progressText(['KK'], 0, 1, 0.1), /^Building KK: almost done, 0 of 1 table done/);
});
test('builds are reported until none runs; of those that were begun too early none is named', () => {
  const reports = [], waiting = makeWaiting(3, p => reports.push(p));
  waiting.begin('KQKR', true);
  waiting.show({running: ['KQKR', 'KRKP'], waiting: [], made: 9});
  waiting.show({running: [], waiting: [], made: 11});
  assert.deepEqual(reports[0], {
    text: 'Building KQKR: about 24 s left, 9 of 11 tables done. Each is built once and kept.',  // 6.8 and 17
    done: 9,
    of: 11
  });
  assert.deepEqual(reports.slice(1), [null]);
  assert.equal(waiting.estimate(['KQKR', 'KRKP']), 'about 25 s');
  assert.equal(waiting.estimate(['KK']), 'about 5 s');
});
