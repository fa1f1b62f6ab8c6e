// The texts of the core - views, surveys, reviews - as an independent program wrote them, read and written again.
import './stand_in.mjs';
import test from 'node:test';
import assert from 'node:assert/strict';
import {readFileSync, readdirSync} from 'node:fs';
import {menOf, sideOf, squareName, isWhite} from '../src/fen.js';
import {nodeAt, readReview, readSurvey, readView, refusalIn, allNodes} from '../src/parse_answers.js';
import {aimText, otherAims, valueSign, valueText, verdictSentence} from '../src/words.js';

const folder = new URL('./data/', import.meta.url), text = name => readFileSync(new URL(name, folder), 'utf8');
const views =
  readdirSync(folder)
    .filter(name => name.endsWith('.views'))
    .flatMap(
      name => text(
        name).split(/^# view /m)
                .slice(1)
                .map(part => [name, ...[part.indexOf('\n')].flatMap(at => [part.slice(0, at), part.slice(at + 1)])]));
const valueWords = v => (v.kind === 'draw' ? 'draw' : `${v.kind} ${v.n}`),
      markWords = m => (m.mark === 'dual' ? `dual ${m.duals}` : m.mark);
const squares = m => (m.from < 0 ? '-' : squareName(m.from) + squareName(m.to) + m.promoted.toLowerCase());
function viewText(view) {
  const rows = [
    `study ${view.fen}`, `counts ${view.counts}`, `stipulation ${aimText(view.aim)}: ${view.verdict}, ${view.start}`,
    `stamp ${view.stamp}`, ...(view.worst ? [`worst ${view.worst}`] : []), `sentence ${view.sentence}`
  ];
  for (const n of allNodes(view.root))
    rows.push(
      `node ${n.path} ${n.san} ${squares(n)} ${valueWords(n.value)} ${markWords(n)} faults ${n.faults} ${n.fen}`);
  rows.push(`at ${view.path} ${view.over || view.moves.length}`);
  for (const m of view.moves) rows.push(`move ${m.san} ${squares(m)} ${valueWords(m.value)} ${markWords(m)} ${m.fen}`);
  return rows.join('\n') + '\n';
}
test('views are read whole', () => {
  assert.ok(views.length >= 100);
  for (const [name, path, body] of views) {
    const view = readView(body);
    assert.ok(view && view.path === path, `${name} ${path}`);
    assert.equal(viewText(view), body, `${name} ${path}`);
  }
});
test('squares of a move are those of a man of the side to move', () => {
  for (const [, path, body] of views) {
    const view = readView(body), node = nodeAt(view.root, path), men = menOf(node.fen);
    for (const m of view.moves) assert.equal(isWhite(men[m.from]), sideOf(node.fen) === 'White');
  }
});
test('values in words', () => {
  const view = readView(views.find(([name, path]) => name === 'saavedra_1895.views' && path === 'root')[2]);
  assert.equal(valueText('White', view.root.value), 'White mates in 26');
  assert.equal(valueText('White', view.root.value), view.start);
  assert.equal(verdictSentence(view, 'duals'),
    'The stipulation is correct; the solution has 3 duals, 2 waste time. At the start: White mates in 26.');
  assert.equal(view.counts, '2 + 2, 0300.10 b6a1');
  assert.equal('Rh8#' + valueSign('White', 'Black', {kind: 'loss', n: 0}), 'Rh8#', 'mate has one sign');
  assert.equal(valueSign('White', 'White', {kind: 'loss', n: 6}), '−3');
  assert.equal(valueSign('White', 'Black', {kind: 'draw', n: 0}), '=');
});
test('surveys are read whole', () => {
  const parts = text('surveys.txt').split(/^# .*\n/m).slice(1);
  assert.ok(parts.length >= 18);
  for (const part of parts) {
    const stands = readSurvey(part), rows = part.trim().split('\n').slice(1);
    assert.equal(stands.length, 63);
    stands.forEach((s, i) => {
      const value = s.value ? valueWords(s.value) : '';
      const again = s.kind === 'none' ? `${squareName(s.square)} -` : [
        squareName(s.square), s.kind, value, s.san || (s.kind === 'holds' && s.count ? s.count : '')
      ].filter(x => x !== '').join(' ');
      assert.equal(again, rows[i]);
    });
  }
});
test('reviews are read whole', () => {
  for (const name of readdirSync(folder).filter(n => n.endsWith('.lines'))) {
    for (const part of text(name).split(/^(?=study )/m)) {
      const review = readReview(part), rows = part.trim().split('\n'),
            count = kind => rows.filter(r => r.startsWith(kind + ' ')).length;
      if (!review) continue;
      assert.deepEqual([review.faults, review.also, review.refuted, review.missing].map(l => l.length),
        ['fault', 'also', 'refuted', 'missing'].map(count));
      assert.equal(review.ends.length, count('play') + count('keep'));
      assert.equal(review.empty, rows.includes('empty'));
    }
  }
  const first = readReview(text('saavedra_1895.lines').split(/^(?=study )/m)[0]);
  assert.deepEqual(first.faults.map(f => [f.path, f.san, f.kind, f.duals, f.time]), [
    ['0.0.0.0.0', 'Kb4', 'dual', 1, 1], ['0.0.0.0.0.0.0', 'Kb3', 'dual', 2, 1],
    ['0.0.0.0.0.0.0.0.0.0.0', 'c8=R', 'dual', 2, 2]
  ]);
  assert.deepEqual(first.also[0], {path: '0.0.0.0.0', san: 'Kb6', value: {kind: 'loss', n: 50}, time: 0});
});
test('refusals', () => {
  assert.equal(refusalIn({text: 'NoTable KRK\n', ended: 'refused'}), 'error NoTable KRK');
  assert.equal(refusalIn({text: 'study 8/8/8/8/8/k7/8/K7 w - - 0 1\nrefused 2 UnknownStipulation\n', ended: 'done'}),
    'error UnknownStipulation');
});
test('what could be said instead', () => {
  const win = {kind: 'win', n: 13}, draw = {kind: 'draw', n: 0}, aim = (goal, hero = 'White') => ({hero, goal, k: 0});
  assert.deepEqual(otherAims(aim('draw'), 'sound', 'White', win, false), ['white win']);
  assert.deepEqual(otherAims(aim('draw'), 'sound', 'White', draw, true), []);
  assert.deepEqual(otherAims(aim('win'), 'unsound 1', 'White', win, true), ['white mate 7']);
  assert.deepEqual(otherAims(aim('win'), 'wrong', 'White', draw, false), ['white draw', 'black draw']);
  assert.deepEqual(otherAims(aim('draw'), 'wrong', 'Black', win, false), ['black win']);
});
