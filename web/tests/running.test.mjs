// Only the studies that have changed are run, over a made-up program that lets a study take over tags and stipulation.
import './stand_in.mjs';
import test from 'node:test';
import assert from 'node:assert/strict';
import {repliesFor} from '../src/running.js';
import {repliesOf, toRun, toText} from '../src/script.js';
import {services} from '../src/state.js';

/** The replies of the program to lines, as far as they matter here. */
function run(lines) {
  let study = false, aim = '', tags = {};
  return lines.filter(line => line && !line.startsWith('#')).map(line => {
    const [command, name, ...rest] = line.split(' ');
    if (command === 'load') return line;
    if (command === 'position') {
      study = name !== 'bad';
      if (!study) [aim, tags] = ['', {}];
      return study ? line : 'error BadFen';
    }
    if (!study) return 'error NoStudy';
    if (command === 'tag' && rest[0] === 'bad') return 'error BadByte';
    if (command === 'tag') tags[name] = rest.join(' ');
    else if (command === 'stipulate') aim = `${name === 'white' ? 'White' : 'Black'} to ${rest[0]}`;
    else if (command === 'pgn')
      return aim
        ? `${Object.entries(tags).sort().map(([k, v]) => `[${k} "${v}"]\n`).join('')}\n{${aim}: sound, draw} *\n`
        : 'error NoStipulation';
    return command === 'stipulate' ? `stipulate ${aim}` : line;
  });
}
let requests = [];
function begin() {
  requests = [];
  Object.assign(services, {
    core: {
      has: () => true,
      answer: async (request, text) => {
        const lines = text.trimEnd().split('\n');
        requests.push(lines.length);
        return {text: run(lines).map(reply => reply + '\n').join(''), ended: 'done'};
      }
    },
    tables: {classesOf: async () => ['KK'], knownClasses: () => ['KK'], load: async () => [], isTooMuch: () => false}
  });
}
/** Each line's reply by one run of the whole script. */
const whole = lines => {
  const texts = ['load KK', ...toRun(lines).map(({text}) => text)];
  return repliesOf(texts, run(texts).map(reply => reply + '\n').join('')).slice(1);
};
const FEN = '4k3/8/8/8/8/8/8/4K3 w - - 0 1';
const study = (n, ...more) => [`position ${FEN.replace('0 1', `0 ${n}`)}`, ...more, 'insert root Kd1', ''];

test('a change of one study among many runs that one alone', async () => {
  begin();
  const lines = [...Array(300).keys()].flatMap(n => study(n + 1, 'stipulate white win', `tag Event ${n}`));
  const seen = [];
  assert.deepEqual((await repliesFor(lines, (done, of) => seen.push([done, of]))).replies, whole(lines));
  assert.equal(requests.length, 6);
  assert.deepEqual(seen[0], [50, 300]);
  requests = [];
  const next = lines.map(line => (line === 'tag Event 7' ? 'tag Event Seven' : line));
  assert.deepEqual((await repliesFor(next)).replies, whole(next));
  assert.ok(requests.length === 1 && requests[0] < 14, `${requests}`);
});
test('no run has more lines than the program reads, and remarks and tables are not run', async () => {
  begin();
  const studies = [...Array(60).keys()].flatMap(n => study(n + 400, ...Array(3000).fill('insert root Kd1'))),
        lines = ['build KK', ...studies.flatMap(line => (line.startsWith('position') ? ['# A', line] : [line]))];
  assert.deepEqual((await repliesFor(lines)).replies, whole(lines));
  assert.ok(requests.length > 1 && requests.every(count => count <= 100000), `${requests}`);
  requests = [];
  await repliesFor(lines.map(line => (line === '# A' ? '# B' : line)));
  assert.deepEqual(requests, []);
});
test('a study that takes over what changed is run too', async () => {
  begin();
  const lines = [
    ...study(1, 'stipulate white win', 'tag White A', 'tag Event E'), ...study(2, 'tag Event F'),
    ...study(3, 'tag White B', 'stipulate black draw'), ...study(4)
  ];
  for (const [from, to] of [['tag White A', 'tag White Z'], ['stipulate white win', 'stipulate white draw'],
         ['tag White B', 'tag White bad'], ['position', 'position'], [study(3)[0], 'position bad'],
         ['tag Event F', '']])
    for (const now of [lines, lines.map(line => (line === from ? to : line)), lines])
      assert.deepEqual((await repliesFor(now)).replies, whole(now), `${from} as ${to}`);
});
/** Tables of which the program holds one at a time: a position needs that of its number. What was loaded is noted. */
function oneAtATime() {
  const loaded = [], classOf = fen => ['KK', 'KQK', 'KRK'][Number(fen.split(' ')[5]) % 3];
  const knownClasses = fens => [...new Set(fens.map(classOf))];
  services.tables = {
    knownClasses,
    classesOf: async fens => knownClasses(fens),
    isTooMuch: names => names.length > 1,
    load: async names => {
      loaded.push(names.join(' '));
      return [];
    }
  };
  return loaded;
}
test('studies whose tables are too many to be held at a time are run by their tables', async () => {
  begin();
  const loaded = oneAtATime(), seen = [];
  const lines =
    [...Array(270).keys()].flatMap(n => study(n + 1000, ...(n % 5 ? [] : ['stipulate white win']), `tag Event ${n}`));
  assert.deepEqual((await repliesFor(lines, (done, of) => seen.push([done, of]))).replies, whole(lines));
  assert.deepEqual(loaded, ['KRK', 'KRK', 'KQK', 'KQK', 'KK', 'KK']);
  assert.deepEqual(seen.map(([done]) => done), [50, 90, 140, 180, 230, 270]);
  const next = lines.map(line => (line === 'tag Event 7' ? 'tag Event Seven' : line));
  assert.deepEqual((await repliesFor(next)).replies, whole(next));
  assert.equal(loaded.length, 7);
});
test('any script has the replies of one run', async () => {
  let seed = 5;
  const random = n => (seed = (seed * 1103515245 + 12345) % 2147483648) % n;
  const words = [
    'stipulate white win', 'stipulate black draw', 'tag Event A', 'tag Event B', 'tag White C', 'tag White bad',
    'insert root Kd1', 'pgn', '# a remark', '', `position ${FEN}`, `position ${FEN.replace('0 1', '0 2')}`,
    'position bad 1 2 3 4 5', 'mark root'
  ];
  for (let i = 0; i < 800; i++) {
    if (i % 400 === 0) begin();
    if (i === 400) oneAtATime();
    const lines = [...Array(random(30)).keys()].map(() => words[random(words.length)]);
    if (i >= 400) lines.push(`# number ${i}`);
    const {sent, replies} = await repliesFor(lines);
    assert.deepEqual(replies, whole(lines), toText(sent.map(({text}) => text)));
  }
});
test('what waits for a table is run again', async () => {
  begin();
  const {core} = services, lines = study(77, 'stipulate white win');
  services.core = {
    ...core,
    answer: async (...a) => ({...(await core.answer(...a)), text: 'load KK\nerror NoTable KK\n'})
  };
  await repliesFor(lines);
  services.core = core;
  assert.deepEqual((await repliesFor(lines)).replies, whole(lines));
});
