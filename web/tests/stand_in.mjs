// Stands in for the program in tests of pure functions: its words, and the remarks of any line, which the page asks of
// the module. `remarks.test.mjs` compares it with rows of the program.
import {readFileSync} from 'node:fs';
import {keepRemarks, known} from '../src/remarks.js';
import {readWording} from '../src/wording.js';

const data = name => readFileSync(new URL(`data/${name}`, import.meta.url), 'utf8');
readWording(data('words.txt'));

const SOURCES = {
  'its comment': 'comment',
  'its tag Stipulation': 'stipulation-tag',
  'its tag Result': 'result-tag',
  'its result': 'result',
  'the option': 'option'
};
const DOUBTS = {
  'of its comment is not understood': 'comment-unread',
  'of its tag Stipulation is not understood': 'stipulation-tag-unread',
  'differs from its tag Stipulation': 'stipulation-tag-differs',
  'differs from its tag Result': 'result-tag-differs',
  'differs from its result': 'result-differs'
};
/** The kind of a remark of a game, and what is said there. */
function saidOfGame(said) {
  const [, by] = /^stipulated by (.*)$/.exec(said) || [], [, why] = /^not read: (.*)$/.exec(said) || [];
  if (by) return SOURCES[by] ? ['stipulated', SOURCES[by]] : null;
  return why ? ['not-read', why] : ['left-out', said];
}
const FORMS = [
  [
    /^game (\d+), line (\d+)(?:, column (\d+))?(?: \(([^:]*)\))?: (.*)$/,
    ([game, line, column = '', author = '', said]) => {
      const found = saidOfGame(said);
      return found && [found[0], game, line, column, author, found[1]];
    }
  ],
  [/^the stipulation (.*)$/, ([words]) => DOUBTS[words] && ['doubted', DOUBTS[words]]],
  [/^not taken over: (.*)$/, found => ['not-taken-over', ...found]],
  [/^behind the result: line (\d+), column (\d+)$/, found => ['behind-result', ...found]],
  [/^(Event|Site|Date|Round|White|Black) was: (.*)$/, found => ['original', ...found]],
  [/^read as Latin 1: (Event|Site|Date|Round|White|Black)$/, found => ['latin-1', ...found]],
  [/^letters: (.*)$/, found => ['letters', ...found]],
  [/^a tail: moves before (\d+); its position is another program's word$/, found => ['tail', ...found]],
  [/^games (\d+), studies (\d+)$/, found => ['total', ...found]]
];
/** The row of a line without its number, or nothing. */
export function rowOf(line) {
  const [, mark, words] = /^#(!?) (.*)$/.exec(line) || [];
  if (words === undefined) return null;
  for (const [form, row] of mark ? FORMS : []) {
    const found = form.exec(words), fields = found && row(found.slice(1));
    if (fields) return fields.join('\t');
  }
  return `other\t${words}`;
}
const get = known.get.bind(known);
known.get = line => {
  const row = known.has(line) ? null : rowOf(line);
  if (row) keepRemarks([line], `1\t${row}\n`);
  return get(line);
};
