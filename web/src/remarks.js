// @ts-check
// The remarks of a script, as the program reads them: the answer to the request `remarks`, kept by the line. Those that
// no import writes are the page's own, or comments: of these it has the words.
/**
 * A remark, with the fields of its kind: of a game its number, a line and a column of the file, and the author, as far
 * as these are stated; what is said there; the name of a tag; the numbers of a whole file.
 * @typedef {{kind: string, game: number, line: number, column: number, author: string, name: string, said: string,
 *   games: number, studies: number}} Remark
 */

const OF_GAME = ['game', 'line', 'column', 'author', 'said'];
/** The fields of each kind, in their order; the last one is the rest of the row. */
const FIELDS = /** @type {Record<string, string[]>} */ ({
  'left-out': OF_GAME,
  'not-read': OF_GAME,
  'stipulated': OF_GAME,
  'doubted': ['said'],
  'not-taken-over': ['said'],
  'behind-result': ['line', 'column'],
  'original': ['name', 'said'],
  'latin-1': ['name'],
  'letters': ['said'],
  'total': ['games', 'studies']
});
const NUMBERS = new Set(['game', 'line', 'column', 'games', 'studies']);
/** @type {Remark} */
const NONE = {
  kind: '',
  game: 0,
  line: 0,
  column: 0,
  author: '',
  name: '',
  said: '',
  games: 0,
  studies: 0
};
/**
 * A remark of a kind, with the texts of its fields.
 * @param {string} kind
 * @param {string[]} texts
 * @returns {Remark}
 */
function remarkIn(kind, texts) {
  const names = FIELDS[kind] || [], last = names.length - 1;
  const values = names.map((name, i) => {
    const text = i < last ? texts[i] : texts.slice(i).join('\t');
    return [name, NUMBERS.has(name) ? Number(text) : text];
  });
  return {...NONE, kind, ...Object.fromEntries(values)};
}
/** Of most lines the program says no more than that they are of no import: their words are those of the line. */
const OTHER = 'other';
/**
 * What the program read in lines.
 * @type {Map<string, Remark | typeof OTHER>}
 */
export const known = new Map();
/** So many lines are kept; they are read in parts, since a request has at most 100,000 lines. */
const MOST = 1000000, PART = 20000;
/**
 * The lines that are remarks or comments and that the program has not read yet, in parts.
 * @param {string[]} lines
 */
export function unknownIn(lines) {
  if (known.size > MOST) known.clear();
  const unknown = [...new Set(lines.filter(line => /^#!? /.test(line) && !known.has(line)))];
  return Array.from({length: Math.ceil(unknown.length / PART)}, (_, i) => unknown.slice(i * PART, (i + 1) * PART));
}
/**
 * Keeps what the program answers for lines.
 * @param {string[]} lines
 * @param {string} answer
 */
export function keepRemarks(lines, answer) {
  for (const row of answer.split('\n')) {
    const [number, kind, ...texts] = row.split('\t');
    if (number) known.set(lines[Number(number) - 1], kind === OTHER ? OTHER : remarkIn(kind, texts));
  }
}
/**
 * The remark in a line, as far as the program has read it.
 * @param {string | undefined} line
 */
export function remarkOf(line = '') {
  const found = known.get(line);
  return found === OTHER ? {...NONE, kind: OTHER, said: cutAt(line, ' ')[1]} : found || null;
}
/**
 * The remarks of one kind in lines.
 * @param {string[]} lines
 * @param {string} kind
 */
export const remarksOfKind = (lines, kind) => lines.flatMap(line => {
  const found = known.get(line);
  return found && found !== OTHER && found.kind === kind ? [found] : [];
});
/**
 * Whether what an import says of a game begins with a line.
 * @param {string} line
 */
export const beginsGame = line => line.startsWith('#! game ') && (remarkOf(line) || NONE).game > 0;
/**
 * Whether an import wrote a line, so that a report may print it.
 * @param {string} line
 */
export function isOfImport(line) {
  const found = known.get(line);
  return found !== undefined && found !== OTHER;
}

// ---- the page's own remarks
/**
 * A text at its first separator.
 * @param {string} text
 * @param {string} separator
 */
export function cutAt(text, separator) {
  const at = text.indexOf(separator);
  return at < 0 ? [text, ''] : [text.slice(0, at), text.slice(at + separator.length)];
}
/**
 * The first word of a remark that no import writes, and what is behind it: `note` and `Kg3: good`.
 * @param {string} line
 */
export function ownRemark(line) {
  if (known.get(line) !== OTHER) return NO_WORDS;
  const [word, rest] = cutAt(cutAt(line, ' ')[1], ' ');
  return {word, rest};
}
const NO_WORDS = {
  word: '',
  rest: ''
};
