// @ts-check
// The list of entries: how many there are of each kind, as a menu, and as a file.
import {studyName} from './entries.js';
import {FAULT_KINDS} from './fault_kinds.js';
import {againstText} from './imported.js';
import {wordOf} from './wording.js';
/** @typedef {import('./entries.js').Entry} Entry */

const KINDS = [
  'sound', 'time', 'accepted', 'duals', 'faults', 'mistake', 'wrong', 'more', 'works', 'refuted', 'correct', 'ends',
  'over', 'not read', 'left out', 'not judged'
];
/** The words of kinds, where they are others than the kind itself. */
const KIND_WORDS = /** @type {Record<string, (n: number) => string>} */ ({
  time: () => wordOf('time'),
  accepted: () => 'sound but for accepted duals',
  duals: () => 'with duals',
  faults: () => 'with faults',
  mistake: () => 'whose own move fails',
  more: () => 'from which more is reached than is asked',
  works: n => `beside a solution that ${n === 1 ? 'works' : 'work'} from here`,
  correct: () => wordOf('correct'),
  ends: () => 'whose line ends where four men are left',
  over: () => 'beginning in mate or stalemate'
});
/** @typedef {{kind: string, against?: string[], same?: string, faults?: string[], stamp?: string}} Kinds */
/**
 * What entries are filtered by besides their verdict, with the words behind a number.
 * @typedef {{kind: string, words: string, is: (entry: Kinds) => boolean}} More
 */
const MORE = /** @type {More[]} */ ([
  ...FAULT_KINDS.filter(([kind]) => kind !== 'fails').map(([kind,
    words]) => ({kind, words, is: (/** @type {Kinds} */ {faults = []}) => faults.includes(kind)})),
  {
    kind: 'defence',
    words: 'with a main defence not given',
    is: ({stamp = ''}) => /; main defence .* not given$/.test(stamp)
  },
  {kind: 'differ', words: 'whose sources differ', is: ({against = []}) => against.length > 0},
  {kind: 'same', words: 'with the position of another', is: ({same = ''}) => same !== ''}
]);
const moreOf = (/** @type {string} */ kind) => MORE.find(more => more.kind === kind);
/**
 * The words of a kind behind the number of its entries.
 * @param {string} kind
 * @param {number} n
 */
export const kindWords = (kind, n) => KIND_WORDS[kind] ? KIND_WORDS[kind](n) : (moreOf(kind) || {words: kind}).words;
/**
 * Whether an entry is of a kind: by its verdict, or whatever its verdict by its faults, its sources or its men.
 * @param {Kinds} entry
 * @param {string} kind
 */
export function isOfKind(entry, kind) {
  const more = moreOf(kind);
  return more ? more.is(entry) : entry.kind === kind;
}
/**
 * How many entries there are of each kind, those alone that there are.
 * @param {Kinds[]} entries
 * @returns {[string, number][]}
 */
export const countsOf = entries => /** @type {[string, number][]} */ ([...KINDS,
  ...MORE.map(({kind}) => kind)].map(kind => [kind, entries.filter(entry => isOfKind(entry, kind)).length])
                                                                        .filter(([, n]) => n));
/** Letters that are more than a plain one with an accent, as they are typed on a keyboard without them. */
const TYPED = /** @type {Record<string, string>} */ (
  {ł: 'l', ø: 'o', ß: 'ss', đ: 'd', ð: 'd', þ: 'th', æ: 'ae', œ: 'oe', ħ: 'h', ŧ: 't', ı: 'i', ŋ: 'n'});
/** @param {string} text */
const letters = text => text.normalize('NFD')
                          .replace(/\p{M}/gu, '')
                          .toLowerCase()
                          .replace(/[łøßđðþæœħŧıŋ]/g, letter => TYPED[letter]);
/**
 * The entries with a text in title, author or number, in plain letters too, whatever its capitals.
 * @param {Entry[]} entries
 * @param {string} text
 */
export function findEntries(entries, text) {
  const words = letters(text).split(/\s+/).filter(Boolean);
  return words.length ? entries.filter(({number, title, author}) => {
    const all = letters([number, title, author].join(' '));
    return words.every(word => all.includes(word));
  })
                      : entries;
}
const collator = new Intl.Collator(undefined, {numeric: true});
const WORST_FIRST = [
  'left out', 'not read', 'not judged', 'wrong', 'mistake', 'more', 'works', 'duals', 'faults', 'time', 'accepted',
  'refuted', 'correct', 'ends', 'over', 'sound'
];
/**
 * How far behind an entry comes in a list with the worst first: by its verdict, then by its worst fault, then by how
 * many it has.
 * @param {Entry} entry
 */
function rank({kind, faults, count}) {
  const worst = FAULT_KINDS.findIndex(([fault]) => faults.includes(fault));
  return [WORST_FIRST.indexOf(kind), worst < 0 ? FAULT_KINDS.length : worst, -count];
}
/**
 * @param {number[]} x
 * @param {number[]} y
 */
const byPlaces = (x, y) => x.map((place, i) => place - y[i]).find(Boolean) || 0;
const ORDERS = /** @type {Record<string, (x: Entry, y: Entry) => number>} */ ({
  number: (x, y) => collator.compare(x.number, y.number),
  title: (x, y) => collator.compare(x.title, y.title),
  author: (x, y) => collator.compare(x.author, y.author),
  aim: (x, y) => collator.compare(x.aim, y.aim),
  verdict: (x, y) => byPlaces(rank(x), rank(y))
});
/**
 * The entries in the order of a column, those that are equal there as they come; by their verdicts the worst first.
 * @param {Entry[]} entries
 * @param {string} by
 * @param {boolean} back
 */
export function sortEntries(entries, by, back) {
  const order = ORDERS[by];
  if (!order) return [...entries];
  return [...entries].sort(back ? (x, y) => order(y, x) : order);
}
/**
 * An entry in a line of the menu: a study by its own names alone, a part of a game with the move after which it begins.
 * @param {import('./types.js').Study[]} studies
 * @param {Entry} entry
 */
export function menuText(studies, {at, number, title, author, stamp}) {
  const name = at < 0 ? [title, author].filter(Boolean).join(', ') : studyName(studies[at]),
        [after = ''] = at < 0 ? [] : / \(after [^()]*\)$/.exec(title) || [];
  return `${number && `${number}. `}${name}${after}: ${at < 0 ? 'left out' : stamp}`;
}

/**
 * A field of a line of comma-separated values (RFC 4180).
 * @param {string | number} value
 */
const field = value => (/[",\r\n]/.test(`${value}`) ? `"${`${value}`.replace(/"/g, '""')}"` : `${value}`);
/**
 * The list as comma-separated values, with CR LF at the end of each line: the numbers of duals, of duals that only lose
 * time, and of defences that are not in the tree, and the first fault, if they are known.
 * @param {Entry[]} entries
 */
export function csvOf(entries) {
  const rows = entries.map(({number, title, author, fen, aim, against, stamp, review, fault, same}) => {
    const duals = review ? review.faults.filter(f => f.kind === 'dual') : [],
          facts =
            review ? [duals.length, duals.filter(f => f.time === f.duals).length, review.missing.length] : ['', '', ''];
    return [number, title, author, fen, aim, stamp, ...facts, against.map(againstText).join('; '), fault, same];
  });
  const head = [
    'Number', 'Title', 'Author', 'FEN', 'Stipulation', 'Verdict', 'Duals', 'Duals that waste time', 'Missing defences',
    'Sources that differ', 'First fault', 'Same position'
  ];
  return [head, ...rows].map(row => row.map(field).join(',') + '\r\n').join('');
}
