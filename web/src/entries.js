// @ts-check
// The entries of a script, one a row: its studies with what is said of them, and those that were left out.
import {isKnown} from './edits.js';
import {control} from './fen.js';
import {byWeight, faultText, kindsIn} from './fault_kinds.js';
import {originalsIn, sourceText} from './imported.js';
import {textIn, whyGone} from './cut_game.js';
import {leftOut, leftOutBy} from './left_out.js';
import {numbersOf} from './numbering.js';
import {once} from './once.js';
import {positionsReached, reachedText, samePositions, sameText} from './same_positions.js';
import {isCommand, isEdit, isPosition, wordsOf} from './script.js';
import {acceptedOf, openStamp, stampOf, unreadIn} from './stamps.js';
import {gamesWithoutPart, namesOfTails, wholeGames} from './tails.js';
import {bareTree} from './unmarked.js';
import {aimText, counted, reason} from './words.js';
/** @typedef {import('./types.js').Study} Study @typedef {import('./types.js').Doc} Doc */
/** @typedef {import('./types.js').Review} Review */
/** @typedef {import('./types.js').Aim} Aim */
/**
 * `kind` is what the list is filtered by; `at` the place of a study, -1 of an entry that was left out; `number` that of
 * its game; `against` what speaks against its stipulation; `same` which other studies have, or reach, its position;
 * `fault` its first fault in words, and `faults` the kinds of all that are not accepted; `count` how many faults it
 * has, and `open` whether they are still being found.
 * @typedef {{line: number, at: number, number: string, kind: string, title: string, author: string, fen: string,
 *   aim: string, against: string[], stamp: string, review: Review | null, same: string, fault: string,
 *   faults: string[], count: number, open: boolean}} Entry
 */

/**
 * A tag's text in its own letters, also where its line was refused, or nothing where it is not known.
 * @param {Study} s
 * @param {string} name
 */
export const nameOf = (s, name) => s.originals[name] || (isKnown(s.tags[name]) ? s.tags[name] : '');
/**
 * Whether a tag has the text that an earlier study left.
 * @param {Study} s
 * @param {string} name
 */
export const isCarried = (s, name) => s.place[name] === undefined && !s.originals[name];
/**
 * Title and author, or the men; no other study's.
 * @param {Study} s
 */
export const studyName =
  s => ['Event', 'White'].map(name => (isCarried(s, name) ? '' : nameOf(s, name))).filter(Boolean).join(', ') ||
  control(s.fen);
/**
 * Whether the stipulation is the one that an earlier study left.
 * @param {Study} s
 */
export const isAimCarried = s => s.aim !== null && s.place.aim === undefined;
const CARRIED = ' (set for an earlier study)';
/**
 * The text of a tag in the list; one that an earlier study left is said to be so.
 * @param {Study} s
 * @param {string} name
 */
function listedName(s, name) {
  const text = nameOf(s, name);
  return text && isCarried(s, name) ? text + CARRIED : text;
}
/**
 * The title in the list, or the men; of a part of a game with more than four men also the move after which it begins.
 * @param {Study} s
 * @param {string} [after]
 */
function listedTitle(s, after) {
  const title = listedName(s, 'Event') || control(s.fen);
  return after ? `${title} (after ${after})` : title;
}
/** @param {string} line */
const tagIn = line => /^ *tag +(\w+) +(.*?) *$/.exec(line);

/**
 * The first edit that is refused now and was not before: what was refused already may be so for another reason.
 * @param {import('./types.js').Refused[]} before
 * @param {import('./types.js').Refused[]} now
 */
export function newlyRefused(before, now) {
  const left = /** @type {Map<string, number>} */ (new Map());
  for (const {text} of before) left.set(text, (left.get(text) || 0) + 1);
  return now.find(({text}) => {
    const n = left.get(text) || 0;
    left.set(text, n - 1);
    return n < 1 && isEdit(text);
  });
}
/** @param {string} line */
const pathIn = line => wordsOf(line)[wordsOf(line)[0] === 'solve' ? 2 : 1] || '';
/**
 * Whether a line was refused for want of what an earlier refused one was to give: a study, or a move above its path.
 * @param {import('./types.js').Refused} cause
 * @param {import('./types.js').Refused} r
 */
function isForWantOf(cause, r) {
  const [command] = wordsOf(cause.text), none = /^error No(Study|Position)/, path = pathIn(r.text);
  if (none.test(r.reply)) return /^(position|stipulate)$/.test(command) || none.test(cause.reply);
  if (!r.reply.startsWith('error NoSuchNode')) return false;
  const at = pathIn(cause.text), below = at === 'root' ? path !== at : path.startsWith(at + '.');
  if (cause.reply.startsWith('error NoSuchNode')) return below || path === at;
  return below && (command === 'insert' || !isCommand(cause.text));
}
/**
 * Refused lines by what is wrong: those behind it in the same study that lack what it was to give come with it.
 * @param {import('./types.js').Refused[]} refused
 * @param {(line: number) => number} of      the study of a line
 */
export function byCause(refused, of) {
  const causes = /** @type {import('./types.js').Refused[][]} */ ([]);
  for (const r of refused) {
    const study = of(r.line);
    let at = /^error No(Study|Position|SuchNode)/.test(r.reply) ? causes.length - 1 : -1;
    while (at >= 0 && of(causes[at][0].line) === study && !isForWantOf(causes[at][0], r)) at--;
    if (at >= 0 && of(causes[at][0].line) === study) causes[at].push(r);
    else causes.push([r]);
  }
  return causes;
}
/**
 * What the lines after a refused position say of it: who the author is, and which entry it was to be.
 * @param {string[]} lines
 * @param {number} from
 */
function tagsAfter(lines, from) {
  const tags = /** @type {Record<string, string>} */ ({});
  for (let at = from + 1; at < lines.length && wordsOf(lines[at])[0] !== 'position'; at++) {
    const m = tagIn(lines[at]);
    if (m) tags[m[1]] = m[2];
  }
  return tags;
}
/**
 * A game of a PGN that was left out, if a remark says so; the remarks behind it have its title and its author.
 * @param {string[]} lines
 * @param {number} line
 */
function leftOutAt(lines, line) {
  const game = leftOutBy(lines[line]);
  if (!game) return [];
  const end = lines.findIndex((text, at) => at > line && !text.startsWith('#'));
  const {Event = '', White = ''} = originalsIn(lines.slice(line, end < 0 ? undefined : end));
  const [, author, title] = game.author.match(/^(.*?)(?:; )?(?:"(.*)")?$/) || ['', '', ''];
  const place = `line ${game.line}${game.column ? `, column ${game.column}` : ''}`;
  const name = Event || title || `line ${game.line} of the PGN`,
        text = textIn(lines.slice(line, end < 0 ? undefined : end)), why = whyGone(game, text);
  return [{...missing(line, name, White || author, `${why} (${place})`), number: `${game.game}`}];
}
/**
 * How many entries have no study: games that were left out, and positions that were refused.
 * @param {import('./types.js').Script} doc
 */
export const howManyLeftOut = ({lines, refused}) =>
  gamesLeftOut(lines) + refused.filter(r => isPosition(r.text)).length;
const gamesLeftOut = once((/** @type {string[]} */ lines) => leftOut(lines).length + gamesWithoutPart(lines).length);
/**
 * How many games were not read, or not to their end, in words; nothing if all were.
 * @param {import('./types.js').Script} doc
 */
export function unreadNote(doc) {
  const out = howManyLeftOut(doc), cut = doc.studies.filter(s => unreadIn(doc, s)).length;
  return [
    out && `${counted(out, 'game was', 'games were')} not read`,
    cut && `${counted(cut, 'game was', 'games were')} not read to ${cut > 1 ? 'their ends' : 'its end'}`
  ].filter(Boolean)
    .join(', and ');
}
/**
 * @param {number} line
 * @param {string} title
 * @param {string} author
 * @param {string} why
 * @returns {Entry}
 */
const missing = (line, title, author, why) => ({
  line,
  at: -1,
  number: '',
  kind: 'left out',
  title,
  author,
  fen: '',
  aim: '',
  against: [],
  stamp: `left out: ${why}`,
  review: null,
  same: '',
  fault: '',
  faults: [],
  count: 0,
  open: false
});
/**
 * The stipulation with where it is from, if that is not the study itself.
 * @param {Study} s
 */
function listedAim(s) {
  const source = sourceText(s.origin), carried = isAimCarried(s) ? CARRIED : source && ` (${source})`;
  return s.aim ? aimText(s.aim) + carried : '';
}
/**
 * The faults that a judge does not accept: the worst one in words, and the kinds of all.
 * @param {Doc} doc
 * @param {Study} s
 * @param {Review | null} review
 */
function faultsOf(doc, s, review) {
  if (!review || !review.faults || !review.faults.length || !s.aim) return {fault: '', faults: []};
  const accepted = new Set(acceptedOf(doc, s, review.faults)), tree = () => bareTree(doc.lines.slice(s.from, s.end)),
        kinds = kindsIn(review, tree), left = byWeight(review.faults.filter(({path}) => !accepted.has(path)), kinds);
  return {
    fault: accepted.size && left.length ? faultText(left[0], review, s.fen, tree())
      : left.length                     ? review.worst
                                        : '',
    faults: [...new Set(left.map(({path}) => kinds.get(path) || ''))]
  };
}
/**
 * What a row says by the facts of its study, as far as they are known.
 * @param {Doc} doc
 * @param {Study} s
 * @param {Review | null} review
 * @param {boolean} open      whether they are still being found
 */
function saidOf(doc, s, review, open) {
  const said = stampOf(doc, s, review), {kind, text} = open ? openStamp(said) : said,
        own = kind === 'not read' ? null : review;
  return {kind, stamp: text, review: own, ...faultsOf(doc, s, own), open: open && text !== said.text};
}
/**
 * The entries with the facts of some more studies; which others reach their positions stays as it was.
 * @param {Entry[]} entries
 * @param {Doc} doc
 * @param {Set<number>} anew
 * @param {(Review | null)[]} reviews
 */
export const withFacts = (entries, doc, anew, reviews) => entries.map(
  entry => (anew.has(entry.at) ? {...entry, ...saidOf(doc, doc.studies[entry.at], reviews[entry.at], false)} : entry));
/**
 * The entries in the order of the script.
 * @param {Doc} doc
 * @param {(Review | null)[]} reviews      of each study, as far as they are known
 * @param {(import('./same_positions.js').Stop[] | null)[]} mainLines
 * @param {boolean[]} open      whether they are still being found
 * @returns {Entry[]}
 */
export function entriesOf(doc, reviews = [], mainLines = [], open = []) {
  const numbers = numbersOf(doc), tails = namesOfTails(doc.lines, doc.studies), fens = doc.studies.map(s => s.fen),
        same = samePositions(fens), reached = positionsReached(fens, mainLines), studies = doc.studies.map((s, at) => ({
          line: s.from,
          at,
          number: numbers[at],
          title: listedTitle(s, tails.get(s)),
          author: listedName(s, 'White'),
          fen: s.fen,
          aim: listedAim(s),
          against: s.origin ? s.origin.against : [],
          same: [sameText(same[at], numbers), reachedText(reached[at], numbers)].filter(Boolean).join(' and the '),
          count: Number(s.verdict.split(' ')[1]) || 0,
          ...saidOf(doc, s, reviews[at] || null, Boolean(open[at]))
        }));
  const refused = doc.refused.filter(r => isPosition(r.text)).map(r => {
    const {Event = '', White = '', Round = ''} = tagsAfter(doc.lines, r.line);
    return missing(r.line,
      isKnown(Event)     ? Event
        : isKnown(Round) ? `entry ${Round}`
                         : '',
      isKnown(White) ? White : '', reason(r.reply));
  });
  const unread = doc.lines.flatMap((text, line) => (text.startsWith('#! game ') ? leftOutAt(doc.lines, line) : []));
  const gone = gamesWithoutPart(doc.lines).map(({game, line, why, at}) => {
    const {Event = '', White = ''} = wholeGames(doc.lines).get(game)?.tags || {};
    return {...missing(at, Event, White, `${why} (line ${line})`), number: `${game}`};
  });
  return [...studies, ...refused, ...unread, ...gone].sort((x, y) => x.line - y.line);
}
