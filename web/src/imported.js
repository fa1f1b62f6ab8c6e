// @ts-check
// What the program makes of a PGN: blocks of lines with remarks above them, and for each game that has none a remark
// that says why.
import {cutIn, leftOut, whyLeftOut} from './left_out.js';
import {cutAt, ownRemark, remarkOf, remarksOfKind} from './remarks.js';
import {gamesWithoutPart, headingAlone, partHere, tailIn, wholeGames} from './tails.js';
import {counted} from './words.js';
/**
 * Whether a text is a PGN: its first line is a tag, or some line is the tag of a position.
 * @param {string} text
 */
export const looksLikePgn = text => /^[\s\ufeff]*\[\w+ "/.test(text) || /^\[FEN "/m.test(text);
/**
 * The text of a file: UTF-8 if all of it is, else Latin 1.
 * @param {Uint8Array} bytes
 */
export function decode(bytes) {
  try {
    return new TextDecoder('utf-8', {fatal: true}).decode(bytes);
  } catch { return new TextDecoder('latin1').decode(bytes); }
}
/**
 * The bytes of a file in UTF-8, where the mark at their front says that they are UTF-16; with line feeds, where its
 * lines end with carriage returns only.
 * @param {Uint8Array} bytes
 */
export function plainBytes(bytes) {
  const mark = bytes[0] * 256 + bytes[1], code = mark === 0xfffe ? 'utf-16le' : mark === 0xfeff ? 'utf-16be' : '';
  const read = code ? new TextEncoder().encode(new TextDecoder(code).decode(bytes)) : bytes;
  return read.includes(10) ? read : read.map(byte => (byte === 13 ? 10 : byte));
}
/** @param {import('./left_out.js').LeftOut} game */
const placeOf = ({game, line, column, author}) =>
  `game ${game}${author && ` (${author})`}, line ${line}${column ? `, column ${column}` : ''}`;
/**
 * The games of an import that only lack a stipulation.
 * @param {string[]} lines
 */
export const withoutAim = lines => leftOut(lines).filter(game => game.why === 'NoStipulation').length;
/** @param {import('./left_out.js').LeftOut[]} games */
function firstLeftOut(games) {
  const MOST = 5, first = games.slice(0, MOST).map(game => `${placeOf(game)}: ${whyLeftOut(game)}`);
  return first.join('; ') + (games.length > MOST ? `; and ${games.length - MOST} more` : '');
}
/**
 * The games of an import with sources of a stipulation that differ, or with one that is not understood.
 * @param {string[]} lines
 */
function doubtedGames(lines) {
  const games = /** @type {Set<string>} */ (new Set());
  let game = '';
  for (const line of lines) {
    const remark = remarkOf(line);
    if (remark && remark.game) game = `${remark.game}`;
    if (remark && remark.kind === 'doubted') games.add(game);
  }
  return [...games];
}
/** @param {string[]} games */
const doubtNote = games =>
  (games.length > 5 ? ` Sources of the stipulation differ in ${games.length} games: see the list.`
      : games.length ? ` Sources of the stipulation differ in game ${games.join(', ')}.`
                     : '');
/**
 * How many games and studies there were. Games that were left out are named with their reasons where there is no list,
 * which has a row for each.
 * @param {string[]} lines
 * @param {{games: number, studies: number}} [counts]
 */
export function importNote(lines, counts = remarksOfKind(lines, 'total')[0]) {
  const out = [...leftOut(lines), ...gamesWithoutPart(lines)];
  if (!counts) return '';
  return `${counted(counts.games, 'game')}, ${counted(counts.studies, 'study', 'studies')}.` +
    outNote(out, counts.studies) + doubtNote(doubtedGames(lines));
}
/**
 * What is said of games that were left out, beside so many studies.
 * @param {import('./left_out.js').LeftOut[]} out
 * @param {number} studies
 */
const outNote = (out, studies) => (!out.length ? ''
    : studies > 0 && out.length > 1            ? ` Left out: ${out.length} games, each with its reason in the list.`
               : studies > 0 ? ` Left out: game ${out[0].game}, with its reason in the list.`
                             : ` Left out: ${firstLeftOut(out)}.`);
/**
 * What is said of an import once one of its games that were left out stands among the studies.
 * @param {string} note
 * @param {string[]} before
 * @param {string[]} after
 */
export function noteAfter(note, before, after) {
  const added = studiesIn(after) - studiesIn(before),
        rest = note.replace(/, (\d+) stud(y|ies)\./, (_, n) => `, ${counted(Number(n) + added, 'study', 'studies')}.`);
  return [0, 1].reduce(
    (text, studies) => text.replace(outNote(leftOut(before), studies), () => outNote(leftOut(after), 1)), rest);
}
/**
 * What is said of an import, where its studies have become more or fewer since.
 * @param {import('./types.js').Doc} before
 * @param {import('./types.js').Script} after
 */
export const noteThen = ({note, lines, studies}, after) =>
  (note && studies.length !== after.studies.length ? noteAfter(note, lines, after.lines) : note);
/** @param {string[]} lines */
export const studiesIn = lines => lines.filter(line => line.startsWith('position ')).length;

/** @param {string} line */
const isTotal = line => line.startsWith('#! games ') && remarksOfKind([line], 'total').length > 0;
/**
 * The lines of an import as a document: without the counts at its end, which the next change would make wrong.
 * @param {string[]} lines
 */
export function documentOf(lines) {
  const kept = lines.filter(line => !isTotal(line));
  while (kept.length && kept[kept.length - 1] === '') kept.pop();
  return kept;
}
/**
 * Where a study comes from, as the remarks above its position say: the game of the file and its line, which source its
 * stipulation is from, such as `result-tag`, and what speaks against it, such as `result-differs`; where it ends, if a
 * bad move stands there in the file; the language of its letters, if that is not English; of a game with more than four
 * men, which tail it is.
 * @typedef {{game: number, line: number, source: string, against: string[], letters: string,
 *   cut: import('./left_out.js').Cut | null, tail: import('./tails.js').Tail | null}} Origin
 */
/** What the page writes where the user states another stipulation. */
const BY_HAND = 'stipulated by hand', HAND = 'hand';
/** The source of a stipulation that only the page's own words state, in a game that it saved. */
export const SAVED = 'saved';
/**
 * The remark that gives a number to a study which the user has made.
 * @param {number} game
 */
export const numberRemark = game => `#! game ${game}, line 0: ${BY_HAND}`;
/**
 * The game of a remark that says where a stipulation is from.
 * @param {string} row
 */
export function stipulatedBy(row) {
  const remark = remarkOf(row);
  if (!remark) return null;
  if (remark.kind === 'stipulated') return {game: remark.game, line: remark.line, source: remark.said};
  if (remark.kind !== 'other' || !remark.said.endsWith(`: ${BY_HAND}`)) return null;
  const [, game, , line] = cutAt(remark.said, ':')[0].split(/,? /);
  return {game: Number(game), line: Number(line), source: HAND};
}
/**
 * Whether the file states a stipulation.
 * @param {Origin} origin
 */
export const isOfFile = ({source}) => source !== '' && source !== HAND && source !== 'option';
/**
 * @param {string[]} remarks
 * @returns {Origin}
 */
export function originIn(remarks) {
  const tail = remarks.map(tailIn).find(Boolean) || null, {game} = partHere({tail}) || {game: 0},
        found = remarks.map(stipulatedBy).find(Boolean) || {game, line: 0, source: ''},
        against = remarksOfKind(remarks, 'doubted').map(({said}) => said),
        letters = remarksOfKind(remarks, 'letters').map(({said}) => said).join('');
  if (found.source === 'comment' && remarks.some(line => ownRemark(line).word === SAVED)) found.source = SAVED;
  return {...found, against, letters, cut: cutIn(remarks), tail};
}
/**
 * The remarks above a position once the user states another stipulation, or sets up other men: what the file says of
 * stipulation and result, and the marks in it, are of what stood there before.
 * @param {string[]} remarks
 */
export const restated = remarks => remarks.filter(line => !isOfBefore(line)).map(line => byHand(line));
/**
 * The remark that says where a stipulation is from, once it is the user's; other remarks as they are.
 * @param {string} line
 * @param {string} [source]      the one source that is given up
 */
export function byHand(line, source) {
  const [stipulated] = remarksOfKind([line], 'stipulated');
  if (!stipulated || (source && stipulated.said !== source)) return line;
  const {game, line: row, author} = stipulated;
  return `#! game ${game}, line ${row}${author && ` (${author})`}: ${BY_HAND}`;
}
/**
 * Whether a remark says what the file states as stipulation, as result, or as marks.
 * @param {string} line
 */
function isOfBefore(line) {
  const {word, rest} = ownRemark(line);
  return remarksOfKind([line], 'doubted').length > 0 || word === 'result' || word === 'mark' || word === SAVED ||
    (word === 'tag' && cutAt(rest, ' ')[0] === 'Result');
}
/**
 * Whether a remark says which game of the file a study is, which a copy of it is not.
 * @param {string} line
 */
function isOfGame(line) {
  const remark = remarkOf(line);
  return stipulatedBy(line) !== null || (remark !== null && (remark.game > 0 || remark.kind === 'doubted'));
}
/**
 * A line as a copy of its study has it, which is no game of the file; of a part of a game it still says so, and that it
 * is a try.
 * @param {string} line
 */
export function asCopied(line) {
  const tail = tailIn(line);
  return tail ? [headingAlone(tail)] : isOfGame(line) ? [] : [line];
}
/**
 * The names of a part of a game in their own letters, which stand with its game, as remarks above its position.
 * @param {string[]} remarks      those that stand there
 * @param {import('./types.js').Study} study
 */
export function namesOfGame(remarks, {origin, originals}) {
  const own = originalsIn(remarks);
  return Object.entries(origin && origin.tail ? originals : {}).filter(([name]) => own[name] === undefined).map(([
    name, text
  ]) => `#! ${name} was: ${text}`);
}
const SOURCES = /** @type {Record<string, string>} */ ({
  'comment': 'from the comment',
  'stipulation-tag': 'from the tag Stipulation',
  'result-tag': 'from the Result',
  'result': 'from the final result',
  'option': 'chosen for games that state none'
});
/**
 * Where the stipulation of a study is from, in words that go behind one and behind several; nothing where the user set
 * it, or only a saved game states it.
 * @param {Origin | undefined} origin
 */
export const sourceText = origin => (origin && SOURCES[origin.source]) || '';
const AGAINST = /** @type {Record<string, string>} */ ({
  'comment-unread': 'its comment is not understood',
  'stipulation-tag-unread': 'its tag Stipulation is not understood',
  'stipulation-tag-differs': 'its tag Stipulation differs',
  'result-tag-differs': 'its tag Result differs',
  'result-differs': 'its result differs'
});
/**
 * What speaks against a stipulation, in words: a source that differs, or is not understood.
 * @param {string} against
 */
export const againstText = against => AGAINST[against] || against;
/**
 * The greatest number of a game that the remarks of a script name; none where it was written by hand.
 * @param {string[]} lines
 */
export const mostGames = lines => lines.reduce((most, line) => {
  const remark = line.startsWith('#! game ') ? remarkOf(line) : null,
        game = remark ? remark.game || (stipulatedBy(line) || {game: 0}).game : 0;
  return Math.max(most, game);
}, 0);
/**
 * The name of a tag and its text in its own letters, if a remark has them: of a study, or of a game that is left out.
 * @param {string} line
 */
function originalIn(line) {
  const [own] = remarksOfKind([line], 'original'), {word, rest} = ownRemark(line);
  return own ? [[own.name, own.said]] : word === 'its' ? [cutAt(rest, ' was: ')] : [];
}
/**
 * The texts of tags in their own letters, as remarks above a position have them.
 * @param {string[]} remarks
 * @returns {Record<string, string>}
 */
export function originalsIn(remarks) {
  return Object.fromEntries(remarks.flatMap(originalIn).map(([name, text]) => [name, text.trim()]));
}
/**
 * What the remarks above its position say of a study.
 * @param {string[]} remarks
 */
export const headOf = remarks => ({originals: originalsIn(remarks), origin: originIn(remarks)});
/**
 * A part of a game has the game's names in their own letters too, as long as its tags are the game's, what speaks
 * against its stipulation, and the language of its moves.
 * @param {string[]} lines
 * @param {import('./types.js').Study} study
 */
export function withWholeGame(lines, {origin, originals, tags}) {
  const tail = partHere(origin), game = tail && wholeGames(lines).get(tail.game);
  if (!game) return;
  for (const [name, text] of Object.entries(originalsIn(game.remarks)))
    if (originals[name] === undefined && tags[name] === game.tags[name]) originals[name] = text;
  origin.against = [...origin.against, ...remarksOfKind(game.remarks, 'doubted').map(({said}) => said)];
  origin.letters = origin.letters || remarksOfKind(game.remarks, 'letters').map(({said}) => said).join('');
}
/**
 * A study has the text of its own tag line that was refused, and not what an earlier study left.
 * @param {import('./types.js').Script} script
 */
export function withRefusedTags({studies, refused}) {
  let at = 0;
  for (const {line, text} of refused) {
    while (at < studies.length && studies[at].end <= line) at++;
    const study = studies[at], [, name, own] = /^ *tag +(Event|White|Black|Site|Date|Round) +(.*?) *$/.exec(text) || [];
    if (name && study && study.from < line && (study.place[name] === undefined || study.tags[name] === '?'))
      study.originals[name] = own.replace(/[\0-\x1f\x7f]/g, ' ');
  }
}
