// @ts-check
// The games as they are saved: those of the program with what is the author's - his names and tags, his result, his
// comments and glyphs - in them; with the program's marks or without.
import {stampOf, unreadIn} from './stamps.js';
import {AT_MOVES, RESULT, TOKEN, isMoveText, looseMove, oneLine, plain} from './notes.js';
import {cutAt, ownRemark} from './remarks.js';
import {SAVED, isOfFile} from './imported.js';
import {numberText} from './saved_numbers.js';
import {pauses} from './pauses.js';
import {tailName} from './tails.js';
import {aimText} from './words.js';
/** @typedef {import('./types.js').Study} Study @typedef {import('./types.js').Script} Script */
/**
 * A move of a game with what stands around it, or the start.
 * @typedef {{key: string, opens: string, number: string, san: string, glyphs: string[], comments: string[],
 *   closes: string}} Item
 */
/** What is said at a move: `marks` are glyphs of the author or the program, `accepted` a judge's tick at a dual. */
/** @typedef {{comments: string[], glyphs: string[], marks: string[], accepted: boolean}} Note */

/**
 * A game of the program, taken apart.
 * @param {string} movetext
 */
function itemsOf(movetext) {
  const item = (/** @type {string} */ key, opens = '', number = '', san = '') =>
    /** @type {Item} */ ({key, opens, number, san, glyphs: [], comments: [], closes: ''});
  const items = [item('')], outer = /** @type {[string[], string[]][]} */ ([]);
  let at = /** @type {string[]} */ ([]), before = at, opens = '', number = '', result = '';
  for (const [, brace, , nag, bracket, , symbol] of movetext.matchAll(TOKEN)) {
    const last = items[items.length - 1];
    if (bracket === '(') {
      outer.push([at, before]);
      [at, opens] = [before, opens + '('];
    } else if (bracket === ')') {
      [at, before] = outer.pop() || [at, before];
      last.closes += ')';
    } else if (nag) last.glyphs.push(nag);
    else if (brace !== undefined) last.comments.push(oneLine(brace));
    else if (symbol && RESULT.test(symbol)) result = symbol;
    else if (symbol && isMoveText(symbol)) {
      [before, at] = [at, [...at, plain(symbol)]];
      items.push(item(at.join(' '), opens, number, symbol));
      [opens, number] = ['', ''];
    } else if (symbol) number = symbol;
  }
  return {items, result};
}
/**
 * Texts as one: a sign comes between two where the first has none at its end.
 * @param {string[]} texts
 * @param {string} [sign]
 */
export const joined = (texts, sign = '.') => texts.filter(Boolean).reduce(
  (all, text) => (all ? all + (/[.!?:;,\])]$/.test(all) ? ' ' : `${sign} `) + text : text), '');
/**
 * The moves of a path without what only some notations say.
 * @param {string} path
 */
const loose = path => path.split(' ').map(looseMove).join(' ');
/**
 * The squares of a path, without letters of pieces, which may be those of another language.
 * @param {string} path
 */
export const squaresOf = path => path.split(' ').map(move => looseMove(move).replace(/^[A-Z]|[A-Z]$/g, '')).join(' ');
/**
 * The keys by their squares, where only one has these.
 * @param {Set<string>} keys
 */
function bySquares(keys) {
  const found = /** @type {Map<string, string | undefined>} */ (new Map());
  for (const key of keys) found.set(squaresOf(key), found.has(squaresOf(key)) ? undefined : key);
  return found;
}
/** @returns {Note} */
const noNote = () => ({comments: [], glyphs: [], marks: [], accepted: false});
/**
 * The notes of remarks at the moves of a game; those at moves that are not in it are left out.
 * @param {string[]} remarks
 * @param {{key: string}[]} items
 */
export function notesAt(remarks, items) {
  const notes = /** @type {Map<string, Note>} */ (new Map()), keys = new Set(items.map(item => item.key)),
        nearly = new Map([...keys].reverse().map(key => [loose(key), key])), squares = bySquares(keys);
  for (const {word: kind, rest} of remarks.map(ownRemark)) {
    const [moves, text] = cutAt(rest, ': ');
    if (!AT_MOVES.has(kind) || !text) continue;
    const key = moves === '-' ? '' : moves,
          at = keys.has(key) ? key : nearly.get(loose(key)) || squares.get(squaresOf(key));
    if (at === undefined) continue;
    const note = notes.get(at) || noNote(), last = note.comments.length - 1;
    if (kind === 'mark') note.marks.push(text);
    else if (kind === 'accepted') note.accepted = true;
    else if (/^\$\d+$/.test(text)) note.glyphs.push(text);
    else if (kind === 'note+' && last >= 0) note.comments[last] += ` ${text}`;
    else note.comments.push(text);
    notes.set(at, note);
  }
  return notes;
}
/** Of the glyphs those up to `$9` judge the move, and a move has one of them; the others judge the position. */
const judgesMove = (/** @type {string} */ glyph) => Number(glyph.slice(1)) < 10;
/**
 * The glyphs of a move: of those that judge it the author's first one, else the program's.
 * @param {Item} item
 * @param {Note} note
 * @param {boolean} marks
 */
function glyphsOf(item, note, marks) {
  const open = marks ? note.marks : note.marks.filter(glyph => !item.glyphs.includes(glyph)),
        [first] = [...note.glyphs.filter(judgesMove), ...open, ...(marks ? item.glyphs : [])];
  return [...new Set([first, ...note.glyphs.filter(glyph => !judgesMove(glyph))])].filter(Boolean);
}
/**
 * The program's comments at a move; behind a dual that a judge accepts `accepted`.
 * @param {Item} item
 * @param {Note} note
 */
const ourComments = ({comments}, {accepted}) =>
  (accepted ? comments.map(text => text.replace(/dual \d+$/, '$&; accepted')) : comments);
/** Between the author's words at a move and the program's: it goes with these once the game is read again. */
const BEFORE_OURS = ';';
/**
 * The words of a game. A number of Black's move only stands where something stands between it and White's.
 * @param {Item[]} items
 * @param {Map<string, Note>} notes
 * @param {boolean} marks
 * @param {string[]} said      what the page says before the first move
 */
function wordsOfGame(items, notes, marks, said) {
  let follows = false;
  return items.flatMap(item => {
    const note = notes.get(item.key) || noNote(), ours = marks ? ourComments(item, note) : [],
          comment = item.san ? joined([joined(note.comments), ...ours], BEFORE_OURS)
                             : joined([...ours, ...said, ...note.comments]),
          number = follows && !item.opens && /\.\.\.$/.test(item.number) ? '' : item.number;
    follows = Boolean(item.san && !comment && !item.closes);
    const words =
      [item.opens + number, item.san, ...glyphsOf(item, note, marks), comment && `{${comment}}`].filter(Boolean);
    return words.length ? [...words.slice(0, -1), words[words.length - 1] + item.closes] : [];
  });
}
/**
 * The author's own tags.
 * @param {string[]} remarks
 */
const tagsIn = remarks =>
  remarks.map(ownRemark).filter(({word}) => word === 'tag').map(({rest}) => cutAt(rest, ' ')).filter(([
    name
  ]) => /^\w+$/.test(name));
/**
 * The result that the author states in the tag and behind the moves; `*` states none, so the program's stands there,
 * but in a game without its marks.
 * @param {string[]} remarks
 * @param {boolean} marks
 */
function resultsIn(remarks, marks) {
  const stated = (/** @type {string} */ text) => (text === '*' && marks ? '' : text),
        [, ofTag = ''] = tagsIn(remarks).find(([name]) => name === 'Result') || [],
        {rest} = remarks.map(ownRemark).find(({word}) => word === 'result') || {rest: ''};
  const tag = stated(ofTag), behind = stated(rest);
  return {tag: tag || behind, behind: behind || (RESULT.test(tag) ? tag : '')};
}
/**
 * A game as the program writes it, with the tags and notes of remarks put in: one comment at a move, the author's words
 * first, and before the first move the program's, by which the game is read again.
 * @param {string} game
 * @param {string[]} remarks
 * @param {boolean} [marks]      without them nothing stands in it that the program says
 * @param {string[]} [said]      before the first move
 */
export function withNotes(game, remarks, marks = true, said = []) {
  const cut = game.indexOf('\n\n') + 1, {items, result} = itemsOf(game.slice(cut)), notes = notesAt(remarks, items),
        {tag, behind} = resultsIn(remarks, marks);
  const tags = tagsIn(remarks).filter(([name]) => name !== 'Result');
  if (marks && !tags.length && !notes.size && !said.length && !tag) return game;
  const head = tag ? game.slice(0, cut).replace(/^\[Result ".*"\]$/m, () => `[Result "${tag}"]`) : game.slice(0, cut),
        more = tags.map(([name, text]) => `[${name} "${text.replace(/["\\]/g, '\\$&')}"]\n`).join(''),
        words = [...wordsOfGame(items, notes, marks, said), behind || result];
  return head + more + '\n' + wrap(words.join(' ')) + '\n\n';
}
/**
 * Words in lines of at most 79 letters.
 * @param {string} text
 */
function wrap(text) {
  const lines = [''];
  for (const word of text.trim().split(/\s+/)) {
    const last = lines[lines.length - 1];
    if (last && last.length + 1 + word.length > 79) lines.push(word);
    else lines[lines.length - 1] = last ? `${last} ${word}` : word;
  }
  return lines.join('\n');
}

/** The program's word for a study, in the comment before its moves. */
const WORD = /^((?:White|Black) to (?:win|draw|mate in \d+): )(?:wrong|sound|unsound \d+)(?=, )/;
/**
 * A game with the page's verdict in place of the program's word, as far as the facts of the study are known.
 * @param {string} game
 * @param {string} verdict
 */
function judged(game, verdict) {
  const cut = game.indexOf('\n\n') + 2, at = game.indexOf('{', cut), end = game.indexOf('}', at);
  if (!verdict || at !== cut) return game;
  const said = game.slice(at + 1, end).replace(/\s+/g, ' '), now = said.replace(WORD, (_, aim) => aim + verdict);
  return said === now ? game : `${game.slice(0, at + 1)}${now}${game.slice(end)}`;
}
/**
 * The verdict on a study as the page has it; empty where only its faults are counted.
 * @param {Script} script
 * @param {Study} study
 * @param {import('./types.js').Review | null} review
 */
function verdictOf(script, study, review) {
  const {text} = stampOf(script, study, review);
  return unreadIn(script, study) || (/^(not judged|\d+ faults?)$/.test(text) ? '' : text);
}
/** How a comment before the first move states what is to be done. */
const STATED =
  new RegExp('^\\(?((White|Black) (to (play and |move and )?(win|draw|mate)|wins|draws|mates)|mate in|win\\b|' +
      'draw\\b|#\\d|[+=](?=[\\s:.,;!)]|$))',
    'i');
/**
 * Whether the words before the first move state what is to be done.
 * @param {{comments: string[]}} words
 */
export const statesAim = ({comments}) => comments.some(text => STATED.test(text.trim()));
/**
 * Whether an import might take words before the first move for what is to be done.
 * @param {string} text
 */
const mayState = text => STATED.test(text.trim()) || /^\S*#/.test(text.trim());
/**
 * Whether the author's own tags and comments say what is to be done. Those of a game that was saved with marks do not,
 * since the program's words stood in its comment; nor do tags in front of words that might be read as something else.
 * @param {Study} study
 * @param {string[]} remarks
 */
function isStated({origin, aim}, remarks) {
  const first = remarks.filter(line => line.startsWith('#! note -: ')).map(line => line.slice('#! note -: '.length));
  if (aim && first.some(text => text.startsWith(aimText(aim)))) return true;
  return origin && isOfFile(origin) &&
    ([SAVED, 'comment'].includes(origin.source) ? statesAim({comments: first}) : !first.some(mayState));
}
/**
 * A study's games as they are saved, the last with the page's verdict. A part of a game says which it is, and with the
 * program's marks a game at another place than in its file its number there; without them they say what is to be done,
 * unless the author does, and that a study was not read to its end.
 * @param {Script} script
 * @param {Study} study
 * @param {boolean} marks
 * @param {import('./types.js').Review | null} review
 * @param {number} place      of its first game among all that are saved
 */
function gamesOfStudy(script, study, marks, review, place) {
  const remarks = script.lines.slice(study.head, study.from), unread = unreadIn(script, study).replace(/[{}]/g, ''),
        part = tailName(study);
  const words = study.aim && !marks && !isStated(study, remarks) ? aimText(study.aim) : '',
        said = [words, part, marks ? numberText(study, place) : unread].filter(Boolean),
        verdict = marks ? verdictOf(script, study, review).replace(/[{}]/g, '') : '', last = study.games.length - 1;
  return study.games.map(
    (game, i) => withNotes(inOwnLetters(study, i === last ? judged(game, verdict) : game), remarks, marks, said));
}
/**
 * @param {Script} script
 * @param {boolean} [marks]
 * @param {(import('./types.js').Review | null)[]} [reviews]      of the studies, as far as they are known
 * @param {number} [first]      the place of the first game
 */
export function savedGames(script, marks = true, reviews = [], first = 1) {
  const games = /** @type {string[]} */ ([]);
  for (const [i, study] of script.studies.entries())
    games.push(...gamesOfStudy(script, study, marks, reviews[i] || null, first + games.length));
  return games.join('');
}
/**
 * The same, with pauses between the games of a long script.
 * @param {Script} script
 * @param {boolean} marks
 * @param {(import('./types.js').Review | null)[]} [reviews]
 */
export async function savedInParts(script, marks, reviews = []) {
  const rest = pauses(), games = /** @type {string[]} */ ([]);
  for (const [i, study] of script.studies.entries()) {
    games.push(...gamesOfStudy(script, study, marks, reviews[i] || null, 1 + games.length));
    if (rest.isDue()) await rest.pause();
  }
  return games.join('');
}
/**
 * A game with the texts of its tags in their own letters.
 * @param {Study} study
 * @param {string} game
 */
function inOwnLetters({originals}, game) {
  const own = (/** @type {string} */ name) => originals[name].replace(/["\\]/g, '\\$&');
  return game.replace(/^\[(\w+) ".*"\]$/gm, (tag, name) => (originals[name] ? `[${name} "${own(name)}"]` : tag));
}
