// @ts-check
// Games with a bad move, opened up to there, and others that were left out: mended, and read again.
import {change, track, work} from './actions.js';
import {learn} from './answer_cache.js';
import {asGame, cutBlock, cutOf, hasPosition, leftOutText, remedyOf, textIn, whyGone} from './cut_game.js';
import {mended} from './documents.js';
import {$} from './dom.js';
import {documentOf, isOfFile, noteAfter, studiesIn} from './imported.js';
import {freshId} from './keep.js';
import {canBeCut, leftOut, leftOutBy, whyLeftOut} from './left_out.js';
import {refuseLong} from './limits.js';
import {once} from './once.js';
import {checkedName, importPgn, withRemarks} from './opening.js';
import {withOwn} from './own_head.js';
import {app, doc, say, services, study} from './state.js';
import {endedHere, placeOf, wholeOf} from './whole_game.js';
import {aimWords} from './words.js';
/** @typedef {import('./types.js').Study} Study @typedef {import('./left_out.js').LeftOut} LeftOut */

/**
 * The lines of the one game of a text, as that of a place in the file; or why it has none.
 * @param {string} text
 * @param {{game: number, line: number}} place
 * @param {string} aim
 * @param {boolean} [upToFaults]
 * @returns {Promise<{lines: string[], out: LeftOut | null}>}
 */
async function read(text, {game, line}, aim, upToFaults = false) {
  const bytes = new TextEncoder().encode(text), lines = await importPgn(bytes, aim, upToFaults),
        [out = null] = leftOut(lines), made = asGame(await withRemarks(documentOf(lines), bytes), game, line);
  await learn(made);
  return {lines: made, out};
}
/**
 * The lines of a game up to its bad move; or why it has none. If it is left out for this move all the same, and not
 * with a stipulation, it has none before the move; else no part of it begins with four men before the move.
 * @param {LeftOut} game
 * @param {import('./cut_game.js').CutText} cut
 * @param {string} aim
 */
async function readUpTo(game, cut, aim) {
  const line = game.line - cut.text.split('\n').length + 1,
        {lines, out} = await read(`${(cut.text + cut.rest).trimEnd()}\n`, {...game, line}, aim, true);
  if (!out) return {lines: cutBlock(lines, game, cut), out};
  if (!canBeCut(out) || aim) return {lines: [], out};
  const asked = await read(`${(cut.text + cut.rest).trimEnd()}\n`, {...game, line}, 'white win', true);
  return {lines: [], out: asked.out ? out : {...out, why: 'NoStipulation', text: ''}};
}
/**
 * The stipulation that was chosen for games which state none, if one was.
 * @param {Study[]} studies
 */
function chosenAim(studies) {
  const [chosen] = studies.filter(s => s.aim && s.origin.source === 'option');
  return chosen && chosen.aim ? aimWords(chosen.aim) : '';
}
/**
 * The game for which a stipulation is asked, since it states none.
 * @type {{game: number, lines: string[], open: (words: string) => any} | null}
 */
let asking = null;
export const asked = () => (asking && asking.lines === doc().lines ? asking : null);
/**
 * A game that was left out is opened up to its bad move, in place of its remark.
 * @param {string[]} lines
 * @param {number} line
 * @param {{name?: string, note?: string, id?: string}} [more]      of a new document
 * @param {string} [aim]      where it states none
 */
async function openAt(lines, line, more = {}, aim = chosenAim(doc().studies)) {
  const {game, cut, end} = leftOutText(lines, line), before = doc();
  if (!game || !cut) return false;
  asking = null;
  if (!canBeCut(game) || !hasPosition(cut)) {
    mendAt(lines, line, more);
    return true;
  }
  let got = /** @type {{lines: string[], out: LeftOut | null}} */ ({lines: [], out: null});
  await work(async () => {
    got = await readUpTo(game, cut, aim);
  });
  if (got.out && got.out.why === 'NoStipulation') {
    asking = {game: game.game, lines: before.lines, open: words => track(openAt(lines, line, more, words))};
    services.show();
    return true;
  }
  if (!got.lines.length) {
    mendAt(lines, line, more);
    return true;
  }
  await putIn({lines, line, end, more}, got.lines);
  return true;
}
/**
 * A left-out game in a script: its lines, those of its remarks, and what a document of its own would have.
 * @typedef {{lines: string[], line: number, end: number, more: {name?: string, note?: string, id?: string}}} Place
 */
/**
 * The lines of a game take the place of the remark that it was left out.
 * @param {Place} place
 * @param {string[]} block
 */
async function putIn({lines, line, end, more}, block) {
  const before = doc(), at = more.id ? 0 : before.studies.filter(s => s.from < line).length,
        after = [...lines.slice(0, line), ...block, ...lines.slice(end)];
  app.setup = null;
  const note = noteAfter(more.note === undefined ? before.note : more.note, lines, after);
  const done =
    await change(now => (now === before ? {lines: after, at, path: 'root', lenient: true, ...more, note} : null));
  scrollTo(0, 0);
  return done;
}
/**
 * @param {number} line
 * @returns {Promise<boolean>} whether there is such a game
 */
export const openLeftOut = line => track(openAt(doc().lines, line));
/**
 * The same where no game of a PGN was read: what came in becomes the document.
 * @param {import('./opening.js').Source} source
 * @param {number} line
 */
export const openHeld = ({held, said, name}, line) =>
  track(openAt(held, line, {name: checkedName(name), note: said, id: freshId()}));

/** The text of the game that is looked at, as far as it was not read to its end. */
export function unreadText() {
  const s = study();
  return s ? textIn(doc().lines.slice(s.head, s.from)) : null;
}
/**
 * Other lines take the place of the study that is looked at, or of the game that it is a part of.
 * @param {Study} s
 * @param {string[]} block
 * @param {number} [place]      among the studies of the block, of the one that is looked at then
 */
const replaceStudy = (s, block, place = 0) => change(now => {
  if (now.studies[now.at] !== s) return null;
  const {first, head, end} = wholeOf(now, s), lines = [
    ...now.lines.slice(0, head), ...block, ...(end < now.lines.length ? [''] : []), ...now.lines.slice(end)
  ];
  return {lines, at: first + Math.max(0, place), path: 'root', lenient: true};
});
/**
 * The mended text of a game is read; where it has another bad move, up to there. What cannot be read is said.
 * @param {string} text
 * @param {{game: number, line: number}} place
 * @param {string} where
 * @param {string} [aim]      where it states none
 * @returns {Promise<string[]>} the lines of the game, or none
 */
async function readMended(text, place, where, aim = chosenAim(doc().studies)) {
  const typed = `${text.trimEnd()}\n`;
  if (refuseLong({id: `${where}Text`, value: text}, text)) return [];
  let got = /** @type {{lines: string[], out: LeftOut | null}} */ ({lines: [], out: null});
  await work(async () => {
    got = await read(typed, place, aim);
    const {out} = got;
    if (!out || !canBeCut(out) || !hasPosition({text: typed})) return;
    const row = new TextEncoder().encode(typed.split('\n')[out.line - 1]),
          letters = (/** @type {number} */ count) => new TextDecoder().decode(row.subarray(0, count)).length;
    const game = {...out, game: place.game, line: out.line + place.line - 1};
    got = await readUpTo(game, cutOf(typed, place.line, game, letters), aim);
  });
  if (isOneGame(got.lines)) return got.lines;
  say(where, got.out ? `${whyLeftOut(got.out)}.` : 'Write one game.');
  services.show();
  return [];
}
/**
 * Whether lines have the studies of one game: one, or the parts of a game with more than four men.
 * @param {string[]} lines
 */
const isOneGame = lines => lines.filter(line => line.startsWith('position ')).length === 1 ||
  (lines.some(line => line.startsWith('#> ')) && lines.filter(line => /^#> position /.test(line)).length === 1);
/**
 * The mended text of the study that is looked at is read.
 * @param {string} text
 */
export const readAgain = text => track((async () => {
  const s = study(), cut = unreadText(), aim = s && s.aim && !isOfFile(s.origin) ? aimWords(s.aim) : undefined;
  if (!s || !cut) return;
  const place = placeOf(doc().lines, s), read = await readMended(text, place, 'cut', aim);
  if (!read.length) return;
  const {first, head, end} = wholeOf(doc(), s), now = doc().lines.slice(head, end),
                      then = await readMended(cut.text + cut.rest, place, 'cut', aim),
                      {lines, gone, places} = withOwn(read, now, then);
  const same = lines.join('\n').trim() === now.join('\n').trim();
  if (same || await replaceStudy(s, lines, places[doc().at - first])) mended.drop(cut.text + cut.rest);
  if (same) say('cut', 'It was read again, and ends at the same move.', true);
  else if (gone.length) say('board', `Left out, since the game has the moves no more: ${gone.join('; ')}.`);
  else return;
  services.show();
})());

/**
 * The lines of the games that were left out since they state no stipulation, from the last on.
 * @param {string[]} lines
 */
const withoutAim = lines => lines
                              .flatMap((text, line) => {
                                const game = text.startsWith('#! game ') ? leftOutBy(text) : null;
                                return game && game.why === 'NoStipulation' ? [line] : [];
                              })
                              .reverse();
/** How many of them the document has, and whether it has the texts of all. */
export const gamesWithoutAim = () => countsWithoutAim(doc().lines);
const countsWithoutAim = once((/** @type {string[]} */ lines) => {
  const games = withoutAim(lines);
  return {count: games.length, kept: games.every(line => leftOutText(lines, line).cut)};
});
/**
 * The games that state no stipulation are read with this one; all else stays as it is.
 * @param {string} aim
 */
export const readAs = aim => track((async () => {
  const before = doc(), shown = before.studies[before.at];
  let {lines, at} = before;
  await work(async () => {
    for (const line of withoutAim(lines)) {
      const {game, cut, end} = leftOutText(lines, line);
      if (!game || !cut) continue;
      const from = game.line - cut.text.split('\n').length + 1,
            got = await read(`${(cut.text + cut.rest).trimEnd()}\n`, {game: game.game, line: from}, aim);
      if (!isOneGame(got.lines)) continue;
      lines = [...lines.slice(0, line), ...got.lines, ...lines.slice(end)];
      if (shown && line < shown.from) at += studiesIn(got.lines);
    }
  });
  await change(now => (now === before && lines !== now.lines ? {lines, at, lenient: true} : null));
})());

/**
 * The game that was left out whose text is being mended: beside which document, and what it says.
 * @type {{beside: string[], place: Place, game: LeftOut, why: string, from: number,
 *   cut: import('./cut_game.js').CutText} | null}
 */
let mending = null;
export const beingMended = () => (mending && mending.beside === doc().lines ? mending : null);
export function leaveMending() {
  mending = null;
  services.show();
}
/**
 * The text of a game that was left out is shown, to be mended.
 * @param {string[]} lines
 * @param {number} line
 * @param {Place['more']} [more]
 */
export function mendAt(lines, line, more = {}) {
  const {game, cut, end} = leftOutText(lines, line);
  if (!game || !cut) return;
  asking = null;
  const from = game.line - cut.text.split('\n').length + 1;
  mending = {beside: doc().lines, place: {lines, line, end, more}, game, why: whyGone(game, cut), from, cut};
  services.show();
  const field = $('gameText');
  if (field) field.focus();
}
/**
 * The mended text of a game that was left out is read.
 * @param {string} text
 */
export const readLeftOut = text => track((async () => {
  const it = beingMended(), lines = it ? await readMended(text, {game: it.game.game, line: it.from}, 'game') : [];
  if (!it || !lines.length) return;
  mending = null;
  if (await putIn(it.place, lines)) mended.drop(it.cut.text + it.cut.rest);
})());
/** The study ends where the game was read to. */
export function endHere() {
  const s = study();
  if (s)
    change(now => (now.studies[now.at] === s ? {lines: endedHere(now.lines, s), path: 'root', lenient: true} : null));
}
