// @ts-check
// Two files as one document: the studies of the one that was opened come behind those of the document before.
import {h, smallButton} from './dom.js';
import {change, track} from './actions.js';
import {learn} from './answer_cache.js';
import {linesOf, openAgain} from './documents.js';
import {studyName} from './entries.js';
import {freshId} from './keep.js';
import {joinedNote} from './joined_note.js';
import {movedGames, numberedApart, numbersOf} from './numbering.js';
import {evaluate} from './running.js';
import {fensOf} from './script.js';
import {app, doc, say, services} from './state.js';
import {joinedLines} from './study_edits.js';
import {unjudged} from './unmarked.js';
import {counted} from './words.js';
/** @typedef {import('./types.js').Doc} Doc @typedef {import('./types.js').Script} Script */
/** @typedef {Script & {note: string, name: string}} Kept */

/** The document that was opened last, and the one that stood there before. */
let opened = /** @type {{id: string, before: Doc} | null} */ (null);
/**
 * Offers to join them, where a kept document with studies stood there before.
 * @param {Doc} before
 */
export function offerJoining(before) {
  const isKept = before.studies.length > 0 && before.id !== '' && before.id !== app.looked;
  if (before.id !== doc().id) opened = isKept ? {id: doc().id, before} : null;
}
/**
 * The name of the file that a document was opened from, or its title.
 * @param {Kept} d
 */
export const nameOf = d => d.name.replace(/\.checked$/, '') || studyName(d.studies[0]);
/**
 * What is said of a PGN, and the name of its file.
 * @param {Kept} d
 */
const noteOf = d => ({note: d.note, name: d.name ? `${nameOf(d)}.pgn` : nameOf(d)});
/**
 * The joined document is saved under another name than either file.
 * @param {string} name      of the first
 */
export const joinedName = name => name && `${name.replace(/\.(checked|joined)$/, '')}.joined`;
/**
 * The lines of two documents as one, with numbers that go on, and what is said of it.
 * @param {Kept} first
 * @param {Kept} second
 */
async function behind(first, second) {
  const lines = joinedLines(first, second);
  await learn(lines);
  const anew = numberedApart(lines);
  await learn(anew);
  const note = joinedNote(noteOf(first), noteOf(second), anew, movedGames(lines, anew));
  return {lines: anew, note, name: joinedName(first.name)};
}
/**
 * The studies that are shown come behind those of the document before, which is shown then.
 * @param {Doc} second
 * @param {Doc} before
 */
async function join(second, before) {
  await openAgain(before.id);
  if (doc().id === second.id || !doc().studies.length) return;
  const first = doc(), at = first.studies.length, both = await behind(first, second);
  const done = await change(now => (now.lines !== first.lines ? null : {...both, at, path: 'root', lenient: true}));
  if (!done || doc().studies.length <= at) return;
  const number = numbersOf(doc())[at];
  say('board',
    `The studies of ${nameOf(second)} stand behind those of ${nameOf(before)}${
      number && `, from No. ${number} on`}. Undo takes them away again.`,
    true);
  services.show();
}
/**
 * The studies of lines: as the program reads them, or where their tables lack as if it accepted each line.
 * @param {string[]} lines
 */
async function scriptOf(lines) {
  await learn(lines);
  return (await services.tables.lacking(fensOf(lines))).length ? unjudged(lines) : evaluate(lines);
}
/** @param {import('./heads.js').Head[]} heads */
async function joinOnce(heads) {
  let all = /** @type {Kept | null} */ (null);
  const names = /** @type {string[]} */ ([]);
  for (const {id, name, note} of heads) {
    const next = {...await scriptOf(linesOf(id)), name, note};
    if (!next.studies.length) continue;
    const both = all && await behind(all, next);
    all = both ? {...await scriptOf(both.lines), ...both} : next;
    names.push(nameOf(next));
  }
  if (!all) return;
  const {lines, name, note} = all;
  app.setup = null;
  if (!await change(() => ({lines, name, note, id: freshId(), at: 0, path: 'root', lenient: true}))) return;
  say('board', `One document of ${names.join(', ')}, in this order; each of them stays as it was, too.`, true);
  services.show();
}
/**
 * One more document has the studies of these, those of the one that was changed first before the others.
 * @param {import('./heads.js').Head[]} heads
 */
export const joinKept = heads => track(joinOnce([...heads].sort((x, y) => x.time - y.time)));
/**
 * What joins the document that was opened with the one before.
 * @param {boolean} isCoded      whether its names have letters of an older code that was not chosen yet
 */
export function joinView(isCoded) {
  const second = doc();
  if (!opened || opened.id !== second.id || !second.studies.length || !second.judged) return null;
  const {before} = opened, n = counted(second.studies.length, 'study', 'studies');
  return h('p', {class: 'row', id: 'join', role: 'group', 'aria-label': 'The document before'},
    `Before stood ${nameOf(before)}, with ${counted(before.studies.length, 'study', 'studies')}. `,
    smallButton(`Put ${second.studies.length === 1 ? 'this study' : `these ${n}`} behind it`,
      'one document of both files', () => track(join(second, before)), {id: 'joinFiles'}),
    isCoded &&
      h('span', {class: 'note', id: 'codeFirst'},
        'Choose the code page of its letters first: not once they are joined.'));
}
