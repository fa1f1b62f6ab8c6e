// @ts-check
// What came in with a PGN: what was left out or is not kept, and how it can be read again.
import {h, smallButton} from './dom.js';
import {track} from './actions.js';
import {CODE_PAGES, textIn} from './code_pages.js';
import {remedyOf} from './cut_game.js';
import {joinView, nameOf} from './joining.js';
import {leftOutBy} from './left_out.js';
import {asked, gamesWithoutAim, openHeld, readAs} from './mending.js';
import {lastOpened, openPgn} from './opening.js';
import {app, doc, say, services} from './state.js';
import {partHere} from './tails.js';
import {aimText, counted, readAim} from './words.js';
/** @typedef {import('./opening.js').Source} Source */

const AIMS = ['white win', 'white draw', 'black win', 'black draw'];
/**
 * The four stipulations that a game may have.
 * @param {string} title
 * @param {(words: string) => any} open
 */
const aimButtons = (title, open) =>
  AIMS.map(words => smallButton(aimText(readAim(words)), title, () => open(words), {'data-import': words}));
/**
 * The games that state no stipulation are read with one.
 * @param {number} count
 * @param {(aim: string) => any} read
 */
function aimsView(count, read) {
  const [doNot, them] = count === 1 ? ['does not', 'it'] : ['do not', 'them'];
  return count > 0 &&
    h('p', {class: 'row', id: 'aims', role: 'group', 'aria-label': 'The stipulation of games that say none'},
      `${counted(count, 'game')} of this PGN ${doNot} say what is to be done. Read ${them} as: `,
      aimButtons('read the PGN again, with this stipulation where none is said', read));
}
/**
 * The games of the document alone, where it has their texts, whenever its PGN was opened; else the PGN is read again.
 * @param {Source | null} last
 */
function gamesView(last) {
  const {count, kept} = gamesWithoutAim();
  if (last && !(last.id && kept)) {
    const {bytes, name, id, waiting, how} = last;
    return aimsView(id ? count : waiting, aim => track(openPgn(bytes, 'board', name, {...how, aim})));
  }
  return kept && aimsView(count, readAs);
}
/** The code page that was chosen once, though it undoes changes, and the lines that it would undo. */
let chosen = {code: '', lines: /** @type {string[]} */ ([])};
/**
 * The code pages in which the names of a file can be read, each with the first name as it reads there. Where the
 * document was changed since the file was opened, the first press says what the second one undoes.
 * @param {Source} again
 */
function codesView({bytes, name, id, how, foreign, opened}) {
  const {lines} = doc(), isChanged = id !== '' && lines !== opened;
  const readAnew = async (/** @type {typeof how} */ now) => {
    await openPgn(bytes, 'board', name, now);
    if (!app.say) say('board', 'The PGN was read again. Undo brings back what was changed since it was opened.', true);
    services.show();
  };
  const choose = (/** @type {string} */ code) => {
    if (!isChanged || isChosen(code)) return track(readAnew({...how, code}));
    chosen = {code, lines};
    services.show();
  };
  const isChosen = (/** @type {string} */ code) => chosen.code === code && chosen.lines === lines;
  const codeButton = (/** @type {[string, string]} */[code, words]) =>
    smallButton(`${words}: ${isChosen(code) ? 'read it, and undo the changes' : textIn(foreign[0].name, code)}`,
      'read the PGN again, in this code page', () => choose(code),
      {'data-code': code, 'aria-pressed': `${how.code === code}`, class: `chip act${how.code === code ? ' on' : ''}`});
  return foreign.length > 0 &&
    h('p', {class: 'row', id: 'codes', role: 'group', 'aria-label': 'The code page of the names'},
      `Read the ${foreign[0].inWords ? 'comments' : 'names'} in another code page: `, CODE_PAGES.map(codeButton),
      CODE_PAGES.some(([code]) => isChosen(code)) &&
        h('span', {class: 'note', id: 'undoes'},
          'The file is then read anew, without what was changed since it was opened. One more press does so.'));
}
/** The stipulation of a game with a bad move that states none. */
function askView() {
  const ask = asked();
  return ask &&
    h('p', {class: 'row', id: 'ask', role: 'group', 'aria-label': 'The stipulation of this game'},
      `Game ${ask.game} does not say what is to be done. Open it as: `,
      aimButtons('open it up to the bad move', ask.open));
}
/** @param {string} note */
function noteView(note) {
  const file = doc().name ? `${doc().name}.pgn` : 'a file of another name';
  const without = / Left out: /.test(note) ? ', without the games that were left out' : '',
        ends = new Set(doc().studies.filter(s => partHere(s.origin)).map(s => s.origin.game));
  const only = ends.size > 0
    ? ` Of ${ends.size > 1 ? 'games' : 'game'} ${[...ends].join(', ')} it writes only what is ` +
      'judged, from four men without castling on: keep the file.'
    : '';
  return note && h('p', {class: 'note', id: 'notKept'}, `${note} Save PGN writes ${file}${without}.${only}`);
}
const MOST_OFFERED = 5;
/**
 * If no game of a PGN was read, the games that can be read up to a bad move, and others whose text can be mended.
 * @param {Source} again
 */
function heldView(again) {
  const rows =
    again.held.flatMap((text, line) => (leftOutBy(text) ? [{text, line, is: remedyOf(again.held, line)}] : []));
  const open = (/** @type {(typeof rows)[0]} */ {text, line}) => {
    const game = leftOutBy(text)?.game;
    return smallButton(
      `game ${game}`, 'what was read of it, and its text', () => openHeld(again, line), {'data-held': game});
  };
  const row = (/** @type {string} */ id, /** @type {string} */ words, /** @type {string} */ remedy) => {
    const games = rows.filter(({is}) => is === remedy).slice(0, MOST_OFFERED);
    return games.length > 0 &&
      h('p', {class: 'row', id, role: 'group', 'aria-label': words}, `${words}: `, games.map(open));
  };
  return [row('upTo', 'Open up to the bad move', 'open'), row('toMend', 'Mend the text of', 'mend')];
}
/**
 * Which PGN brought no study, and why; and that the study below is not of it.
 * @param {Source} last
 * @param {boolean} anew      whether a new set-up is shown
 */
function triedText({name, said}, anew) {
  const below = !anew && doc().studies.length > 0;
  return `${name || 'What was pasted'}: no study could be read. ${said}${
    below ? ` What stands below is another document, ${nameOf(doc())}, as it was.` : ''}`;
}
/**
 * What of a PGN was left out and is not kept; and where games only lack a stipulation, the four that they can have,
 * also beside a set-up where no game was read yet.
 * @param {boolean} anew      whether a new set-up is shown
 */
export function importView(anew) {
  const last = lastOpened(),
        parts = [gamesView(last), ...(last ? [...(last.id ? [] : heldView(last)), codesView(last)] : [])];
  const isCoded = last !== null && last.foreign.length > 0 && !last.how.code;
  if (last && !last.id && parts.some(Boolean))
    return [h('p', {class: 'note', id: 'tried'}, triedText(last, anew)), ...parts, askView()];
  return anew ? null : [noteView(doc().note), ...parts, askView(), joinView(isCoded)];
}
