// @ts-check
// The texts: the game as PGN, the script, and refused lines.
import {button, h, smallButton} from './dom.js';
import {change, goStudy} from './actions.js';
import {copyLink} from './copying.js';
import {app, doc} from './state.js';
import {tidy} from './edits.js';
import {copyStudy, dropStudy, moveStudy} from './study_edits.js';
import {byCause, unreadNote} from './entries.js';
import {unreadIn} from './stamps.js';
import {table} from './table.js';
import {messageAt} from './head_view.js';
import {diagramView} from './diagram.js';
import {whyCut} from './left_out.js';
import {unfinished} from './documents.js';
import {limitOf} from './limits.js';
import {openText} from './opening.js';
import {counted, grouped, reason} from './words.js';
import {lettersIn} from './keep.js';
import {knownEntries, knownFacts} from './list_facts.js';
import {numbersOf, placeAtRow} from './numbering.js';
import {savedGames} from './saved_games.js';
/** @typedef {import('./types.js').Study} Study @typedef {import('./types.js').Refused} Refused */

const open = {
  pgn: false,
  script: false
};
/** What was typed in the script and not run yet stays there, as long as the document is the same. */
let unrun = /** @type {{text: string, lines: string[]} | null} */ (null);
/** Once the document is another it is gone. */
function forgetUnrun() {
  if (!unrun || unrun.lines === doc().lines) return;
  unfinished.drop('script', unrun.text);
  unrun = null;
}
/** @param {Study | undefined} s */
export function textsView(s) {
  return [
    doc().refused.length > 0 && refusedView(), h('p', {class: 'row act'}, diagramView(), s && studyButtons()),
    s && s.pgn && pgnView(s), scriptView(s)
  ];
}
/**
 * The game as it is saved, and how many games of the file it says nothing of.
 * @param {Study} s
 */
const pgnView = s => h('details', {
  open: open.pgn,
  id: 'pgnBox',
  ontoggle: (/** @type {any} */ e) => {
    open.pgn = e.target.open;
  }
},
  h('summary', {}, 'PGN'),
  unreadNote(doc()) && h('p', {class: 'note', id: 'pgnUnread'}, `Of this document ${unreadNote(doc())}.`),
  h('textarea', {id: 'pgn', readonly: true, 'aria-label': 'The game as PGN'},
    savedGames({...doc(), studies: [s]}, true, [knownFacts(doc()).reviews[doc().at]], placeInFile())));
/** The place of the game that is looked at among those of the saved file. */
const placeInFile = () => doc().studies.slice(0, doc().at).reduce((place, {games}) => place + games.length, 1);
/** A script with more letters is put into its field once that is opened. */
const LONG = 100000;
/**
 * What the field has: the script, or of one that is too long for it the lines of the study that is shown.
 * @param {Study | undefined} s
 */
function fieldText(s) {
  const {lines} = doc(), most = limitOf('script').most, letters = lettersIn(lines), isLong = letters > most;
  const note = isLong
    ? `The script has ${grouped(letters)} letters, and this field takes ${grouped(most)}: these are the lines of the ` +
      'study that is shown. Save script writes all of them.'
    : 'The script is the study: what you do writes its lines. It can be changed or pasted here, a PGN too.';
  return {
    isLong,
    note,
    isLate: letters > LONG,
    text: () => (isLong && s ? lines.slice(s.from, s.end) : lines).join('\n')
  };
}
/** @param {Study | undefined} s */
function scriptView(s) {
  forgetUnrun();
  const {isLong, isLate, note, text} = fieldText(s);
  const script = h('textarea', {
    id: 'script',
    spellcheck: 'false',
    readonly: isLong,
    'aria-label': 'The script',
    oninput: () => {
      unrun = {text: script.value, lines: doc().lines};
    }
  });
  const fill = () => {
    script.value = app.say && app.say.field === 'script' ? app.say.typed : unrun ? unrun.text : text();
  };
  const isOpen = open.script || doc().refused.length > 0 || (app.say && app.say.where === 'script');
  if (isOpen || !isLate) fill();
  const toggle = (/** @type {any} */ e) => {
    open.script = !e.target.parentNode.open;
    if (open.script && !script.value) fill();
  };
  return h('details', {id: 'scriptBox', open: isOpen}, h('summary', {onclick: toggle}, 'Script'),
    h('p', {class: 'note'}, note), script, messageAt('script'),
    h('div', {class: 'row'},
      button('Run the script', 'take the text as it stands', () => openText(script.value),
        {id: 'runScript', disabled: isLong}),
      s && app.view && tidyButton(s)));
}
/** @param {Study} s */
const tidyButton = s =>
  button(unreadIn(doc(), s) ? 'Tidy, without the refused lines' : 'Tidy', 'write this study anew in its shortest form',
    () => change(
      now => (app.view && now.studies[now.at] ? tidy(now.lines, now.studies[now.at], app.view.root) : null), 'script'),
    {id: 'tidy'});
const copy = () => change(now => copyStudy(now.lines, now.studies, now.at), 'script');
/** What is done with the study as a whole. */
const studyButtons = () => [smallButton('Copy link', 'a link that opens this study', copyLink, {id: 'copyLink'}),
  smallButton('Copy this study', 'one more of the same behind it', copy, {id: 'copyStudy'}),
  doc().studies.length > 1 && [
    moveButton('Move up', -1), moveButton('Move down', 1), placeField(),
    smallButton('Remove this study', 'take its lines out of the script', drop, {id: 'drop'})
  ]];
const drop = () => change(now => dropStudy(now.lines, now.studies, now.at), 'script');
/** @param {number} by */
const move = by => change(now => moveStudy(now.lines, now.studies, now.at, by), 'script');
/** The row of this study in the list as the script has it, which can be written. */
function placeField() {
  const {at} = doc(), rows = knownEntries(doc());
  return h('label', {class: 'place'}, 'to place ', h('input', {
    id: 'studyPlace',
    type: 'number',
    min: 1,
    max: rows.length,
    value: rows.findIndex(row => row.at === at) + 1,
    onchange: (/** @type {any} */ e) => move(placeAtRow(rows, at, Math.round(e.target.valueAsNumber)) - at)
  }),
    ` of ${rows.length}`);
}
/**
 * @param {string} text
 * @param {1 | -1} by
 */
const moveButton = (text, by) => smallButton(text, 'this study among those of the script', () => move(by),
  {id: by < 0 ? 'studyUp' : 'studyDown', disabled: !doc().studies[doc().at + by]});
/** So many refused lines are listed: one wrong word at the top of a long script has all below it refused. */
const MOST_REFUSED = 200;
function refusedView() {
  const list = doc().refused, studies = doc().studies, more = list.length - MOST_REFUSED;
  const of = (/** @type {number} */ line) => studies.findIndex(s => s.from <= line && line < s.end);
  const cells =
    (/** @type {Refused[]} */[r, ...rest]) => [`${r.line + 1}`, of(r.line) < 0 ? '–' : studyLink(of(r.line)),
      h('code', {}, r.text.slice(0, 80)), [reasonOf(of(r.line), r), rest.length > 0 && followView(rest)]];
  return [
    h('h2', {id: 'refused'},
      `${counted(list.length, 'line')} of the script ${list.length === 1 ? 'was' : 'were'} refused`),
    table(['Line', 'Study', 'Text', 'Reason'], byCause(list.slice(0, MOST_REFUSED), of), cells),
    more > 0 &&
      h('p', {class: 'note'}, `These are the first ${MOST_REFUSED}; ${counted(more, 'more line')} below them.`)
  ];
}
/**
 * Why a line was refused; that of a bad move by what is wrong with it in its game.
 * @param {number} at      its study
 * @param {Refused} r
 */
function reasonOf(at, r) {
  const {cut = null} = at < 0 ? {} : doc().studies[at].origin;
  return whyCut(r.text, cut) || reason(r.reply);
}
/** @param {Refused[]} rest */
const followView = rest =>
  h('details', {}, h('summary', {class: 'note'}, `${counted(rest.length, 'more line')} for want of it`),
    rest.map(r => h('div', {}, `${r.line + 1}: `, h('code', {}, r.text.slice(0, 80)))));
/** @param {number} i */
const studyLink = i => button(numbersOf(doc())[i] || '\u2013', 'show it', () => goStudy(i),
  {class: 'link', 'aria-current': i === doc().at && 'true'});
