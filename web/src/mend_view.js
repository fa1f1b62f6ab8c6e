// @ts-check
// A game that was read up to a bad move, or not at all: why, and a field to mend its text.
import {remedyOf} from './cut_game.js';
import {mended} from './documents.js';
import {button, h} from './dom.js';
import {messageAt} from './head_view.js';
import {whyLeftOut} from './left_out.js';
import {
  beingMended,
  endHere,
  leaveMending,
  mendAt,
  openLeftOut,
  readAgain,
  readLeftOut,
  unreadText
} from './mending.js';
import {aimSaid, withAim} from './said_aim.js';
import {app, doc} from './state.js';
/** @typedef {import('./types.js').Study} Study @typedef {import('./cut_game.js').CutText} CutText */

/**
 * The text of a game, apart at what is wrong with it: at a place among its moves, else at its position, or where its
 * stipulation would stand.
 * @param {CutText} cut
 * @param {import('./left_out.js').LeftOut} game
 * @returns {CutText}
 */
function cutAtFault(cut, {column, why}) {
  const text = cut.text + cut.rest, at = text.search(/Stipulation/.test(why) ? /^(?![[%;\s])/m : /^[ \t]*\[FEN "/m);
  return column || at < 0 ? cut : {text: text.slice(0, at), rest: text.slice(at)};
}
/**
 * The bad move, or tag, is chosen in the field, which is scrolled to its line.
 * @param {HTMLTextAreaElement} field
 * @param {CutText} game
 */
function showPlace(field, {text, rest}) {
  const [bad] = /^(\s*\[[^\n]*|\S*)/.exec(rest) || [''], rows = field.value.split('\n').length;
  field.setSelectionRange(text.length, text.length + bad.length);
  requestAnimationFrame(() => {
    field.scrollTop = field.scrollHeight / rows * (text.split('\n').length - 3);
  });
}
/**
 * A field with the text of a game, or with what was typed in its place and not read yet.
 * @param {string} id
 * @param {CutText} game
 */
function textField(id, game) {
  const text = game.text + game.rest;
  const field = h('textarea',
    {id, spellcheck: 'false', 'aria-label': 'The text of the game', oninput: () => mended.keep(text, field.value)});
  field.value = mended.typedFor(text);
  showPlace(field, game);
  return field;
}
/**
 * Why a text was not read to its end, as long as nothing is said of a text that was mended since.
 * @param {string} where
 * @param {string} before
 * @param {string} why
 */
const reasonOf = (where, before, why) =>
  (app.say && app.say.where === where && !app.say.good ? '.' : [before, h('b', {}, why), '.']);
/** @param {Study} s */
export function cutView(s) {
  const cut = s.origin && s.origin.cut, kept = cut && unreadText();
  if (!cut || !kept) return null;
  const field = textField('cutText', kept);
  return h('div', {id: 'cut'},
    h('p', {class: 'note'}, `The moves up to ${cut.move} were read`,
      reasonOf('cut', `. In line ${cut.game.line}, column ${cut.game.column} stands `, whyLeftOut(cut.game))),
    field, messageAt('cut'),
    h('p', {class: 'row'},
      button('Read it again', 'the text as it stands in the field', () => readAgain(field.value),
        {id: 'readAgain', class: 'main'}),
      button('End the study here', 'the moves that were read are the whole solution', endHere, {id: 'endHere'})));
}
/** The game that is only looked at, and can be opened up to its bad move. */
let looked = {lines: /** @type {string[]} */ ([]), line: -1};
/**
 * A look at a game that was left out, which changes nothing: its text, and what is wrong with it. Whether it is kept.
 * @param {number} line
 */
export function lookAt(line) {
  const {lines} = doc(), remedy = remedyOf(lines, line);
  looked = {lines, line: remedy === 'open' ? line : -1};
  if (remedy) mendAt(lines, line);
  return remedy !== '';
}
/** @param {number} line */
function openLooked(line) {
  looked = {lines: [], line: -1};
  openLeftOut(line);
}
/** @param {{lines: string[], line: number}} place */
const upToButton = ({lines, line}) => lines === looked.lines && line === looked.line &&
  button('Open it up to there', 'the moves before the bad one, as a study', () => openLooked(line), {id: 'openUpTo'});
/**
 * The game is read with what one of its comments says.
 * @param {NonNullable<ReturnType<typeof beingMended>>} it
 * @param {HTMLTextAreaElement} field
 */
function aimButton({game, cut}, field) {
  const aim = game.why === 'NoStipulation' ? aimSaid(cut) : '';
  return aim &&
    button(`Read it as: ${aim}`, `with {${aim}} before the first move, as its comment says`,
      () => readLeftOut(withAim(field.value, aim)), {id: 'readSaid'});
}
/** The text of a game that was left out. */
export function gameView() {
  const it = beingMended();
  if (!it) return null;
  const field = textField('gameText', cutAtFault(it.cut, it.game)), {game, line, column} = it.game,
        place = column ? `, for what stands in line ${line}, column ${column}` : '';
  return h('div', {id: 'gameMended'},
    h('p', {class: 'note'}, `Game ${game} was left out${place}`, reasonOf('game', ': ', it.why)), field,
    messageAt('game'),
    h('p', {class: 'row'},
      button('Read this game', 'the text as it stands in the field', () => readLeftOut(field.value),
        {id: 'readGame', class: 'main'}),
      upToButton(it.place), aimButton(it, field),
      button('Close', 'the game stays left out', leaveMending, {id: 'closeGame'})));
}
