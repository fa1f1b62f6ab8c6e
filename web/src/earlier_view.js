// @ts-check
// The panel 'Begin earlier': first the move of the opponent that led to the start, then the hero's before it.
import {$, button, h, put, smallButton, panelHead} from './dom.js';
import {change, track} from './actions.js';
import {app, doc, services, say, study} from './state.js';
import {aimBefore, movesBefore} from './earlier.js';
import {introductionText, longest} from './introduction.js';
import {withMoves} from './edits.js';
import {control, other, sideOf, squareName} from './fen.js';
import {notesMoved, plain} from './notes.js';
import {bareOf, insertions} from './turning.js';
import {hearNew} from './voice.js';
import {markSign} from './words.js';
/** @typedef {import('./earlier.js').Before} Before */

/** The moves chosen so far, the last one first; and those to choose from, or none while they are looked for. */
let chosen = /** @type {Before[]} */ ([]), offered = /** @type {Before[] | null} */ (null), fault = '',
    lacks = /** @type {string[]} */ ([]);

/** The search for the longest introduction, and what it has found. */
let going = /** @type {AbortController | null} */ (null),
    intro = /** @type {import('./introduction.js').Introduction | null} */ (null);
/** Searches beside what the user does, in the worker of facts, until it is stopped or all is looked at. */
function searchLongest() {
  const s = study(), mine = doc().lines, mySearch = going = new AbortController();
  if (!s || !s.aim) return;
  const shown = (/** @type {typeof intro} */ now) => {
    if (going !== mySearch) return;
    if (doc().lines !== mine) return void close();
    intro = now;
    draw();
  };
  const ended = (/** @type {Error} */ why) => {
    if (going === mySearch) fault = why.message;
  };
  longest(s.fen, s.aim, shown, mySearch.signal, (fen, aim) => movesBefore(fen, aim, services.facts))
    .then(shown, ended)
    .finally(() => {
      if (going !== mySearch) return;
      going = null;
      draw();
    });
  draw();
}
/** A search ends after the position that it is looking at. */
function stop() {
  if (going) going.abort();
  draw();
}
/**
 * How far the search has come, and what begins with its moves.
 * @param {import('./types.js').Study} s
 */
function longestView(s) {
  const again = button('Longest introduction', 'search back as far as only moves go', searchLongest, {id: 'longest'});
  if (!intro && !going) return h('p', {}, again);
  const best = intro ? intro.best : [], words = introductionText(intro, s.aim ? s.aim.hero : 'White', going !== null);
  const take = () => {
    chosen = best;
    begin();
  };
  return [
    h('p', {id: 'longestState'}, words, ' ',
      going &&
        button(going.signal.aborted ? 'Stopping …' : 'Stop', 'keep what was found', stop,
          {id: 'longestStop', disabled: going.signal.aborted})),
    best.length > 0 &&
      h('p', {}, best.map(move => [move.san, markSign(move), h('small', {}, ` from ${squareName(move.from)} `)]),
        button('Begin with these', 'put them in front of the study', take, {id: 'longestBegin'})),
    !going && intro && !intro.ended && h('p', {}, again)
  ];
}
export function openEarlier() {
  $('earlier').hidden = false;
  chosen = [];
  const looked = look(study().fen);
  $('earlier').scrollIntoView({block: 'nearest'});
  return looked;
}
/** A search ends with its panel. Whether it was open. */
export function close() {
  const open = !$('earlier').hidden;
  if (going) going.abort();
  [going, intro] = [null, null];
  $('earlier').hidden = true;
  return open;
}
/** @param {Before[]} moves */
const movers = moves => moves.map(move => sideOf(move.fen));
/** @param {string} fen */
function look(fen) {
  const s = study(), mine = doc().lines;
  [offered, fault] = [null, ''];
  draw();
  const found = (/** @type {{moves: Before[], lacking: string[]}} */ {moves, lacking}) => {
    [offered, lacks] = [moves, lacking];
  };
  const failed = (/** @type {Error} */ why) => {
    fault = why.message;
  };
  const done = movesBefore(fen, s.aim ? aimBefore(s.aim, [other(sideOf(fen)), ...movers(chosen)]) : 'white win')
                 .then(found, failed);
  return track(done.finally(() => (doc().lines === mine ? draw() : close())));
}
/** @param {Before} move */
function choose(move) {
  chosen = [move, ...chosen];
  return chosen.length === 1 ? look(move.fen) : begin();
}
/** The study begins so much earlier; its tree hangs below the moves that were put in front. */
function begin() {
  const moves = [...chosen], [first] = moves, view = app.view;
  close();
  if (!view) return;
  return change(now => {
    const s = now.studies[now.at];
    if (!s || !s.aim) return null;
    const aim = aimBefore(s.aim, movers(moves));
    const front = moves.map((move, i) => `insert ${i ? Array(i).fill(0).join('.') : 'root'} ${move.san}`);
    const tree = insertions(bareOf(view.root), Array(moves.length).fill(0).join('.')).map(({line}) => line);
    const path = moves.map(move => plain(move.san)).join(' '), lines = notesMoved(now.lines, s, to => `${path} ${to}`);
    return {...withMoves(lines, s, first.fen, aim, [...front, ...tree]), path: 'root', lenient: false};
  }, 'board');
}
/** @param {Before} move */
const moveView = move => h('button',
  {class: `chip m ${move.mark}`, 'data-before': move.san, title: control(move.fen), onclick: () => choose(move)},
  move.san, markSign(move) && h('b', {}, markSign(move)), h('small', {}, ` from ${squareName(move.from)}`));
/**
 * What the marks of the moves say; the best moves come first.
 * @param {Before[]} list
 * @param {boolean} mine      whether they are the hero's
 */
function marksIn(list, mine) {
  const has = (/** @type {string} */ mark) => list.some(move => move.mark === mark);
  const wrong = has('mistake') ? '; before one with ? the stipulation is wrong' : '';
  if (!mine) return wrong;
  return (has('only') ? '; first those that are the only ones to work' : '; none is the only one that works') + wrong;
}
function draw() {
  if ($('earlier').hidden) return;
  const at = chosen.length ? chosen[0].fen : study() ? study().fen : '', mover = other(sideOf(at));
  const next = chosen.length ? chosen[0].san : 'the start',
        none = `No move of ${mover} without a capture can have led here.`;
  const words = fault ? `Not found: ${fault}.`
    : offered === null ? 'The moves before are looked for …'
    : offered.length   ? `${mover}'s move before ${next}${marksIn(offered, study().aim?.hero === mover)}:`
                       : none;
  hearNew('earlier', words);
  put('earlier', panelHead('Begin earlier', close, 'closeEarlier'), h('p', {id: 'earlierState'}, words),
    h('p', {class: 'chips'}, (offered || []).map(moveView)),
    offered && lacks.length > 0 &&
      h('p', {class: 'note'}, `Promotions are left out, since these tables are not there: ${lacks.join(' ')}.`),
    study() && longestView(study()),
    chosen.length > 0 &&
      h('p', {}, button(`Begin with ${chosen[0].san}`, 'one move earlier alone', begin, {id: 'beginOne'})));
  if ((!offered && !fault) || going || intro) return;
  const first = $('earlier').querySelector('[data-before]') || $('closeEarlier');
  first.focus({preventScroll: true});
}
/** Offered at the start of a study that has a stipulation. */
export const earlierButton = () =>
  (study() && study().aim ? smallButton('Begin earlier', 'put the moves before the start in front', () => {
    openEarlier().catch(why => {
      say('board', `${why.message}.`);
      services.show();
    });
  }, {id: 'beginEarlier'}) : null);
