// @ts-check
// The set-up of men: palette, side to move, stipulation, FEN, what the program says of it, and what it becomes.
import {$, button, h, put, smallButton} from './dom.js';
import {manName, menOf} from './fen.js';
import {app, node, services, study} from './state.js';
import {manIcon} from './drawing.js';
import {baseOf} from './ending.js';
import {takeUp} from './board_input.js';
import {aimView, messageAt} from './head_view.js';
import {typedOr} from './node_view.js';
import {closeSetup, draftFen, changeDraft, judgeDraft, turnDraft, setTypedFen} from './setup.js';
import {hasTree} from './survey.js';
import {surveyView} from './survey_view.js';
import {takeOver} from './taking_over.js';
import {moveName, readAim} from './words.js';
/** @typedef {import('./setup.js').Draft} Draft */

const HELP = 'FEN, or men as Kb6 Pc6 / Ka1 Rd5';
export function setupView() {
  const d = app.setup;
  if (!d) return null;
  const mover = (/** @type {string} */ m, /** @type {string} */ text) => button(text, '', () => changeDraft({mover: m}),
    {id: 'mover' + m, class: d.mover === m ? 'on' : '', 'aria-pressed': `${d.mover === m}`, 'data-mover': m});
  return [
    h('h2', {id: 'setupFor'}, study() ? purpose(d) : 'Set up the men'),
    h('div', {class: 'palette', role: 'group', 'aria-label': 'Men'},
      [...'KQRBNPxkqrbnp'].map(letter => toolView(d, letter)),
      button('clear', 'take all men away', () => changeDraft({men: {}, tool: 'K'}), {id: 'clear', class: 'text'})),
    h('div', {class: 'row'},
      h('div', {class: 'group', role: 'group', 'aria-label': 'Side to move'}, mover('w', 'White to play'),
        mover('b', 'Black to play')),
      h('span', {class: 'row aim'}, aimView(readAim(d.aim), words => changeDraft({aim: words}), 'draft')),
      h('span', {id: 'passedBox'}, passedView(d))),
    h('input', {
      class: 'fen',
      id: 'fen',
      value: typedOr('fen', draftFen()),
      'aria-label': HELP,
      title: HELP,
      autocomplete: 'off',
      spellcheck: 'false',
      onchange: (/** @type {any} */ e) => setTypedFen(e.target.value)
    }),
    h('div', {id: 'judgedBox'}, judgedBox(d)), fromNode(d), turnView(),
    h('p', {class: 'note keys'},
      'Press a man, then squares; drag a man to move it, off the board to take it away. By keys: arrows on the ' +
        'board, then K Q R B N P for White, k q r b n p for Black, Delete; Enter starts.')
  ];
}
/**
 * What the set-up is for, where there is a study already.
 * @param {Draft} d
 */
const purpose = d => (!d.anew ? 'Another position for this study'
    : d.more                  ? 'One more study in this script'
                              : 'A new study');
/**
 * The position of the node that was looked at, as the start of a study of its own.
 * @param {Draft} d
 */
function fromNode(d) {
  const n = node();
  if (d.anew || !n || !n.parent) return null;
  const [placed, mover, ...tail] = n.fen.split(' ');
  const take = () => changeDraft({men: menOf(placed), mover, tail: tail.join(' '), man: null, turns: [], base: n.path});
  return h('p', {}, button(`The position after ${moveName(n)}`, 'set up these men instead', take, {id: 'fromNode'}));
}
const TURN_WORDS = /** @type {[import('./turning.js').Turn, string, string][]} */ ([
  ['left', '←', 'one file to the left'], ['right', '→', 'one file to the right'], ['up', '↑', 'one rank up'],
  ['down', '↓', 'one rank down'], ['mirror', 'Mirror', 'the files from the other side'],
  ['colours', 'Colours', 'exchange White and Black']
]);
/** The whole diagram over, with the moves of its study. */
const turnView = () => h('p', {class: 'row', role: 'group', 'aria-label': 'The whole diagram'},
  h('span', {class: 'note'}, 'The whole diagram: '), TURN_WORDS.map(([turn, text,
    title]) => smallButton(text, title, () => turnDraft(turn), {'aria-label': title, 'data-turn': turn})));
/**
 * What comes late: what the program says of the draft, and what can be done with it.
 * @param {Draft} d
 */
const judgedBox =
  d => [messageAt('fen'), judgedView(d), h('div', {class: 'row'}, startView(d, Boolean(study()))), surveyView(d)];
/** Only these parts are drawn again, so that nothing moves under a finger that is on the palette. */
export function redrawJudged() {
  if (!app.setup || !$('judgedBox')) return;
  put('judgedBox', judgedBox(app.setup));
  put('passedBox', passedView(app.setup));
}
/**
 * @param {Draft} d
 * @param {string} letter
 */
function toolView(d, letter) {
  const away = letter === 'x', name = away ? 'take away' : manName(letter);
  const down = (/** @type {any} */ e) => {
    d.tool = letter;
    if (!away) takeUp(letter);
    if (e.target.releasePointerCapture) e.target.releasePointerCapture(e.pointerId);
  };
  return h('button', {
    id: 'man' + letter,
    class: `${d.tool === letter ? 'on' : ''}${away ? ' text' : ''}`,
    'data-man': letter,
    title: name,
    'aria-label': name,
    'aria-pressed': `${d.tool === letter}`,
    onpointerdown: down,
    onclick: () => {
      d.tool = letter;
      services.show();
    }
  },
    away ? name : manIcon(letter));
}
/** @param {Draft} d */
function passedView(d) {
  const now = d.tail.split(' ')[1];
  if (!d.passed.length) return null;
  return h('label', {class: 'note'}, 'en passant on ',
    h('select',
      {id: 'passedSquare', onchange: (/** @type {any} */ e) => changeDraft({tail: `- ${e.target.value} 0 1`})},
      ['-', ...d.passed].map(
        square => h('option', {value: square, selected: square === now}, square === '-' ? 'no square' : square))));
}
const MOST = 4,
      MANY = 'More than four men: take one away, or begin where four are left. Of a PGN with more men ' +
  'each part that begins with at most four is a study.';
/** @param {Draft} d */
export function judgedText({judged, men, waits}) {
  if (!Object.keys(men).length) return 'Put the men on the board.';
  if (!judged) return waits.length ? `Building its tables: ${waits.join(' ')} …` : '…';
  if (Object.keys(men).length > MOST) return MANY;
  if (judged.bad) return `Not a position yet: ${judged.bad}.`;
  const {lacking} = judged;
  return lacking.length ? `Its tables are not there yet: ${lacking.join(' ')} (${services.tables.estimate(lacking)}).`
                        : judged.text;
}
/** @param {Draft} d */
function judgedView(d) {
  const judged = d.judged, text = judgedText(d);
  return [
    h('p', {id: 'judged', class: judged && judged.text && !judged.bad ? 'judged' : 'note'}, text),
    judged && judged.lacking.length > 0 &&
      h('p', {},
        button('Build them now', 'some seconds for each; once for all', () => judgeDraft(true), {id: 'buildNow'}))
  ];
}
/**
 * @param {Draft} d
 * @param {boolean} behind
 */
function startView(d, behind) {
  const disabled = !d.judged || Boolean(d.judged.bad), base = app.view && baseOf(app.view.root, d);
  const cancel = behind && button('Cancel', 'back to the study', closeSetup, {id: 'cancel'});
  if (!base || !hasTree(d))
    return [
      button(d.anew ? 'Start' : 'Take this position', 'play the solution from here', () => takeOver('anew'),
        {id: 'start', class: 'main', disabled}),
      cancel
    ];
  return [
    button(base.parent ? `Keep the moves after ${moveName(base)}` : 'Keep the moves',
      'as much of the same tree as is legal on this position', () => takeOver('keep'),
      {id: 'start', class: 'main', disabled}),
    button('Without the moves', 'an empty tree', () => takeOver('anew'), {id: 'startEmpty', disabled}), cancel
  ];
}
