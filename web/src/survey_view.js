// @ts-check
// 'Where else': the man that is chosen, the squares on which it could stand, and what is known of them.
import {button, h, svg, smallButton} from './dom.js';
import {isWhite, squareName} from './fen.js';
import {MOST_IN_ROW, byRow, byTree, thereText} from './elsewhere.js';
import {moveDraft} from './setup.js';
import {hasTree, treesRequested, lookAtTrees, survey} from './survey.js';
import {counted} from './words.js';
/** @typedef {import('./setup.js').Draft} Draft @typedef {import('./elsewhere.js').Spot} Spot */

const FIRST = 12;
/**
 * @param {string[]} names
 * @param {number} most
 */
const named = (names, most) =>
  names.slice(0, most).join(', ') + (names.length > most ? ` and ${names.length - most} more` : '');
/** @param {Draft} d */
export function surveyView(d) {
  const judged = d.judged, men = Object.entries(d.men).map(([s, letter]) => ({at: Number(s), letter}));
  if (men.length < 2 || !judged || judged.bad || judged.lacking.length) return null;
  const chosen = d.man === null ? men[0].at : d.man;
  const list = h('select', {
    id: 'surveyMan',
    'aria-label': 'The man that could stand elsewhere',
    onchange: (/** @type {any} */ e) => survey(Number(e.target.value))
  },
    men.map(({at, letter}) => h('option', {value: at, selected: at === chosen},
              `${isWhite(letter) ? 'White' : 'Black'} ${letter.toUpperCase()}${squareName(at)}`)));
  return [
    h('p', {class: 'row'}, 'Where else could ', list, ' stand?',
      button(
        'Show', 'the squares on which the stipulation is correct', () => survey(Number(list.value)), {id: 'survey'})),
    d.survey && [standsView(d.survey), rowsView(d.survey), hasTree(d) && treesView(d, d.survey)]
  ];
}
/** @param {string} cls */
const sign = cls =>
  svg('svg', {width: 12, height: 12, 'aria-hidden': 'true'}, svg('circle', {class: cls, cx: 6, cy: 6, r: 5}));
/** @param {Spot[]} spots */
function standsView(spots) {
  const only = spots.filter(t => t.sign === 'dot').map(t => t.text), more = spots.length - only.length;
  return h('p', {class: 'note', id: 'stands'}, sign('dot'),
    ` the stipulation is correct by one first move alone: ${only.length ? named(only, FIRST) : 'nowhere'}; `,
    sign('plain'), ` by several first moves: ${counted(more, 'square')}. A press on a square puts this man there.`);
}
/**
 * The numbers in the dots, the largest first.
 * @param {Spot[]} spots
 */
function rowsView(spots) {
  const rows = byRow(spots),
        words = rows.map(([n, names]) => `${n === MOST_IN_ROW ? `${n} or more` : n}: ${named(names, FIRST / 2)}`);
  return rows.length > 0 &&
    h('p', {class: 'note', id: 'inRow'},
      `The number in a dot: how many only moves in a row the defender can ask for. ${words.join('; ')}.`);
}
/**
 * What the study's tree would be on each square; a press puts the man there.
 * @param {Draft} d
 * @param {Spot[]} spots
 */
function treesView(d, spots) {
  if (!treesRequested(spots))
    return h('p', {},
      smallButton('What becomes of the moves there?', 'the faults that this study would have on each square',
        lookAtTrees, {id: 'lookAtTrees'}));
  const kept = byTree(spots), done = spots.filter(spot => spot.there).length, none = done - kept.length,
        more = kept.length - FIRST;
  const end = done < spots.length ? ` ${done} of ${spots.length} squares looked at …`
    : none ? ` On ${none} no move stays, or many go.`
           : '';
  return h('p', {class: 'note', id: 'treesThere'},
    'With the moves of this study: ', kept.slice(0, FIRST).map(spot => [thereView(d, spot), ' ']),
    more > 0 && `and ${more} more.`, end);
}
/**
 * @param {Draft} d
 * @param {Spot} spot
 */
function thereView(d, spot) {
  const man = d.man, name = squareName(spot.to);
  const put = () => {
    if (man !== null && d.men[man]) moveDraft(man, spot.to, d.men[man], true);
  };
  return smallButton(thereText(name, spot), 'put the man there', put, {'data-there': name});
}
