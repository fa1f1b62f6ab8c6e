// @ts-check
// The board: its drawing.
import {$, svg} from './dom.js';
import {cornerOf, edges, manAt, squares} from './drawing.js';
import {menOf, sideOf, spokenPosition, squareName} from './fen.js';
import {app, node, study} from './state.js';
import {draftFen} from './setup.js';
import {holds} from './words.js';
/** @typedef {import('./types.js').Move} Move @typedef {{to: number, sign: string, row?: number | null}} Target */

/** @param {number} s */
export const corner = s => cornerOf(s, app.flip);
/**
 * @param {number} s
 * @param {string} cls
 */
function cell(s, cls) {
  const [x, y] = corner(s);
  return svg('rect', {class: cls, x, y, width: 45, height: 45});
}
/**
 * @param {string} letter
 * @param {number} s
 */
export const man = (letter, s) => manAt(letter, s, app.flip);
/** @typedef {{last: number[], chosen: number | null, cursor: number | null, targets: Target[]}} Marks */
/**
 * The squares that are marked, below the men.
 * @param {Marks} marks
 */
const markedSquares = marks =>
  svg('g', {}, marks.last.map(s => cell(s, 'last')), marks.chosen !== null && cell(marks.chosen, 'pick'));
/**
 * The men, and what is drawn over them.
 * @param {string} fen
 * @param {Marks} marks
 */
function menView(fen, marks) {
  const men = menOf(fen);
  const dots = marks.targets.map(({to, sign, row}) => {
    const [x, y] = corner(to), r = men[to] ? 20 : row ? 11 : 7.5;
    return [
      svg('circle', {class: sign + (men[to] ? ' over' : ''), cx: x + 22.5, cy: y + 22.5, r}),
      row ? svg('text', {class: 'many', x: x + 22.5, y: y + 27, 'data-row': squareName(to)}, `${row}`) : null
    ];
  });
  return svg('g', {}, Object.entries(men).map(([s, c]) => man(c, Number(s))), dots,
    marks.cursor !== null && cell(marks.cursor, 'cursor'));
}
/**
 * The board that is shown; its squares and coordinates stay until it is turned.
 * @type {{flip: boolean, board: any, marked: any, standing: any} | null}
 */
let shown = null;
function newBoard() {
  const marked = svg('g', {}), standing = svg('g', {});
  const board = svg('svg', {class: 'board', role: 'img', viewBox: '0 -2 377 380', tabindex: 0}, squares(app.flip),
    marked, edges(app.flip), standing);
  return {flip: app.flip, board, marked, standing};
}
/**
 * @param {string} fen
 * @param {Marks} marks
 */
function draw(fen, marks) {
  const now = shown = shown && shown.flip === app.flip ? shown : newBoard(),
        fresh = {marked: markedSquares(marks), standing: menView(fen, marks)};
  now.board.setAttribute('aria-label', 'Board. ' + spokenPosition(fen));
  now.marked.replaceWith(fresh.marked);
  now.standing.replaceWith(fresh.standing);
  while (fresh.standing.nextSibling) fresh.standing.nextSibling.remove();  // a man of the palette that was dragged
  Object.assign(now, fresh);
  return now.board;
}
/**
 * The legal moves of a man.
 * @param {number} s
 * @returns {Move[]}
 */
export const movesFrom = s => (app.view ? app.view.moves : []).filter(m => m.from === s);
/**
 * Where the board shows a sign: the moves of the man that is chosen, or the squares of a survey.
 * @returns {Target[]}
 */
function targets() {
  if (app.setup) return app.setup.survey || [];
  const n = node(), s = study(), best = /** @type {Map<number, string>} */ (new Map());
  if (app.chosen === null || !n || !s) return [];
  const hero = s.aim !== null && sideOf(n.fen) === s.aim.hero;
  for (const m of movesFrom(app.chosen))
    if (best.get(m.to) !== 'dot') best.set(m.to, holds(m) ? 'dot' : hero && m.mark === 'mistake' ? 'ring' : 'plain');
  return [...best].map(([to, sign]) => ({to, sign}));
}
export const shownFen = () => {
  const n = node(), s = study();
  return app.setup ? draftFen() : n ? n.fen : s ? s.fen : '8/8/8/8/8/8/8/8 w - - 0 1';
};
export function showBoard() {
  const n = node(), before = $('board').firstChild, last = !app.setup && n && n.parent ? [n.from, n.to] : [];
  const board =
    draw(shownFen(), {last, chosen: app.chosen, cursor: app.setup ? app.setup.cursor : null, targets: targets()});
  if (board === before) return;
  const focused = document.activeElement === before;
  $('board').replaceChildren(board);
  if (focused) board.focus({preventScroll: true});
}
export const focusBoard = () => $('board').firstChild.focus({preventScroll: true});
export function flip() {
  app.flip = !app.flip;
  showBoard();
}
