// @ts-check
// The drawing of a board: squares, coordinates, men; and a diagram that stands alone.
import {h, svg} from './dom.js';
import {isWhite, menOf, spokenPosition} from './fen.js';

/** The corner of the squares in the drawing, which is so wide; a square is 45 wide. */
export const X = 14, Y = 1, WIDTH = 377;
/**
 * The corner of a square, as White or as Black sees it.
 * @param {number} s
 * @param {boolean} flip
 */
export function cornerOf(s, flip) {
  const f = s % 8, r = Math.floor(s / 8);
  return flip ? [X + 45 * (7 - f), Y + 45 * r] : [X + 45 * f, Y + 45 * (7 - r)];
}
/**
 * @param {string} letter
 * @param {number} s
 * @param {boolean} flip
 */
export function manAt(letter, s, flip) {
  const [x, y] = cornerOf(s, flip);
  return svg('use',
    {class: isWhite(letter) ? 'w' : 'b', href: '#m' + letter.toUpperCase(), x, y, width: 45, height: 45, 'data-at': s});
}
/** @param {string} letter */
export const manIcon = letter => svg('svg', {viewBox: '0 0 45 45', 'aria-hidden': 'true'},
  svg('use', {class: isWhite(letter) ? 'w' : 'b', href: '#m' + letter.toUpperCase(), width: 45, height: 45}));
/** @param {boolean} flip */
export function squares(flip) {
  const dark = [...Array(64).keys()].filter(s => (s + Math.floor(s / 8)) % 2 === 0);
  return [
    svg('rect', {class: 'lt', x: X, y: Y, width: 360, height: 360}),
    svg('path', {class: 'dk', d: dark.map(s => `M${cornerOf(s, flip)}h45v45h-45z`).join('')})
  ];
}
/** @param {boolean} flip */
export function edges(flip) {
  const names =
    [...Array(8).keys()].flatMap(i => [svg('text', {x: X + 45 * i + 22, y: 373}, 'abcdefgh'[flip ? 7 - i : i]),
                                   svg('text', {x: 6, y: Y + 45 * (7 - i) + 27}, `${flip ? 8 - i : i + 1}`)]);
  return [svg('rect', {class: 'fr', x: X, y: Y, width: 360, height: 360}), ...names];
}
/**
 * A diagram as White sees it: a small one has no coordinates.
 * @param {string} fen
 * @param {boolean} [small]
 */
export const diagramOf = (fen, small = false) => svg('svg',
  {class: 'figure', role: 'img', viewBox: small ? '13 0 362 362' : '0 -2 377 380', 'aria-label': spokenPosition(fen)},
  squares(false), small ? svg('rect', {class: 'fr', x: X, y: Y, width: 360, height: 360}) : edges(false),
  Object.entries(menOf(fen)).map(([s, letter]) => manAt(letter, Number(s), false)));
/**
 * A position in a list: its diagram beside words.
 * @param {string} fen
 * @param {any} words
 */
export const besideDiagram = (fen, words) =>
  h('div', {class: 'beside'}, fen ? diagramOf(fen, true) : h('span', {class: 'figure'}), h('div', {}, words));
