// @ts-check
// The position that is shown as a picture of its own.
import {$, download, h, smallButton} from './dom.js';
import {copyFen} from './copying.js';
import {services, say} from './state.js';
import {shownFen} from './board.js';

const STYLE = /** @type {Record<string, string>} */ ({
  lt: 'fill:#f0dab5',
  dk: 'fill:#b88a62',
  fr: 'fill:none;stroke:#6d4c33;stroke-width:1.6',
  w: 'fill:#fff;--in:#111;stroke:#111;stroke-width:1.5;stroke-linejoin:round;stroke-linecap:round',
  b: 'fill:#1c1a18;--in:#fff;stroke:#111;stroke-width:1.5;stroke-linejoin:round;stroke-linecap:round'
});
const INNER = 'symbol .i{fill:none;stroke:var(--in)}symbol .d{fill:var(--in);stroke:none}' +
  'symbol .x{fill:none;stroke-width:2.6;stroke:#111}text{font:10.5px sans-serif;fill:#56534d;text-anchor:middle}';
/** The board as a file of SVG that stands alone: with its men's drawings, without marks. */
export function diagramSvg() {
  const board = $('board').firstChild.cloneNode(true), drawings = document.querySelector('svg.defs'),
        text = new XMLSerializer();
  for (const mark of board.querySelectorAll('.last,.pick,.cursor,.dot,.plain,.ring,text.many')) mark.remove();
  for (const name of ['class', 'role', 'tabindex', 'aria-label']) board.removeAttribute(name);
  board.setAttribute('width', '377');
  board.setAttribute('height', '380');
  // (as text, since the page's policy allows no style in it)
  const defs = drawings ? [...drawings.childNodes].map(node => text.serializeToString(node)).join('') : '';
  return text.serializeToString(board)
    .replace(/ class="(\w+)"/g, (all, name) => (STYLE[name] ? ` style="${STYLE[name]}"` : all))
    .replace(/>/, `><style>${INNER}</style>${defs}`);
}
/**
 * The same as a picture of points, four times as large.
 * @param {string} svg
 * @returns {Promise<Blob>}
 */
async function picture(svg) {
  const image = new Image(377 * 4, 380 * 4);
  image.src = 'data:image/svg+xml;base64,' + btoa(unescape(encodeURIComponent(svg)));
  await image.decode();
  const canvas = /** @type {HTMLCanvasElement} */ (h('canvas', {width: image.width, height: image.height})),
        pen = canvas.getContext('2d');
  if (!pen) throw new Error('this browser draws no pictures');
  pen.fillStyle = '#fff';
  pen.fillRect(0, 0, image.width, image.height);
  pen.drawImage(image, 0, 0, image.width, image.height);
  return new Promise((ok, no) => canvas.toBlob(
                       blob => (blob ? ok(blob) : no(new Error('this browser saves no pictures'))), 'image/png'));
}
/** @param {'svg' | 'png'} kind */
async function save(kind) {
  const name = shownFen().split(' ')[0].replace(/\//g, '-'), svg = diagramSvg();
  try {
    download(`${name}.${kind}`, kind === 'svg' ? svg : await picture(svg));
  } catch (fault) {
    say('board', `No picture: ${/** @type {Error} */ (fault).message}.`);
    services.show();
  }
}
/** What can be done with the position that is shown. */
export const diagramView = () => [smallButton('Copy FEN', 'the position that is shown', copyFen, {id: 'copyFen'}),
  smallButton('Save diagram', 'a picture of lines, as SVG', () => save('svg'), {id: 'saveSvg'}),
  smallButton('PNG', 'a picture of points', () => save('png'), {id: 'savePng', 'aria-label': 'Save diagram as PNG'})];
