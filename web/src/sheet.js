// @ts-check
// A sheet of diagrams, twelve on a page of A4, as a file that stands alone: what a judge passes round.
import {diagramOf} from './drawing.js';
import {studyName} from './entries.js';
import {sideOf} from './fen.js';
import {h} from './dom.js';
import {aimText} from './words.js';
import {numbersOf} from './numbering.js';
/** @typedef {import('./types.js').Study} Study */

const STYLE =
  `@page{size:A4;margin:12mm}body{font:11px/1.3 "Liberation Serif","Times New Roman",serif;margin:0;color:#111}
.sheet{display:grid;grid-template-columns:repeat(3,1fr);gap:4mm 7mm}
figure{margin:0 auto;width:51mm;break-inside:avoid}
figcaption{min-height:10mm}svg{width:100%;height:auto;display:block}.lt{fill:#fff}.dk{fill:#c9c9c9}
.fr{fill:none;stroke:#111;stroke-width:1.6}use{stroke:#111;stroke-width:1.5;stroke-linejoin:round;stroke-linecap:round}
use.w{fill:#fff;--in:#111}use.b{fill:#1c1a18;--in:#fff}symbol .i{fill:none;stroke:var(--in)}
symbol .d{fill:var(--in);stroke:none}symbol .x{fill:none;stroke-width:2.6;stroke:#111}.defs{position:absolute}`;
/**
 * `5. White to win, Black to move`, and below it title and author.
 * @param {Study} s
 * @param {string} number
 */
function captionOf(s, number) {
  const mover = sideOf(s.fen), aim = s.aim ? aimText(s.aim) : `${mover} to move`;
  return [
    h('b', {}, `${number}. ${aim}`), s.aim && mover !== s.aim.hero && `, ${mover} to move`, h('br', {}), studyName(s)
  ];
}
/**
 * Studies of a script as a page in HTML.
 * @param {{lines: string[], studies: Study[]}} doc
 * @param {string} title
 * @param {number[]} shown      which studies, in their order
 */
export function sheetOf(doc, title, shown) {
  const numbers = numbersOf(doc), defs = document.querySelector('svg.defs');
  const figures = shown.map(at => ({s: doc.studies[at], at})).map(({s,
    at}) => h('figure', {}, diagramOf(s.fen, true), h('figcaption', {}, captionOf(s, numbers[at] || `${at + 1}`))));
  const page =
    h('html', {lang: 'en'}, h('head', {}, h('meta', {charset: 'utf-8'}), h('title', {}, title), h('style', {}, STYLE)),
      h('body', {}, defs && defs.cloneNode(true), h('div', {class: 'sheet'}, figures)));
  return `<!DOCTYPE html>\n${page.outerHTML}\n`;
}
