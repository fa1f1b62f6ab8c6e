// @ts-check
// Two kept documents side by side: men, stipulation, verdict, and the moves that differ; and studies that the open one
// takes over from the other.
import {h, smallButton} from './dom.js';
import {change, work} from './actions.js';
import {evaluate} from './running.js';
import {viewOf} from './answer_cache.js';
import {differences} from './comparing.js';
import {headAt, linesOf} from './documents.js';
import {studyName} from './entries.js';
import {diagramOf} from './drawing.js';
import {copiedLines} from './study_edits.js';
import {reviewFor} from './list_facts.js';
import {stampOf} from './stamps.js';
import {control} from './fen.js';
import {table} from './table.js';
import {editsTo, fensOf, toText} from './script.js';
import {doc, say, services} from './state.js';
import {aimText} from './words.js';
import {numbersOf} from './numbering.js';
/** @typedef {import('./types.js').View} View */
/** @typedef {import('./types.js').Study} Study */
/**
 * A study of a document: `number` says which it is, `all` are all that stand there, with their names.
 * @typedef {{id: string, name: string, number: string, fen: string, aim: string, stamp: string, view: View | null,
 *   study: Study | null, lines: string[], all: {study: Study, called: string}[]}} Version
 */

/**
 * The two that are compared, and the lines that the open document had then.
 * @type {{sides: Version[], lines: string[]} | null}
 */
let pair = null;
export const isComparing = () => pair !== null;
export const endComparing = () => {
  pair = null;
};
/**
 * The study of a kept document with this start, else the one that was looked at last, over the tables that are there.
 * @param {string} id
 * @param {string} name
 * @param {string} [start]
 * @returns {Promise<Version>}
 */
async function versionOf(id, name, start) {
  const head = headAt(id), lines = linesOf(id), lacking = await services.tables.lacking(fensOf(lines)),
        script = lacking.length ? {studies: []} : await evaluate(lines),
        s = script.studies.find(({fen}) => fen === start) ||
    script.studies[Math.min(head ? head.at : 0, script.studies.length - 1)];
  if (!s || !('refused' in script)) {
    const fen = head ? head.fen : '', stamp = lacking.length ? `not judged: ${lacking.join(' ')} lack` : 'no study';
    return {id, name, number: '', fen, aim: '', stamp, view: null, study: null, lines, all: []};
  }
  const numbers = numbersOf({...script, lines}),
        called = (/** @type {typeof s} */ study, /** @type {number} */ i) =>
          `No. ${numbers[i] || i + 1}, ${studyName(study)}`;
  const view = await viewOf(toText(editsTo(lines, s)), 'root');
  return {
    id,
    name,
    study: s,
    lines,
    number: script.studies.length > 1 ? called(s, script.studies.indexOf(s)) : '',
    all: script.studies.map((study, i) => ({study, called: called(study, i)})),
    fen: s.fen,
    aim: s.aim ? aimText(s.aim) : '',
    stamp: stampOf(script, s, await reviewFor(lines, s)).text,
    view: typeof view === 'string' ? null : view
  };
}
/**
 * @param {[string, string][]} chosen      two documents, each with its name
 */
export const compare = chosen => work(async () => {
  const open = chosen.findIndex(([id]) => id === doc().id), first = Math.max(open, 0), second = 1 - first,
        sides = /** @type {Version[]} */ ([]);
  sides[first] = await versionOf(...chosen[first]);
  sides[second] = await versionOf(...chosen[second], sides[first].fen);
  pair = {sides, lines: doc().lines};
  services.show();
});
/** Once the open document is another one, or has changed, the two are compared anew. */
export function followDocument() {
  if (!pair || pair.lines === doc().lines) return;
  pair.lines = doc().lines;
  compare(/** @type {[string, string][]} */ (pair.sides.map(({id, name}) => [id, name])));
}
/**
 * A button by which the open document takes a study over, behind its own.
 * @param {Version} version
 * @param {Study | null} study
 */
function takeView({id, lines}, study) {
  const isOther = pair && id !== doc().id && pair.sides.some(side => side.id === doc().id);
  const take = async () => {
    const taken = await change(now => ({
      lines: [...now.lines, ...(now.lines.length ? [''] : []), ...copiedLines(lines, /** @type {Study} */ (study))],
      at: now.studies.length,
      path: 'root',
      lenient: true
    }));
    if (!taken || !pair) return;
    say('board', `Taken over as No. ${numbersOf(doc()).slice(-1)[0]} of the open document.`, true);
    services.show();
  };
  return isOther && study &&
    smallButton('Take over', 'one more study of the open document, behind its own', take, {'data-take': study.fen});
}
/** @param {Version} version */
const sideView = version => h('div', {class: 'side'}, h('h3', {}, version.name),
  version.number && h('p', {}, version.number), version.fen && diagramOf(version.fen, true),
  h('p', {}, version.fen && [control(version.fen), h('br', {})], version.aim && [version.aim, ': '],
    h('b', {}, version.stamp)),
  takeView(version, version.study));
/**
 * The studies that one document alone has, besides those that stand side by side.
 * @param {Version} here
 * @param {Version} there
 */
function onlyHere(here, there) {
  const starts = new Set(there.all.map(({study}) => study.fen)),
        own = here.all.filter(({study}) => !starts.has(study.fen) && study !== here.study);
  return own.length > 0 && there.all.length > 0 &&
    h('p', {class: 'note'}, `Only in ${here.name}: `,
      own.map(({study, called}, i) => [i > 0 && '; ', called, ' ', takeView(here, study)]), '.');
}
/**
 * A move, with those before it that tell it apart from one of the same name.
 * @param {string} name
 * @param {string[]} after
 */
const moveIn = (name, after) => name + (after.length ? ` (after ${after.join(', ')})` : '');
/** The two that are compared. */
export function comparingView() {
  if (!pair) return null;
  const {sides} = pair, [one, two] = sides.map(({view}) => view);
  const rows = one && two ? differences(one.root, two.root, [one.aim, two.aim]) : [],
        same = sides[0].fen === sides[1].fen;
  return [
    h('div', {class: 'sides', id: 'sides'}, sides.map(sideView)),
    !same && h('p', {class: 'note'}, 'The positions differ.'),
    rows.length > 0 ? table(['Move', ...sides.map(({name}) => name)], rows,
                        ({name, line, after, said}) => [h('span', {title: line}, moveIn(name, after)), ...said])
                    : h('p', {class: 'note'}, one && two ? 'No move differs in mark.' : ''),
    onlyHere(sides[0], sides[1]), onlyHere(sides[1], sides[0])
  ];
}
