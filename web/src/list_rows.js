// @ts-check
// The rows of the list of entries: what stands in their cells, and what opens a game that was left out.
import {h, smallButton} from './dom.js';
import {remedyOf} from './cut_game.js';
import {againstText} from './imported.js';
import {knownEntries} from './list_facts.js';
import {lookAt} from './mend_view.js';
import {openLeftOut} from './mending.js';
import {verdictsBefore} from './stamps.js';
import {doc, say, services} from './state.js';
/** @typedef {import('./entries.js').Entry} Entry */

/**
 * A game that was left out is looked at: its text is shown, or it is said why it was left out.
 * @param {number} line
 */
export function showLeftOut(line) {
  if (lookAt(line)) return;
  const entry = knownEntries(doc()).find(row => row.at < 0 && row.line === line);
  if (entry) say('board', `${[entry.number, entry.title, entry.author].filter(Boolean).join(', ')}: ${entry.stamp}.`);
  services.show();
}
const REMEDIES = {
  open: ['open up to there', 'the moves before the bad one, to be mended'],
  mend: ['mend it', 'the text of the game, to be mended and read again']
};
/**
 * What opens a game that was left out, up to a bad move or as its text.
 * @param {Entry} entry
 */
function remedyButton({at, line, number}) {
  const remedy = at < 0 && remedyOf(doc().lines, line);
  if (!remedy) return null;
  const [words, title] = REMEDIES[remedy];
  return [' ', smallButton(words, title, () => openLeftOut(line), {'data-upto': number})];
}
/**
 * The verdict, its first fault, and which studies have the same position; of an entry that was left out why, and what
 * to write instead, as wide as the row has room.
 * @param {Entry} entry
 */
function stampView(entry) {
  const s = doc().studies[entry.at], before = s ? verdictsBefore(s) : [],
        [, stamp, more] = /^(left out: )(.*)$/.exec(entry.stamp) || ['', entry.stamp, ''];
  return [
    h('b', {class: `stamped ${entry.open ? 'open' : entry.kind.replace(' ', '-')}`}, stamp),
    more && h('span', {}, more), remedyButton(entry),
    [entry.fault, entry.same, ...before].filter(Boolean).map(text => h('div', {class: 'note', title: text}, text))
  ];
}
/** @typedef {{title: string, source: string}} Shared */
export const NONE = /** @type {Shared} */ ({title: '', source: ''});
/**
 * A stipulation, and where it is from.
 * @param {string} aim
 */
const aimParts = aim => aim.split(/(?= \(from )/).map(text => text.trim());
/**
 * What several entries have all the same, so that it is said once: their title, and where their stipulations are from.
 * @param {Entry[]} entries
 * @returns {Shared}
 */
export function sharedOf(entries) {
  const same = (/** @type {string[]} */ texts) => texts.length > 1 && new Set(texts).size === 1 ? texts[0] : '';
  const sources = entries.filter(({aim}) => aim).map(({aim}) => aimParts(aim)[1] || '');
  return {title: same(entries.map(({title}) => title)), source: same(sources)};
}
/** @param {Shared} shared */
export const sharedView = ({title, source}) => (title || source) &&
  h('p', {class: 'note', id: 'shared'},
    [title && `All: ${title}.`, source && `All stipulations are ${source.slice(1, -1)}.`].filter(Boolean).join(' '));
/**
 * The stipulation, and in small letters where it is from and which sources differ.
 * @param {Entry} entry
 * @param {Shared} shared
 */
function aimCell({aim, against}, shared) {
  const [words, ...source] = aimParts(aim), rest = source.filter(text => text !== shared.source);
  return [words, [...rest, ...against.map(againstText)].map(text => h('div', {class: 'note'}, text))];
}
/**
 * @param {Entry} entry
 * @param {any} number
 * @param {Shared} shared
 */
export const cellsOf = (entry, number, shared) => [number, shared.title ? '' : entry.title, entry.author,
  ...(entry.aim ? [aimCell(entry, shared)] : []), stampView(entry)];
