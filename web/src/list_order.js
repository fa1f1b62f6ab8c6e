// @ts-check
// The order of the list of entries: as its reader sorted it. An edit moves no row, so that nobody loses his place.
import {sortEntries} from './entry_list.js';
/** @typedef {import('./entries.js').Entry} Entry @typedef {import('./table.js').Order} Order */
/**
 * How a list was sorted: the document and its lines then, the order that was chosen, the numbers of the entries, and
 * the place of each row among them.
 * @typedef {{id: string, lines: string[], order: Order | null, numbers: string, places: number[]}} Sorted
 */
/** @type {Sorted} */
export const UNSORTED = {
  id: '',
  lines: [],
  order: null,
  numbers: '',
  places: []
};
/**
 * The entries in the order that was chosen. They are sorted anew if the order was chosen anew, if entries came or went,
 * and as facts are found, until the first edit; from then on each stays in its place. `late`: some would stand
 * elsewhere now.
 * @param {Sorted} held      how they were sorted last
 * @param {Entry[]} all      in the order of the script
 * @param {{id: string, lines: string[]}} doc
 * @param {Order} order
 * @returns {{entries: Entry[], held: Sorted, late: boolean}}
 */
export function inOrder(held, all, {id, lines}, order) {
  const sorted = sortEntries(all, order.by, order.back), numbers = all.map(({number}) => number).join(' '),
        stays = held.order === order && held.id === id && held.numbers === numbers && held.lines !== lines;
  if (!stays || !order.by) {
    const at = new Map(all.map((entry, i) => [entry, i]));
    const places = sorted.map(entry => at.get(entry) || 0);
    return {entries: sorted, held: {id, lines, order, numbers, places}, late: false};
  }
  const entries = held.places.map(at => all[at]);
  return {entries, held, late: entries.some((entry, i) => entry !== sorted[i])};
}
/**
 * Where a reader stands in the list as it is shown: the study and its row, and what the list was chosen by.
 * @typedef {{at: number, row: number, chosen: string}} Stand
 */
/**
 * The study a row further down or up. One that an edit took out of a filtered list is left for those beside its row; if
 * the study that is looked at was not in the list, for the first or the last.
 * @param {number[]} rows      the studies of the list
 * @param {number} here      the study that is looked at
 * @param {1 | -1} by
 * @param {Stand} stood      where the reader was last in the list
 * @param {string} chosen      what the list is chosen by
 * @returns {number | undefined}
 */
export function besideIn(rows, here, by, stood, chosen) {
  const row = rows.indexOf(here);
  if (row >= 0) return rows[row + by];
  if (stood.at === here && stood.chosen === chosen) return rows[stood.row + (by > 0 ? 0 : -1)];
  return rows[by > 0 ? 0 : rows.length - 1];
}
