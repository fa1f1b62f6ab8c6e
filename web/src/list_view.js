// @ts-check
// The list of a script's entries with their verdicts: filtered by kind and name, sorted by each column, and as a file.
import {$, button, download, h, put, smallButton} from './dom.js';
import {goStudy, goTo, track} from './actions.js';
import {doc, services} from './state.js';
import {countsOf, csvOf, findEntries, isOfKind, kindWords} from './entry_list.js';
import {drawnAgain, markAt} from './list_box.js';
import {NONE, cellsOf, sharedOf, sharedView} from './list_rows.js';
import {UNSORTED, besideIn, inOrder} from './list_order.js';
import {howManyKnown, knownEntries, reviewAll} from './list_facts.js';
import {sheetOf} from './sheet.js';
import {sortHead, table} from './table.js';
import {wordOf, wordsNamed} from './wording.js';
import {counted} from './words.js';
/** @typedef {import('./entries.js').Entry} Entry */

const COLUMNS = ['number', 'title', 'author', 'aim', 'verdict'];
const ui = {
  folded: false,
  filter: '',
  find: '',
  order: {by: '', back: false},
  id: ''
};
/** What is filtered and sought in one document is not so in another. */
function beginList() {
  if (ui.id === doc().id) return;
  Object.assign(ui, {filter: '', find: '', id: doc().id});
  if ($('findEntry')) $('findEntry').value = '';
}
/** @param {string} kind */
function toggleFilter(kind) {
  ui.filter = ui.filter === kind ? '' : kind;
  services.show();
}
/** All that the list is drawn from, but for the study that is looked at. */
export function listFrom() {
  beginList();
  return [knownEntries(doc()), ui.filter, ui.order];
}
/** Marks the study that is looked at in the list as it is drawn. */
export function markShown() {
  const row = shownStudies().indexOf(doc().at);
  if (row >= 0) stood = {at: doc().at, row, chosen: chosenBy()};
  markAt(doc().id, doc().at);
}
/** @param {Entry} entry */
function numberButton(entry) {
  const text = entry.number || '\u2013', here = entry.at === doc().at && 'true';
  const props =
    {class: 'link', 'aria-current': here, 'aria-label': !entry.number && `Show ${entry.title}`, 'data-at': entry.at};
  return entry.at < 0 ? text : button(text, 'show it', () => goStudy(entry.at), props);
}
let wanted = /** @type {{by: any[], entries: Entry[], late: boolean}} */ ({by: [], entries: [], late: false}),
    held = UNSORTED, stood = {at: -1, row: -1, chosen: ''};
const chosenBy = () => `${doc().id} ${ui.filter} ${ui.find}`;
/** The entries that are wanted, in their order: the same list as long as nothing has changed. */
function shownEntries() {
  beginList();
  const all = knownEntries(doc()), by = [all, ui.filter, ui.find, ui.order];
  if (by.some((thing, i) => thing !== wanted.by[i])) {
    const {entries, held: now, late} = inOrder(held, all, doc(), ui.order);
    held = now;
    wanted = {
      by,
      late,
      entries: findEntries(entries.filter(entry => !ui.filter || isOfKind(entry, ui.filter)), ui.find)
    };
  }
  return wanted.entries;
}
/** The studies among them. */
const shownStudies = () => shownEntries().map(({at}) => at).filter(at => at >= 0);
/**
 * The study so many rows down the list as it is shown, if there is one; where the one that is looked at is not shown,
 * the first or the last of the list.
 * @param {1 | -1} by
 * @returns {number | undefined}
 */
export const studyBeside = by => besideIn(shownStudies(), doc().at, by, stood, chosenBy());
/** Why no row is shown. */
function noneText() {
  const [, n = 0] = countsOf(knownEntries(doc())).find(([kind]) => kind === ui.filter) || [];
  return n
    ? `None of the ${n} ${kindWords(ui.filter, n)} has this name; one more press on that count shows all entries.`
    : 'No entry has this name.';
}
/**
 * That rows have kept their places since the list was sorted.
 * @param {() => any} sort
 */
const lateView = sort => h('p', {class: 'note', id: 'late'}, 'Sorted before your last changes. ',
  smallButton('Sort again', 'by the same heading', sort, {id: 'sortAgain'}));
/** The rows that are wanted, in their order. */
function rowsView() {
  const all = knownEntries(doc()), shown = shownEntries();
  const set = (/** @type {import('./table.js').Order} */ order) => {
    ui.order = order;
    services.show();
  };
  const heads =
    wordsNamed('list-heads').map((head, i) => sortHead(head.replace('pul', 'pu\u00adl'), COLUMNS[i], ui.order, set));
  if (!shown.length) return h('p', {class: 'note'}, noneText());
  const shared = sharedOf(all);
  return [
    sharedView(shared), wanted.late && lateView(() => set({...ui.order})),
    table(heads, shown, entry => cellsOf(entry, numberButton(entry), shared))
  ];
}
/**
 * In the field for a name Enter shows the first study that is found, Page Down and Page Up the next one and the one
 * before. Whether the key was one of these.
 * @param {string} key
 */
function stepKey(key) {
  const by = key === 'PageDown' ? 1 : key === 'PageUp' ? -1 : 0;
  if (!by && key !== 'Enter') return false;
  goTo(() => (by ? studyBeside(by) : shownStudies()[0]));
  return true;
}
/** What can be done with the list as a whole. */
function toolsView() {
  const named = (/** @type {string} */ text) => {
    ui.find = text.slice(0, 200);
    drawRows();
  };
  const find = h('input', {
    id: 'findEntry',
    type: 'search',
    placeholder: 'find a name',
    'aria-label': 'Find a title, an author or a number',
    value: ui.find,
    oninput: (/** @type {any} */ e) => named(e.target.value),
    onkeydown: (/** @type {any} */ e) => {
      if (stepKey(e.key)) return e.preventDefault();
      if (e.key !== 'Escape') return;
      e.target.value = '';
      named('');
    }
  });
  return h('p', {class: 'row act'}, find, h('span', {id: 'findAll'}),
    button('Save list', 'as comma-separated values, with the first fault and the numbers of duals', saveList,
      {id: 'saveList'}),
    button('Save sheet', 'the diagrams of all studies, twelve on a page', saveSheet, {id: 'saveSheet'}));
}
/** How many facts are still to be found: on demand, where there are many studies. */
function findAllView() {
  const {known, of, unwanted} = howManyKnown(doc());
  if (known === of) return null;
  return unwanted
    ? button('Find all faults', `the facts of ${counted(of - known, 'study', 'studies')} that are not known yet`,
        () => track(reviewAll(doc(), true)), {id: 'findFaults'})
    : h('span', {class: 'note', id: 'findingFaults'}, `finding faults: ${known} of ${of}`);
}
/** The numbers of each kind, which show these alone. */
function kindsView() {
  const counts = countsOf(knownEntries(doc()));
  if (!counts.some(([kind]) => kind === ui.filter)) ui.filter = '';
  return counts.map(([kind, n]) => button(`${n} ${kindWords(kind, n)}`, 'show these alone', () => toggleFilter(kind), {
    class: `chip act${ui.filter === kind ? ' on' : ''}`,
    'data-kind': kind,
    'aria-pressed': `${ui.filter === kind}`
  }));
}
/**
 * A click anywhere in a row opens its study.
 * @param {Event} e
 */
function openRow({target}) {
  const at = /** @type {Element} */ (target), number = at.closest('button, summary') ? null : at.closest('tr');
  const button = number && /** @type {HTMLElement | null} */ (number.querySelector('button[data-at]'));
  if (button) button.click();
}
/** The entries in a table, below the numbers of each kind. */
const frameView = () => [h('h2', {},
                           h('button', {
                             id: 'foldList',
                             class: 'fold',
                             title: 'show the list, or its heading alone',
                             'aria-expanded': `${!ui.folded}`,
                             onclick: foldList
                           },
                             h('span', {id: 'studiesTitle'}, wordOf('list')))),
  h('div', {id: 'unfolded', hidden: ui.folded},
    h('p', {class: 'row', id: 'kinds', role: 'group', 'aria-label': 'Show one kind'}), toolsView(),
    h('div', {id: 'rows', onclick: openRow}))];
/** So that the solution stands higher. */
function foldList() {
  ui.folded = !ui.folded;
  $('unfolded').hidden = ui.folded;
  $('foldList').setAttribute('aria-expanded', `${!ui.folded}`);
}
let drawnBy = '';
function drawRows() {
  const by = JSON.stringify(ui);
  drawnAgain(() => put('rows', rowsView()), drawnBy === by);
  drawnBy = by;
  nameSaves();
}
/** The list, in its frame, which stays, and with it what is being typed there. */
export function drawList() {
  const many = knownEntries(doc()).length > 1;
  if (many !== Boolean($('rows'))) put('list', many && frameView());
  if (!many) return;
  put('kinds', kindsView());
  put('findAll', findAllView());
  drawRows();
}
/** What the entries that are shown have been chosen by, if these are not all. */
function chosenView() {
  const all = knownEntries(doc()).length, shown = shownEntries().length,
        named = ui.find.trim() && `with “${ui.find.trim()}” in title, author or number`,
        by = [ui.filter && kindWords(ui.filter, shown), named];
  return shown < all &&
    h('p', {class: 'note'}, `${shown} of ${counted(all, 'entry', 'entries')}: ${by.filter(Boolean).join(', ')}.`);
}
/** The entries that are shown, for paper: where it is printed before all facts are found, that they lack. */
export function paperList() {
  const entries = shownEntries(), {known, of} = howManyKnown(doc()), open = entries.some(entry => entry.open);
  return knownEntries(doc()).length > 1 && [
    h('h2', {}, wordOf('list')), chosenView(),
    open &&
      h('p', {class: 'note'},
        `Printed before all faults were found: those of ${known} of ${
          of} studies are known. A verdict with … may change.`),
    table(wordsNamed('list-heads'), entries, entry => cellsOf(entry, entry.number || '\u2013', NONE))
  ];
}
/**
 * The entries that are shown, as a file, in their order. The facts of all studies are found first. Spreadsheets take
 * the letters for UTF-8 by the mark at the front.
 */
async function saveList() {
  await reviewAll(doc(), true);
  download(`${doc().name || 'studies'}.csv`, '\ufeff' + csvOf(shownEntries()));
}
function saveSheet() {
  const title = doc().name || $('studiesTitle').textContent;
  download(`${doc().name || 'studies'}.sheet.html`, sheetOf(doc(), title, shownStudies()));
}
/** What the buttons save: of a filtered list what is shown, and a report of all studies. */
export function nameSaves() {
  const all = knownEntries(doc()).length, shown = shownEntries().length, few = shown < all;
  for (const [id, words, more] of [['saveList', 'Save list', `${shown} of ${all}`],
         ['saveSheet', 'Save sheet', `${shown} of ${all}`], ['saveReport', 'Save report', `all ${all}`]])
    if ($(id)) $(id).textContent = few ? `${words} (${more})` : words;
}
