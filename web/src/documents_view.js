// @ts-check
// The documents that this browser keeps, as a list: opened, named, copied as versions, compared, sorted and removed.
import {$, button, h, put, smallButton, panelHead} from './dom.js';
import {comparingView, compare, endComparing, followDocument, isComparing} from './comparing_view.js';
import {besideDiagram} from './drawing.js';
import {copyKept, forget, isHere, isOpenIn, list, openKept, otherPages, renameKept} from './documents.js';
import {inOrder, nameInList} from './heads.js';
import {joinKept} from './joining.js';
import {tooLong} from './limits.js';
import {sortHead, table} from './table.js';
import {services} from './state.js';
import {counted} from './words.js';
/** @typedef {import('./heads.js').Head} Head */

let elsewhere = /** @type {Map<string, string[]>} */ (new Map());
const ui = {
  sure: false,
  naming: '',
  order: {by: 'time', back: false},
  ticked: /** @type {Set<string>} */ (new Set())
};
/** @param {Partial<typeof ui>} changes */
function set(changes) {
  Object.assign(ui, {sure: false, naming: ''}, changes);
  services.show();
}
/**
 * A time as a day, or of today the hour.
 * @param {number} time
 */
export function when(time) {
  const at = new Date(time), now = new Date(), two = (/** @type {number} */ n) => `${n}`.padStart(2, '0');
  const day = `${at.getFullYear()}-${two(at.getMonth() + 1)}-${two(at.getDate())}`,
        hour = `${two(at.getHours())}:${two(at.getMinutes())}`;
  return at.toDateString() === now.toDateString() ? `today ${hour}` : `${day} ${hour}`;
}
/** @param {Head} head */
function nameField(head) {
  const rename = (/** @type {any} */ e) => {
    if (!tooLong('other', e.target.value)) renameKept(head.id, e.target.value.trim());
    set({});
  };
  return h('input',
    {id: 'nameKept', value: head.label || head.title, 'aria-label': 'The name of this document', onchange: rename});
}
/**
 * The diagram, and beside it the name by which a document is opened, its file, and where it is open.
 * @param {Head} head
 * @param {Head[]} all
 */
function nameView(head, all) {
  const here = isHere(head.id), other = isOpenIn(elsewhere, head),
        where = here ? 'open here'
    : other          ? 'open in another window'
                     : '';
  const open = button(nameInList(head, all), 'open it', () => {
    close();
    openKept(head.id);
  }, {class: 'link', 'data-kept': head.id, 'aria-current': here && 'true'});
  const notes = [head.label && head.title !== head.label && head.title, head.name, where].filter(Boolean);
  return besideDiagram(
    head.fen, [ui.naming === head.id ? nameField(head) : open, notes.map(text => h('div', {class: 'note'}, text))]);
}
/**
 * @param {Head} head
 * @param {Head[]} all
 */
function actionsView(head, all) {
  const name = nameInList(head, all);
  const naming = () => {
    set({naming: head.id});
    $('nameKept').focus();
    $('nameKept').select();
  };
  return [
    smallButton('Name', 'give it a name', naming, {'aria-label': `Name ${name}`, 'data-name': head.id}), ' ',
    smallButton('Copy', 'one more version of it',
      () => {
        copyKept(head.id);
        set({});
      },
      {'aria-label': `Copy ${name}`, 'data-copy': head.id})
  ];
}
/**
 * @param {Head} head
 * @param {Head[]} all
 */
function tickView(head, all) {
  const tick = (/** @type {any} */ e) => {
    if (e.target.checked) ui.ticked.add(head.id);
    else ui.ticked.delete(head.id);
    set({});
  };
  return h('input', {
    type: 'checkbox',
    checked: ui.ticked.has(head.id),
    onchange: tick,
    'data-tick': head.id,
    'aria-label': `Choose ${nameInList(head, all)}`
  });
}
/**
 * The documents that were looked at last.
 * @param {number} most
 */
export function listView(most) {
  const all = list();
  return all.length > 0 &&
    table(['Document', 'Verdict', 'Changed'], all.slice(0, most),
      head => [nameView(head, all), head.verdict || '–', when(head.time)]);
}
/**
 * What is done with the documents that are ticked.
 * @param {Head[]} all
 */
function tickedView(all) {
  const ids = [...ui.ticked].filter(id => all.some(head => head.id === id)), gone = ids.filter(id => !isHere(id));
  const names = () => ids.map(id => {
    const head = all.find(one => one.id === id);
    const file = head && head.name && !nameInList(head, all).includes(head.name) ? ` (${head.name})` : '',
          open = isHere(id) ? ', open here' : '';
    return /** @type {[string, string]} */ ([id, head ? nameInList(head, all) + file + open : '']);
  });
  const join = () => {
    close();
    joinKept(all.filter(({id}) => ids.includes(id)));
  };
  const remove = () => {
    if (!ui.sure) return set({sure: true});
    for (const id of gone) forget(id);
    ui.ticked.clear();
    set({});
  };
  return h('p', {class: 'row', role: 'group', 'aria-label': 'The documents that are chosen'},
    button(
      'Compare', 'two documents side by side', () => compare(names()), {id: 'compare', disabled: ids.length !== 2}),
    button(
      'Join', 'one more document, with the studies of all of them', join, {id: 'joinKept', disabled: ids.length < 2}),
    button(`Remove${gone.length ? ` ${gone.length}` : ''}${ui.sure ? ' for good' : ''}${
             gone.length < ids.length ? ', not the open one' : ''}`,
      'take them out of this browser', remove, {id: 'removeKept', disabled: !gone.length}));
}
/** @param {Head[]} all */
function wholeList(all) {
  const head = (/** @type {string} */ text, /** @type {string} */ by) =>
    sortHead(text, by, ui.order, order => set({order}));
  return [
    h('p', {class: 'note', id: 'howMany'}, `${counted(all.length, 'document')}.`), tickedView(all),
    table(['', head('Document', 'name'), head('Verdict', 'verdict'), head('Changed', 'time'), ''],
      inOrder(all, ui.order.by, ui.order.back),
      one => [tickView(one, all), nameView(one, all), one.verdict || '–', when(one.time), actionsView(one, all)])
  ];
}
const UNKEPT = 'This browser keeps nothing for this page: save each script as a file.';
/** Draws the panel, with as many rows of the list as there were, and scrolled as far. */
function drawPanel(/** @type {any[]} */...parts) {
  const panel = $('documents'), top = panel.scrollTop, rows = () => panel.querySelectorAll('tbody tr').length,
        count = rows();
  put('documents', ...parts);
  for (let more = panel.querySelector('.more'); more && rows() < count; more = panel.querySelector('.more'))
    more.click();
  panel.scrollTop = top;
}
/** The list over the page, by its button in the bar. */
export function showDocuments() {
  if ($('documents').hidden) return;
  followDocument();
  const all = list(), comparing = isComparing();
  const end = () => {
    endComparing();
    set({});
  };
  const note = h('p', {class: 'note'},
    'Each script that was begun or opened, as this browser keeps it, with its undo. Save as a file what is to last.');
  const back = () => h('p', {}, button('All documents', 'back to the list', end, {id: 'endComparing'}));
  drawPanel(panelHead(comparing ? 'Two versions' : 'Documents', close, 'closeDocuments'),
    comparing ? [back(), comparingView()]
              : [note, all.length ? wholeList(all) : h('p', {}, $('unkept').hidden ? 'None yet.' : UNKEPT)]);
}
export async function openDocuments() {
  const panel = $('documents');
  if (!panel.hidden) return close();
  endComparing();
  [panel.hidden, elsewhere] = [false, await otherPages()];
  ui.ticked.clear();
  $('documentsButton').setAttribute('aria-expanded', 'true');
  set({});
  const first = panel.querySelector('[data-kept]') || $('closeDocuments');
  if (first) first.focus();
}
/** Whether it was open. */
export function close() {
  const panel = $('documents'), open = !panel.hidden;
  panel.hidden = true;
  $('documentsButton').setAttribute('aria-expanded', 'false');
  if (open && panel.contains(document.activeElement)) $('documentsButton').focus();
  return open;
}
