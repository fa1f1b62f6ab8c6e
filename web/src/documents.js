// @ts-check
// Which document this page works on: kept at each change, found again after a reload, and chosen from the list of all.
import {$} from './dom.js';
import {arrive, work} from './actions.js';
import {app, doc, services, say} from './state.js';
import {freshId, makeKeeper} from './keep.js';
import {makeMended} from './mended.js';
import {begin as firstOf} from './history.js';
import {knownFacts} from './list_facts.js';
import {fensOf} from './script.js';
import {begin, draftKept} from './setup.js';
import {blank} from './state.js';
import {makeUnfinished} from './unfinished.js';
/** @typedef {import('./types.js').Doc} Doc */

/**
 * Storage, or one that refuses each text where the browser has none for this page.
 * @param {() => Storage} of
 */
function storage(of) {
  try {
    of().getItem('');
    return of();
  } catch {
    return /** @type {Storage} */ ({
      length: 0,
      key: () => null,
      getItem: () => null,
      setItem() { throw new Error('refused'); },
      removeItem() {},
      clear() {}
    });
  }
}
const local = storage(() => localStorage), session = storage(() => sessionStorage), page = freshId(),
      SESSION = 'studyboard', LOCK = 'studyboard page ';
const keeper = makeKeeper({local, page, factsOf: knownFacts});
export const {list, headAt, linesOf} = keeper;
export const mended = makeMended(local);

let said = '', leave = () => {};
/**
 * Each page holds a lock for as long as it stands open: its name says which page it is, and the places of the documents
 * that it has open.
 * @param {string[]} [places]
 */
export function holdLock(places = []) {
  const name = [LOCK + page, ...places.filter(Boolean)].join(' ');
  if (!navigator.locks || name === said) return;
  said = name;
  const hold = () => {
    leave();
    return new Promise(done => {
      leave = () => done(undefined);
    });
  };
  navigator.locks.request(name, hold).catch(() => {});
}
/**
 * The other pages that stand open now, as far as the browser says, with the places of what each has open.
 * @returns {Promise<Map<string, string[]>>}
 */
export async function otherPages() {
  const held = navigator.locks ? (await navigator.locks.query().catch(() => ({held: []}))).held || [] : [];
  const names = held.map(lock => lock.name || '').filter(name => name.startsWith(LOCK));
  return new Map(names.map(name => name.slice(LOCK.length).split(' ')).filter(([other]) => other !== page).map(([
    other, ...places
  ]) => [other, places]));
}
/**
 * Whether one of them has a document open.
 * @param {Map<string, string[]>} pages
 * @param {import('./heads.js').Head} head
 */
export const isOpenIn = (pages, head) => (pages.get(head.page) || []).includes(head.id);

/**
 * Whether the document was only looked at so far.
 * @param {any} draft      of another position for it
 */
const isLookedAt = draft =>
  doc().id !== '' && doc().id === app.looked && !draft && !app.history.past.length && !app.history.future.length;
/**
 * Keeps the document and the set-up as they are. A document that is only looked at is not kept: a reload shows the one
 * before.
 */
export function keep() {
  const draft = draftKept(), own = ownDraft() === doc().id ? '' : ownDraft(), looked = isLookedAt(own ? null : draft);
  let kept = true;
  if (doc().id && !looked)
    kept = keeper.keep(app.history, own ? null : draft, services.tables.knownClasses(fensOf(doc().lines)));
  if (own && draft) kept = keeper.keep(firstOf({...blank, id: own}), draft, []) && kept;
  else if (own && headAt(keeper.placeOf(own))) keeper.remove(keeper.placeOf(own));
  $('unkept').hidden = kept;
  const before = looked ? (pointer() || {id: ''}).id : doc().id && keeper.placeOf(doc().id),
        place = own && draft ? keeper.placeOf(own) : '';
  holdLock([before, place]);
  try {
    session.setItem(SESSION, JSON.stringify({id: before, draft: place}));
  } catch { /* a new page then */
  }
}
/** A document that is only looked at is kept from now on. */
export function keepLooked() {
  if (!doc().id || doc().id !== app.looked) return;
  app.looked = '';
  keep();
}
/** @returns {{id: string, draft: string} | null} */
function pointer() {
  try {
    const {id, draft} = JSON.parse(session.getItem(SESSION) || '');
    return {id: String(id || ''), draft: String(draft || '')};
  } catch { return null; }
}
/**
 * A document of an earlier version of this page, which had one place for all.
 * @param {string} old
 */
function adoptOld(old) {
  const kept = local.getItem(old);
  if (!kept) return;
  let found = {script: kept, at: 0, path: 'root', name: ''};
  try {
    const {script, at, path, name} = JSON.parse(kept);
    found = {script: String(script || ''), at: Number(at) || 0, path: String(path || 'root'), name: String(name || '')};
  } catch { /* the text itself */
  }
  const {script, ...rest} = found, id = freshId();
  if (!script.trim() ||
    keeper.keep(firstOf({...blank, ...rest, lines: script.split('\n'), id, judged: false}), null, []))
    local.removeItem(old);
  keeper.forget(id);
}
/**
 * What this page begins with: what it had before a reload; in a browser that was just opened the document that was
 * looked at last.
 * @returns {Promise<{kept: ReturnType<typeof keeper.open>, draft: import('./types.js').KeptDraft | null}>}
 */
export async function firstDocument() {
  adoptOld(SESSION);
  const before = pointer(), [last] = before ? [before.id && headAt(before.id)] : list();
  if (last) services.tables.fetchAhead(last.tables);
  const others = before ? null : await otherPages();
  const kept = last && !(others && others.size) ? keeper.open(last.id, false) : null,
        own = before && before.draft ? keeper.open(before.draft, false) : null;
  return {
    kept: kept && kept.history.now.lines.length ? kept : null,
    draft: own ? own.head.draft : kept && kept.head.draft
  };
}
/**
 * A document of the list takes the place of the one at hand, which is kept; one that another page has open is copied.
 * @param {string} id
 */
export const openKept = id => work(async () => {
  const head = headAt(id), copy = head !== null && isOpenIn(await otherPages(), head), kept = keeper.open(id, copy);
  if (!kept) {
    say('board', 'This document is not kept any more.');
    return services.show();
  }
  app.setup = null;
  const draft = kept.head.draft, empty = !kept.history.now.lines.length;
  await arrive(empty ? firstOf(blank) : kept.history);
  if (draft) begin(draft);
  if (copy) say('board', 'It is open in another window; this is a copy of it.', true);
  services.show();
});
/**
 * A document that was open before.
 * @param {string} id      its own
 */
export const openAgain = id => openKept(keeper.placeOf(id));
/**
 * One more version of a kept document.
 * @param {string} id
 */
export function copyKept(id) {
  if (!keeper.copy(id, isHere(id))) say('board', 'There is no room for a copy: remove other documents.');
}
/**
 * @param {string} id
 * @param {string} label
 */
export const renameKept = (id, label) => keeper.rename(id, label);
/** @param {string} id */
export const forget = id => {
  keeper.remove(id);
  services.show();
};
/** The document that the set-up becomes, where that is a new one. */
const ownDraft = () => (app.setup && app.setup.anew && !app.setup.more ? app.setup.id : '');
/** @param {string} id */
export const isHere = id => [doc().id, ownDraft()].some(own => own && keeper.placeOf(own) === id);
/** The place in which the document at hand is kept. */
export const placeHere = () => doc().id && keeper.placeOf(doc().id);
/**
 * The place in which a document of this page is kept; none, where it is not.
 * @param {string} id
 */
export function keptPlace(id) {
  const place = keeper.placeOf(id);
  return headAt(place) ? place : '';
}
export const unfinished = makeUnfinished(session);
export {local};
