// @ts-check
// What lists say of a kept document without its script: its name, its first position, its verdict, and which version of
// another one it is.
import {howManyLeftOut, studyName} from './entries.js';
import {openStamp, stampOf} from './stamps.js';
import {countsOf, kindWords} from './entry_list.js';
import {control} from './fen.js';
import {counted} from './words.js';
/** @typedef {import('./types.js').Doc} Doc @typedef {import('./types.js').KeptDraft} KeptDraft */
/** @typedef {import('./types.js').Review} Review */
/**
 * @typedef {object} Head
 * @property {string} id
 * @property {string} page      the page that writes it
 * @property {number} time      of its last change
 * @property {number} seen
 * @property {string} name      of its file
 * @property {string} title      of its first study
 * @property {string} label      the name that the user gave it
 * @property {string} fen      the start of the study that is looked at
 * @property {string} family      the document that it is a version of, or its own id
 * @property {number} version      1 of the first
 * @property {string} verdict
 * @property {string} note
 * @property {number} at
 * @property {string} path
 * @property {string[]} tables
 * @property {KeptDraft | null} draft
 */


/**
 * What a list says of a document: its first study, and the stamps of all, as far as their facts are known.
 * @param {Doc} doc
 * @param {(Review | null)[]} reviews
 * @param {boolean[]} open      whether the facts of each study are still being found
 */
export function summary(doc, reviews = [], open = []) {
  const {studies} = doc;
  if (last.studies === studies && last.reviews === reviews) return last.made;
  const stamps = studies.map((s, i) => stampIn(doc, s, reviews[i] || null, Boolean(open[i]))),
        out = Array.from({length: howManyLeftOut(doc)}, () => ({kind: 'left out'}));
  const counts = countsOf([...stamps, ...out])
                   .filter(([kind]) => kind !== 'not judged')
                   .map(([kind, n]) => `${n} ${kindWords(kind, n)}`)
                   .join('; ');
  const made = {
    title: (studies[0] ? studyName(studies[0]) : '') +
      (studies.length > 1 ? ` and ${counted(studies.length - 1, 'more study', 'more studies')}` : ''),
    verdict: (stamps.length + out.length === 1 && stamps.length ? stamps[0].text
                 : counts && open.includes(true)                ? `${counts} …`
                                                                : counts) ||
      'not judged'
  };
  if (studies.length) last = {studies, reviews, made};
  return made;
}
let last = /** @type {{studies: any, reviews: any, made: {title: string, verdict: string}}} */ (
  {studies: null, reviews: null, made: {title: '', verdict: ''}});

const stamps =
  /** @type {WeakMap<any, {review: Review | null, open: boolean, stamp: {kind: string, text: string}}>} */ (
    new WeakMap());
/**
 * The stamp of a study, made once for the same facts.
 * @param {Doc} doc
 * @param {import('./types.js').Study} s
 * @param {Review | null} review
 * @param {boolean} open
 */
function stampIn(doc, s, review, open) {
  const known = stamps.get(s);
  if (known && known.review === review && known.open === open) return known.stamp;
  const said = stampOf(doc, s, review), stamp = open ? openStamp(said) : said;
  stamps.set(s, {review, open, stamp});
  return stamp;
}

/** @param {any} list */
export const texts = list => (Array.isArray(list) ? list.map(String) : []);
/**
 * A set-up as it was kept; one of a new document becomes the one whose place it has.
 * @param {any} draft
 * @param {string} id
 * @returns {KeptDraft | null}
 */
function draftOf(draft, id) {
  const [past, future] = [texts(draft && draft.past), texts(draft && draft.future)];
  const isPlaced = (/** @type {any} */ text) => /^[1-8KQRBNPkqrbnp/]+ [wb] .*\|/.test(text);
  if (!draft || ![draft.placed, ...past, ...future].every(isPlaced)) return null;
  return {placed: draft.placed, past, future, anew: Boolean(draft.anew), more: Boolean(draft.more), id};
}
/**
 * A head as it was written, by whatever page.
 * @param {string} id
 * @param {any} h
 * @returns {Head}
 */
export function readHead(id, h) {
  const text = (/** @type {any} */ x) => (typeof x === 'string' ? x : '');
  return {
    id,
    page: text(h.page),
    time: Number(h.time) || 0,
    seen: Number(h.seen) || 0,
    name: text(h.name),
    title: text(h.title),
    label: text(h.label),
    fen: /^[1-8KQRBNPkqrbnp/]+ [wb] /.test(h.fen) ? h.fen : '',
    family: text(h.family) || id,
    version: Number(h.version) || 1,
    verdict: text(h.verdict),
    note: text(h.note),
    at: Number(h.at) || 0,
    path: text(h.path) || 'root',
    tables: texts(h.tables),
    draft: draftOf(h.draft, id)
  };
}
/**
 * The head of a document as it is now; its name and its version stay.
 * @param {Doc} doc
 * @param {KeptDraft | null} draft
 * @param {{reviews: (Review | null)[], open: boolean[]}} facts
 * @param {Head | null} old
 * @param {boolean} same      whether the script is what it was: then the verdict stays while its facts are found again
 */
export function headOf(doc, draft, {reviews, open}, old, same) {
  const only = !doc.lines.length && draft, shown = doc.studies[doc.at], placed = draft ? draft.placed : '',
        {title, verdict} = only ? {title: `Set-up: ${control(placed)}`, verdict: ''} : summary(doc, reviews, open),
        stays = same && old !== null && open.includes(true) && old.verdict !== 'not judged';
  return {
    name: doc.name,
    title,
    verdict: stays && old ? old.verdict : verdict,
    fen: only ? placed.split('|')[0]
      : shown ? shown.fen
              : '',
    label: old ? old.label : '',
    family: old ? old.family : '',
    version: old ? old.version : 1,
    note: doc.note,
    at: doc.at,
    path: doc.path
  };
}
/** @param {Head} head */
const plainName = ({label, title}) => label || title || 'Empty';
/**
 * The name of a document in lists: versions of one have their number.
 * @param {Head} head
 * @param {Head[]} all
 */
export function nameInList(head, all) {
  const many = all.some(other => other.family === head.family && other.id !== head.id);
  return plainName(head) + (many || head.version > 1 ? `, version ${head.version}` : '');
}
/**
 * The number of the next version of a document.
 * @param {Head} head
 * @param {Head[]} all
 */
export const nextVersion = (head, all) =>
  1 + Math.max(...all.filter(({family}) => family === head.family).map(({version}) => version));
const collator = new Intl.Collator();
const ORDERS = /** @type {Record<string, (x: Head, y: Head) => number>} */ ({
  name: (x, y) => collator.compare(plainName(x), plainName(y)) || x.version - y.version,
  verdict: (x, y) => collator.compare(x.verdict, y.verdict),
  time: (x, y) => y.time - x.time
});
/**
 * Heads in an order: by name, by verdict, the one changed last first; else as they come.
 * @param {Head[]} heads
 * @param {string} by
 * @param {boolean} [back]
 */
export function inOrder(heads, by, back = false) {
  const sorted = ORDERS[by] ? [...heads].sort(ORDERS[by]) : [...heads];
  return back ? sorted.reverse() : sorted;
}
