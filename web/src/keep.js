// @ts-check
// The documents that the browser keeps, each at a place of its own: a head that lists show, and a body with the script
// and its undo.
//
// A document is written by the page that opened it last. Where another page has taken it over, this one goes on at a
// new place, so that two never write into one. Any page of file:// can write here, so what is read is only ever text.
import {headOf, nextVersion, readHead} from './heads.js';
import {once} from './once.js';
/** @typedef {import('./types.js').Doc} Doc @typedef {import('./types.js').KeptDraft} KeptDraft */
/** @typedef {import('./types.js').Review} Review @typedef {import('./heads.js').Head} Head */
/** @typedef {import('./history.js').History<Doc>} History */
/**
 * The next script: lines from a place on that replace others.
 * @typedef {{at: number, path: string, from: number, gone: number, lines: string[]}} Step
 */
const HEAD = 'studyboard.head.', BODY = 'studyboard.body.', STEPS = 300, LETTERS = 300000;
/** No browser keeps more letters of a page. */
const MOST_LETTERS = 5 * 2 ** 20;
/** A new place, or a new page. */
export const freshId = () => Date.now().toString(36) + Math.random().toString(36).slice(2, 8);

/**
 * What makes one list of lines of another.
 * @param {string[]} old
 * @param {string[]} next
 */
export function difference(old, next) {
  const least = Math.min(old.length, next.length);
  let from = 0, end = 0;
  while (from < least && old[from] === next[from]) from++;
  while (end < least - from && old[old.length - 1 - end] === next[next.length - 1 - end]) end++;
  return {from, gone: old.length - from - end, lines: next.slice(from, next.length - end)};
}
/** How many letters a script has. */
export const lettersIn = once((/** @type {string[]} */ lines) => lines.reduce((sum, line) => sum + line.length + 1, 0));
/** @type {WeakMap<string[], {old: string[], change: ReturnType<typeof difference>}>} */
const differences = new WeakMap();
/**
 * @param {string[]} old
 * @param {string[]} next
 */
function changeTo(old, next) {
  const known = differences.get(next);
  if (known && known.old === old) return known.change;
  const change = difference(old, next);
  differences.set(next, {old, change});
  return change;
}
/**
 * The states of one document from a state on, the nearest first, each as a change of the one before; the far ones are
 * left out where there are many.
 * @param {Doc} now
 * @param {Doc[]} list
 * @returns {Step[]}
 */
export function toSteps(now, list) {
  const steps = /** @type {Step[]} */ ([]);
  let letters = 0, old = now.lines;
  for (const {id, lines, at, path} of list) {
    const change = changeTo(old, lines);
    letters += change.lines.reduce((sum, line) => sum + line.length + 1, 40);
    if (id !== now.id || steps.length >= STEPS || letters > LETTERS) break;
    steps.push({at, path, ...change});
    old = lines;
  }
  return steps;
}
/**
 * @param {Doc} now
 * @param {any} steps
 * @returns {Doc[]}
 */
export function fromSteps(now, steps) {
  let lines = now.lines;
  return (Array.isArray(steps) ? steps : []).map(step => {
    const from = Number(step.from) || 0, more = Array.isArray(step.lines) ? step.lines.map(String) : [];
    lines = [...lines.slice(0, from), ...more, ...lines.slice(from + (Number(step.gone) || 0))];
    return {
      ...now,
      lines,
      at: Number(step.at) || 0,
      path: String(step.path || 'root'),
      studies: [],
      refused: [],
      judged: false
    };
  });
}

/** @typedef {Pick<Storage, 'getItem' | 'setItem' | 'removeItem' | 'key' | 'length'>} Local */
/**
 * @typedef {{reviews: (Review | null)[], open: boolean[]}} Facts
 *   the facts of each study that are known, and which are still to be found
 */
/**
 * @param {{local: Local, page: string, now?: () => number, factsOf?: (doc: Doc) => Facts}} parts
 */
export function makeKeeper({local, page, now = Date.now, factsOf = () => ({reviews: [], open: []})}) {
  const own = /** @type {Map<string, string>} */ (new Map()), copied = /** @type {Map<string, Head>} */ (new Map()),
        last = /** @type {Map<string, any[]>} */ (new Map());
  /**
   * @param {string} key
   * @returns {any}
   */
  function read(key) {
    try {
      const found = JSON.parse(local.getItem(key) || '');
      return found && typeof found === 'object' ? found : null;
    } catch { return null; }
  }
  /**
   * @param {string} id
   * @returns {Head | null}
   */
  function headAt(id) {
    const h = read(HEAD + id);
    return h ? readHead(id, h) : null;
  }
  /** @returns {Head[]} */
  function list() {
    const keys = /** @type {string[]} */ ([]);
    try {
      for (let i = 0; i < local.length; i++) keys.push(local.key(i) || '');
    } catch { /* nothing is kept */
    }
    const heads = keys.filter(key => key.startsWith(HEAD)).map(key => headAt(key.slice(HEAD.length)));
    return /** @type {Head[]} */ (heads.filter(Boolean)).sort((x, y) => y.seen - x.seen);
  }
  /**
   * Where there is no room the undo of other documents is given up, that of the oldest first.
   * @param {string} key
   * @param {string} text
   */
  function write(key, text) {
    let others = /** @type {Head[] | null} */ (null);
    for (;;) {
      try {
        local.setItem(key, text);
        return true;
      } catch { /* the next one's undo */
      }
      others = others || list().reverse().filter(head => !key.endsWith(head.id));
      const other = others.shift(), body = other && read(BODY + other.id);
      if (!other) return false;
      const less = body && JSON.stringify({script: body.script, past: [], future: []});
      try {
        if (less) local.setItem(BODY + other.id, less);
      } catch { return false; }
    }
  }
  /**
   * The place of a document of this page: another one where another page has taken it over.
   * @param {string} id
   */
  function placeOf(id) {
    const place = own.get(id) || id, head = headAt(place);
    if (head && head.page !== page) {
      own.set(id, freshId());
      copied.set(own.get(id) || '', {...head, version: nextVersion(head, list())});
      last.delete(id);
    }
    return own.get(id) || id;
  }
  return {
    list,
    headAt,
    placeOf,
    /**
     * Keeps a document as it is now; a draft that has no document yet is kept with an empty script. Whether the browser
     * took it: one for which there was no room is tried again once it has changed, or another one is removed.
     * @param {History} history
     * @param {KeptDraft | null} draft
     * @param {string[]} tables
     */
    keep(history, draft, tables) {
      const doc = history.now, before = last.get(doc.id), place = placeOf(doc.id), old = headAt(place);
      const same = before && before[0] === doc.lines && before[1] === history.past && before[2] === history.future;
      if ((same && !before[3]) || lettersIn(doc.lines) > MOST_LETTERS) return false;
      const body = same ? '' : JSON.stringify({
        script: doc.lines.join('\n'),
        past: toSteps(doc, [...history.past].reverse()),
        future: toSteps(doc, history.future)
      });
      const changed = !same && local.getItem(BODY + place) !== body,
            drawn = JSON.stringify(draft) !== JSON.stringify(old && old.draft);
      const head = {
        ...headOf(doc, draft, factsOf(doc), old || copied.get(place) || null, !changed),
        page,
        time: changed || drawn || !old ? now() : old.time,
        seen: now(),
        tables,
        draft
      };
      const taken = (!changed || write(BODY + place, body)) && write(HEAD + place, JSON.stringify(head));
      last.set(doc.id, [doc.lines, history.past, history.future, taken]);
      return taken;
    },
    /**
     * A kept document with its undo, from now on this page's; a copy of it where it is open in another one.
     * @param {string} id
     * @param {boolean} copy
     * @returns {{head: Head, history: History} | null}
     */
    open(id, copy) {
      const head = headAt(id), body = read(BODY + id),
            script = body && typeof body.script === 'string' ? body.script : '';
      if (!head) return null;
      own.set(id, copy ? freshId() : id);
      if (copy) copied.set(own.get(id) || '', {...head, version: nextVersion(head, list())});
      else write(HEAD + id, JSON.stringify({...head, page, seen: now()}));
      const lines = script ? script.split('\n') : [], {at, path, name, note} = head;
      const doc = /** @type {Doc} */ ({lines, studies: [], refused: [], at, path, name, note, id, judged: false});
      return {
        head,
        history:
          {now: doc, past: fromSteps(doc, body && body.past).reverse(), future: fromSteps(doc, body && body.future)}
      };
    },
    /**
     * One more version of a document: a copy with its undo. Where one goes on with the document itself, that one is the
     * next version, and the copy keeps its number.
     * @param {string} id
     * @param {boolean} goesOn
     * @returns {boolean} whether there was room for it
     */
    copy(id, goesOn = false) {
      const head = headAt(id), body = local.getItem(BODY + id), to = freshId();
      if (!head || !body) return false;
      const version = nextVersion(head, list()), alike = {...head, page: '', seen: now()},
            next = goesOn ? alike : {...alike, time: now(), version};
      return write(BODY + to, body) && write(HEAD + to, JSON.stringify(next)) &&
        (!goesOn || write(HEAD + id, JSON.stringify({...head, version})));
    },
    /**
     * Gives a document a name of its own; none: that of its first study.
     * @param {string} id
     * @param {string} label
     */
    rename(id, label) {
      const head = headAt(id);
      return Boolean(head) && write(HEAD + id, JSON.stringify({...head, label}));
    },
    /**
     * The lines of a kept document, which stays its page's.
     * @param {string} id
     * @returns {string[]}
     */
    linesOf(id) {
      const body = read(BODY + id);
      return body && typeof body.script === 'string' ? body.script.split('\n') : [];
    },
    /** @param {string} id */
    remove(id) {
      try {
        for (const key of [HEAD + id, BODY + id]) local.removeItem(key);
      } catch { /* it was not kept */
      }
      for (const [other, [, , , taken]] of last)
        if (!taken) last.delete(other);
    },
    /** @param {string} id */
    forget(id) { last.delete(id); },
  };
}
