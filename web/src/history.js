// @ts-check
// Undo and redo over any document: what is now, what was before, what was taken back.

/**
 * @template T
 * @typedef {{now: T, past: T[], future: T[]}} History
 */
/**
 * @template T
 * @param {T} now
 * @returns {History<T>}
 */
export const begin = now => ({now, past: [], future: []});
/**
 * A new state; the old one can be come back to.
 * @template T
 * @param {History<T>} h
 * @param {T} next
 * @returns {History<T>}
 */
export const advance = (h, next) => ({now: next, past: [...h.past, h.now], future: []});
/**
 * A state that is no step of its own, as another place looked at.
 * @template T
 * @param {History<T>} h
 * @param {T} next
 * @returns {History<T>}
 */
export const replace = (h, next) => ({...h, now: next});
/**
 * @template T
 * @param {History<T>} h
 * @returns {History<T>}
 */
export const undo = h =>
  (h.past.length ? {now: h.past[h.past.length - 1], past: h.past.slice(0, -1), future: [h.now, ...h.future]} : h);
/**
 * @template T
 * @param {History<T>} h
 * @returns {History<T>}
 */
export const redo = h =>
  (h.future.length ? {now: h.future[0], past: [...h.past, h.now], future: h.future.slice(1)} : h);
