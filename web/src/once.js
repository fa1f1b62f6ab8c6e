// @ts-check
// What is made of a list is made once, as long as it is the same list: lists of a document are never changed.
/**
 * @template {object} T
 * @template R
 * @param {(list: T) => R} make
 * @returns {(list: T) => R}
 */
export function once(make) {
  const known = /** @type {WeakMap<T, R>} */ (new WeakMap());
  return list => {
    const there = known.get(list);
    if (there !== undefined) return there;
    const made = make(list);
    known.set(list, made);
    return made;
  };
}
