// @ts-check
// What was typed into a field of the study, for a move or for the script and not handed over yet: the page keeps it
// over a reload, with its place.
/**
 * `id` is the field, `of` the document, `at` its study and `path` the node that was looked at.
 * @typedef {{id: string, value: string, of: string, at: number, path: string}} Unfinished
 */

const PLACE = 'studyboard.typed', FIELD = /^(note$|tag|other|san$|script$)/;
/** @param {Pick<Storage, 'getItem' | 'setItem' | 'removeItem'>} session */
export function makeUnfinished(session) {
  /** @returns {Unfinished | null} */
  function kept() {
    try {
      const {id, value, of, at, path} = JSON.parse(session.getItem(PLACE) || '');
      return {id: String(id), value: String(value), of: String(of), at: Number(at), path: String(path)};
    } catch { return null; }
  }
  return {
    kept,
    /**
     * Only what belongs to a study is kept, and a script, for which none needs to be there. Whether this does.
     * @param {Unfinished} typed
     */
    keep(typed) {
      if (!FIELD.test(typed.id) || !(typed.of || typed.id === 'script')) return false;
      try {
        session.setItem(PLACE, JSON.stringify(typed));
      } catch { /* it is lost with the page */
      }
      return true;
    },
    /**
     * What a field has handed over is kept no more; what was typed since stays.
     * @param {string} id
     * @param {string} value
     */
    drop(id, value) {
      const now = kept();
      if (now && now.id === id && now.value === value) session.removeItem(PLACE);
    }
  };
}
