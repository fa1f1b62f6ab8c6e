// @ts-check
// What was typed in place of the text of a game and was not read yet. The browser keeps it, by the text that it is to
// replace: it stands in the field again after a reload, in each document with this game.
/** @typedef {{text: string, typed: string}} Mended */

const PLACE = 'studyboard.mended', MOST = 10;
/** @param {Pick<Storage, 'getItem' | 'setItem'>} local */
export function makeMended(local) {
  /** What the browser did not take. */
  let own = /** @type {Mended[] | null} */ (null);
  /** @returns {Mended[]} */
  function kept() {
    try {
      const list = JSON.parse(local.getItem(PLACE) || '[]');
      return list.filter((/** @type {any} */ one) => typeof one.text === 'string' && typeof one.typed === 'string');
    } catch { return []; }
  }
  /** @param {Mended[]} list */
  function keep(list) {
    const last = list.slice(0, MOST);
    try {
      local.setItem(PLACE, JSON.stringify(last));
      own = null;
    } catch { own = last; }
  }
  const list = () => own || kept();
  return {
    /**
     * What was typed in place of a text; the text itself, where nothing was.
     * @param {string} text
     */
    typedFor: text => (list().find(one => one.text === text) || {typed: text}).typed,
    /**
     * @param {string} text
     * @param {string} typed
     */
    keep: (text, typed) => keep([{text, typed}, ...list().filter(one => one.text !== text)]),
    /**
     * What was typed in place of a text is kept no more, once it was read.
     * @param {string} text
     */
    drop(text) {
      const rest = list().filter(one => one.text !== text);
      if (rest.length < list().length) keep(rest);
    },
    /**
     * Whether the browser has what was typed.
     * @param {string} typed
     */
    has: typed => kept().some(one => one.typed === typed)
  };
}
