// @ts-check
// Which classes of tables positions need, as the program says; kept by the position.
import {CLASSES} from './core_host.js';
import {DIGESTS} from './digests.js';
import {lettersOf} from './fen.js';
import {toText} from './script.js';

/** Of more positions those with the same men are requested together. */
const MANY = 64;
/** @param {import('./types.js').Engine} core */
export function makeClasses(core) {
  const known = /** @type {Map<string, string[]>} */ (new Map());
  /** @param {string[]} fens */
  async function request(fens) {
    const {text} = await core.answer('tables', toText(fens.map(fen => 'position ' + fen)), 1);
    return text.split(/\s+/).filter(word => DIGESTS[word] !== undefined);
  }
  /**
   * The classes that positions need, in the order in which to build them. Each position is requested and kept by
   * itself: one that is refused needs none, though another of the same men may. Of many those with the same men are
   * requested together, since others of them need these classes.
   * @param {string[]} fens
   * @returns {Promise<string[]>}
   */
  async function classesOf(fens) {
    const fresh = [...new Set(fens)].filter(fen => !known.has(fen)),
          byMen = /** @type {Map<string, string[]>} */ (new Map());
    for (const fen of fresh) {
      const men = fresh.length > MANY ? lettersOf(fen) : fen;
      const list = byMen.get(men);
      if (list) list.push(fen);
      else byMen.set(men, [fen]);
    }
    await Promise.all([...byMen.values()].map(async list => {
      const names = await request(list);
      for (const fen of list) known.set(fen, names);
    }));
    return knownClasses(fens);
  }
  /**
   * The classes that positions need, as far as they were requested before.
   * @param {string[]} fens
   */
  function knownClasses(fens) {
    const lists = new Set(fens.map(fen => known.get(fen) || [])), all = new Set([...lists].flat());
    return CLASSES.filter(name => all.has(name));
  }
  return {classesOf, knownClasses};
}
