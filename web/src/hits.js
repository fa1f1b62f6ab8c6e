// @ts-check
// A position that was found is looked at as a study, which becomes a document once it is changed; the next one and the
// one before; and all of them as a script.
import {button, h} from './dom.js';
import {change, track} from './actions.js';
import {keptPlace, openKept} from './documents.js';
import {rowAt} from './elsewhere.js';
import {linesOf, opened, rowSought} from './finding.js';
import {freshId} from './keep.js';
import {openText} from './opening.js';
import {toText} from './script.js';
import {app, doc, services} from './state.js';
/** @typedef {import('./finding.js').Found} Found */
/**
 * What was found, by the words of the search, and how much of the class that is; which one is looked at, as which
 * document, and the one before.
 * @typedef {{found: Found[], part: string, theme: string, words: string, at: number, id: string, before: string}} Hits
 */

let hits = /** @type {Hits | null} */ (null);
/** As which document each position was looked at last: it is kept if it was changed. */
const looks = /** @type {WeakMap<Found, string>} */ (new WeakMap());
/** What was found, if one of it is what is shown. */
export const hitsHere = () => (hits && hits.id === doc().id ? hits : null);
/**
 * The lines of a position as a study: with the row of only moves that its search says, else with its key.
 * @param {Found} found
 * @param {string} theme      with its number
 * @param {string} words      of the whole search
 */
async function studyOf(found, theme, words) {
  const goal = rowSought(found, theme, words), {fen} = opened(found);
  if (goal) await services.tables.loadFor([fen], services.facts);
  const row = goal ? await rowAt(services.facts, goal, fen) : null;
  return linesOf(found, theme, words, row ? row.moves : []);
}
/**
 * Looks at one of the positions that were found; one that was changed is shown as the document that it has become.
 * @param {{found: Found[], part: string, theme: string, words: string}} search
 * @param {number} at
 */
export const openHit = ({found, part, theme, words}, at) => track((async () => {
  if (!found[at]) return;
  const here = hitsHere(), own = keptPlace(looks.get(found[at]) || ''), id = own || freshId(),
        before = here    ? here.before
    : doc().lines.length ? doc().id
                         : '';
  const lines = own ? [] : await studyOf(found[at], theme, words);
  app.setup = null;
  hits = {found, part, theme, words, at, id, before};
  looks.set(found[at], id);
  if (own) return void await openKept(own);
  app.looked = id;
  await change(() => ({lines, name: '', note: '', id, at: 0, path: 'root', lenient: true}));
})());
/**
 * Looks at the next position, or at the one before.
 * @param {number} by
 */
export const stepHit = by => hits && openHit(hits, hits.at + by);
/**
 * All positions as the studies of one script.
 * @param {{found: Found[], theme: string, words: string}} search
 */
export const openAll = ({found, theme, words}) => track((async () => {
  const lines = /** @type {string[]} */ ([]);
  try {
    for (const [at, one] of found.entries()) {
      services.reading(at, found.length, 'Opening position');
      const [position, stipulation, ...moves] = await studyOf(one, theme, words);
      lines.push(position, stipulation, `tag Event ${words}, ${at + 1}`.slice(0, 70), ...moves, '');
    }
  } finally { services.reading(0, 0); }
  await openText(toText(lines), 'board', `${words}.script`);
})());
/**
 * Which position it is, with the ways to the others.
 * @param {() => any} openList
 */
export function hitsView(openList) {
  const here = hitsHere();
  if (!here) return null;
  const {found, part, words, at, before} = here;
  return h('p', {class: 'row', role: 'group', 'aria-label': 'Positions that were found'},
    h('b', {}, `${words}: ${at + 1} of ${found.length}${part}${keptPlace(doc().id) ? ', kept as a document' : ''}`),
    button('Previous', 'Page Up', () => stepHit(-1), {id: 'hitBefore', disabled: at === 0}),
    button('Next', 'Page Down', () => stepHit(1), {id: 'hitNext', disabled: at + 1 === found.length}),
    button('List', 'all that were found', openList, {id: 'hitList'}),
    button('Open all as a script', 'each as a study', () => openAll(here), {id: 'hitsAll'}),
    before && button('Back', 'the document before', () => openKept(before), {id: 'hitsBack'}));
}
