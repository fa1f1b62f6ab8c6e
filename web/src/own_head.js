// @ts-check
// A game that is read again keeps what was set on the page: its tags, its stipulation, the words beside its moves, and
// the duals that were accepted; each part of it its own.
import {hasLine, hasTicked, tickedIn} from './accepted.js';
import {assumeAccepted} from './assumed.js';
import {setTag, stipulate} from './edits.js';
import {byHand} from './imported.js';
import {AT_MOVES, plain} from './notes.js';
import {cutAt, ownRemark} from './remarks.js';
import {squaresOf} from './saved_games.js';
import {TAGS} from './script.js';
import {partHere, wayTo} from './tails.js';
import {bareTree} from './unmarked.js';
import {aimWords, numberedLast} from './words.js';
/** @typedef {import('./types.js').Study} Study */
/** @typedef {(lines: string[], part: Study) => string[]} Edit      of one part of a game, in the lines of all */

/** @param {string[]} lines */
const partsIn = lines => assumeAccepted(lines).studies;
/** @param {Study} part */
const aimOf = ({aim}) => (aim ? aimWords(aim) : '');
/**
 * What gives a part the stipulation that was set for it.
 * @param {Study} own      the part as it was until now
 * @param {Study} then      as its text had it
 * @returns {Edit[]}
 */
function aimEdits(own, then) {
  const words = aimOf(own), {source} = own.origin;
  if (!words || (words === aimOf(then) && source === then.origin.source)) return [];
  const isOther = (/** @type {Study} */ part) =>
    part.origin.source !== source && (part.origin.source === 'option' || source === 'hand');
  return [
    (lines, part) => (isOther(part) ? lines.map(line => byHand(line)) : lines),
    (lines, part) => stipulate(lines, part, words).lines
  ];
}
/**
 * What gives it the tags that were written for it.
 * @param {Study} own
 * @param {Study} then
 * @returns {Edit[]}
 */
function tagEdits(own, then) {
  const isChanged = (/** @type {string} */ name) =>
    own.tags[name] !== then.tags[name] || own.originals[name] !== then.originals[name];
  return TAGS.filter(isChanged).map(name => (lines, part) => {
    const text = own.place[name] === undefined ? '' : own.tags[name];
    return setTag(lines, part, name, text, own.originals[name]).lines;
  });
}
/**
 * The tags above a position for which a script has no line.
 * @param {string[]} lines
 * @param {Study} part
 */
const otherTags = (lines, {head, from}) => new Map(lines.slice(head, from).flatMap(line => {
  const {word, rest} = ownRemark(line), [name] = cutAt(rest, ' ');
  return word === 'tag' && name !== 'Result' ? [[name, line]] : [];
}));
/**
 * What gives it those of them that were written for it.
 * @param {Map<string, string>} own
 * @param {Map<string, string>} then
 * @returns {Edit[]}
 */
const otherEdits =
  (own, then) => [...new Set([...own.keys(), ...then.keys()])]
                   .filter(name => own.get(name) !== then.get(name))
                   .map(name => (lines, part) => {
                     const line = own.get(name), there = otherTags(lines, part).get(name),
                           at = there ? lines.indexOf(there, part.head) : part.from;
                     return [...lines.slice(0, at), ...(line ? [line] : []), ...lines.slice(there ? at + 1 : at)];
                   });
/**
 * The parts of a game, each with the moves that lead to it; a study that is the whole game has none.
 * @param {string[]} lines
 */
const waysIn = lines => partsIn(lines).map(part => {
  const tail = partHere(part.origin);
  return {part, way: tail ? wayTo(lines, tail.node).map(plain).join(' ') : ''};
});
/**
 * The remarks above a part at moves, by the moves and by what they keep there: words, signs, or an accepted dual.
 * @typedef {Map<string, string[]>} Said
 * @param {string[]} lines
 * @param {Study} part
 */
function saidIn(lines, {head, from}) {
  const said = /** @type {Said} */ (new Map());
  for (const line of lines.slice(head, from)) {
    const {word, rest} = ownRemark(line), [moves, text] = cutAt(rest, ': '),
                 kind = word === 'accepted' ? word
      : /^\$\d+$/.test(text)                ? 'sign'
                                            : 'words',
                 key = `${squaresOf(moves)} ${kind}`;
    if (AT_MOVES.has(word)) said.set(key, [...(said.get(key) || []), line]);
  }
  return said;
}
/**
 * The text of such remarks.
 * @param {Said} said
 * @param {string} key
 */
const textAt = (said, key) => (said.get(key) || []).map(line => cutAt(ownRemark(line).rest, ': ')[1]).join(' ');
/**
 * Where the page says something else than the text did. If other men were set up, its moves are not those of the text,
 * and nothing was taken away at these.
 * @param {Said} own
 * @param {Said} file
 * @param {boolean} isSame      whether the men are those of the text
 */
const changedAt = (own, file, isSame) => [...new Set([...own.keys(), ...(isSame ? file.keys() : [])])].filter(
  key => textAt(own, key) !== textAt(file, key));
/**
 * The moves at which a line has words or signs, or accepts a dual; none at the start.
 * @param {string} line
 */
function movesOf(line) {
  const {word, rest} = ownRemark(line), [moves] = cutAt(rest, ': ');
  return AT_MOVES.has(word) && moves !== '-' ? moves.split(' ') : [];
}
/**
 * What has no place any more, by its line.
 * @param {string} fen
 * @param {string} line
 */
const goneText = (fen, line) =>
  `${tickedIn(line) ? 'the accepted dual' : 'what you wrote at'} ${numberedLast(fen, movesOf(line))}`;
/**
 * The lines of a game with what was set at the moves of a part of it. Where its text has other words than before, they
 * stand; of the duals that were accepted those whose moves are there.
 * @param {string[]} lines
 * @param {Study} part
 * @param {{own: Said, file: Said, changed: string[]}} set
 */
function withSaid(lines, part, {own, file, changed}) {
  const tree = bareTree(lines.slice(part.from, part.end)), there = saidIn(lines, part);
  const isOwn = (/** @type {string} */ key) => {
    const [mine, was, is] = [own, file, there].map(said => textAt(said, key));
    return mine !== is && (!is || !was || is === was);
  };
  const isGone = (/** @type {string} */ line) => tickedIn(line) !== '' && !hasTicked(tree, line);
  const isHidden = (/** @type {string} */ line) => movesOf(line).length > 0 && !hasLine(tree, movesOf(line));
  const keys = changed.filter(isOwn), put = keys.flatMap(key => own.get(key) || []),
        taken = new Set(keys.filter(key => file.has(key)).flatMap(key => there.get(key) || []));
  return {
    lines: [
      ...lines.slice(0, part.head), ...lines.slice(part.head, part.from).filter(line => !taken.has(line)),
      ...put.filter(line => !isGone(line)), ...lines.slice(part.from)
    ],
    gone: [...new Set(put.filter(line => isGone(line) || isHidden(line)).map(line => goneText(part.fen, line)))]
  };
}
/**
 * A part of a game with what was set for it since its text was read before.
 * @param {string[]} now      the lines of the game until now
 * @param {Study} part
 * @param {string[]} then      as its text had them
 * @param {Study} before
 */
function setFor(now, part, then, before) {
  const own = saidIn(now, part), file = saidIn(then, before), edits = [
    ...tagEdits(part, before), ...otherEdits(otherTags(now, part), otherTags(then, before)), ...aimEdits(part, before)
  ];
  return {edits, own, file, changed: changedAt(own, file, part.fen === before.fen)};
}
/**
 * The lines of a game that was read again, with what was set on the page since it was read before, at the parts after
 * the same moves; in words, what of it has no place any more; and the place of each part among those of the block,
 * or -1.
 * @param {string[]} block
 * @param {string[]} now      its lines until now
 * @param {string[]} then      as its text had them
 */
export function withOwn(block, now, then) {
  const file = waysIn(then), read = waysIn(block), gone = /** @type {string[]} */ ([]), parts = waysIn(now),
        places = parts.map(({way}) => read.findIndex(other => other.way === way));
  let lines = block;
  for (const [i, {part: own, way}] of parts.entries()) {
    const before = file.find(other => other.way === way), at = places[i];
    if (!before) continue;
    const set = setFor(now, own, then, before.part);
    if (at < 0) {
      if (set.edits.length || set.changed.some(key => set.own.has(key)))
        gone.push(`what was set for the part after ${partHere(own.origin)?.after}`);
      continue;
    }
    const edited = set.edits.reduce((all, edit) => edit(all, partsIn(all)[at]), lines),
          made = withSaid(edited, partsIn(edited)[at], set);
    lines = made.lines;
    gone.push(...made.gone);
  }
  return {lines, gone, places};
}
