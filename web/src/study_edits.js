// @ts-check
// Whole studies of a script: copied, moved up and down, removed. Each is written so that it stands alone wherever it
// comes to.
import {isAimLine, isKnown, unknown} from './edits.js';
import {asCopied, namesOfGame, numberRemark} from './imported.js';
import {numbersOf} from './numbering.js';
import {beginsGame} from './remarks.js';
import {TAGS, isEdit, isQuestion, wordsOf} from './script.js';
import {aimWords} from './words.js';
/** @typedef {import('./types.js').Study} Study @typedef {import('./types.js').Change} Change */

/**
 * The lines of a study from its position on, with a stipulation above all that needs one: the study's own, if only tags
 * stand above it, else the one that it takes over.
 * @param {string[]} lines
 * @param {Study} study
 */
function stipulatedFirst(lines, study) {
  const [position, ...own] = lines.slice(study.from, study.end), at = own.findIndex(isAimLine);
  const above = own.slice(0, Math.max(at, 0)).filter(line => isEdit(line) || isQuestion(line));
  const aim = study.place.aim === undefined ? study.aim && 'stipulate ' + aimWords(study.aim)
                                            : above.length > 0 && study.carried.find(isAimLine);
  if (!aim) return [position, ...own];
  if (above.length && above.every(line => wordsOf(line)[0] === 'tag'))
    return [position, own[at], ...own.slice(0, at), ...own.slice(at + 1)];
  return [position, aim, ...own];
}
/**
 * The same with these lines behind the stipulation, above which there may be no study yet.
 * @param {string[]} own
 * @param {string[]} more
 */
function withTags(own, more) {
  const behind = own.findIndex(isAimLine) + 1 || 1;
  return [...own.slice(0, behind), ...more, ...own.slice(behind)];
}
/**
 * A line that sets a tag to what an earlier study left; to nothing, where the study's own text was refused.
 * @param {Study} study
 * @param {string} name
 */
const taken = ({tags, originals}, name) =>
  `tag ${name} ${isKnown(tags[name]) && !originals[name] ? tags[name] : unknown(name)}`;
/**
 * The lines of a study with all that it takes over from earlier ones, and without what it would take over elsewhere.
 * @param {string[]} lines
 * @param {Study} study
 * @param {string[]} names      the tags that some study has
 */
function selfContained(lines, study, names) {
  const own = stipulatedFirst(lines, study);
  while (own.length && !own[own.length - 1].trim()) own.pop();
  const tags = names.filter(name => study.place[name] === undefined).map(name => taken(study, name));
  return [...lines.slice(study.head, study.from), ...withTags(own, tags)];
}
/**
 * The lines of a study with the names of its game, where it is a part of one.
 * @param {string[]} lines
 * @param {Study} study
 * @param {string[]} names      the tags that some study has
 */
function named(lines, study, names) {
  const own = selfContained(lines, study, names), at = study.from - study.head;
  return [...own.slice(0, at), ...namesOfGame(own.slice(0, at), study), ...own.slice(at)];
}
/**
 * The lines of a study that make it alone, with its remarks.
 * @param {string[]} lines
 * @param {Study} study
 */
export const aloneLines = (lines, study) => named(lines, study, TAGS.filter(name => isKnown(study.tags[name])));
/**
 * The same as one more study of another document.
 * @param {string[]} lines
 * @param {Study} study
 */
export const copiedLines = (lines, study) => aloneLines(lines, study).flatMap(asCopied);
/**
 * The lines of a document in which each study keeps its number whatever comes behind it: one that is no game of a file
 * has a remark with it.
 * @param {import('./types.js').Script} doc
 */
function withOwnNumbers(doc) {
  const numbers = numbersOf(doc), lines = [...doc.lines];
  for (let i = doc.studies.length - 1; i >= 0; i--) {
    const {from, origin} = doc.studies[i];
    if (!origin.game && /^\d+$/.test(numbers[i])) lines.splice(from, 0, numberRemark(Number(numbers[i])));
  }
  return lines;
}
/**
 * The lines of two documents as those of one; the studies of the second one take over nothing from the first.
 * @param {import('./types.js').Script} first
 * @param {import('./types.js').Script} second
 */
export function joinedLines(first, second) {
  const names = TAGS.filter(name => first.studies.some(s => isKnown(s.tags[name]))), [s] = second.studies,
        lines = withOwnNumbers(first), rest = second.lines.slice(s.end);
  while (lines.length && !lines[lines.length - 1].trim()) lines.pop();
  return [
    ...lines, '', ...second.lines.slice(0, s.head), ...selfContained(second.lines, s, names),
    ...(rest.length && rest[0].trim() ? [''] : []), ...rest
  ];
}
/**
 * Lines with an empty one before them, and none behind.
 * @param {string[]} lines
 */
function apart(lines) {
  let end = lines.length;
  while (end && !lines[end - 1].trim()) end--;
  return end ? ['', ...lines.slice(0, end)] : [];
}
/**
 * The lines of entries behind a study: those whose positions were refused go with it; those from the first game on that
 * was left out, or stands there whole, stay where they are.
 * @param {string[]} lines
 * @param {Study[]} studies
 * @param {Study} study
 */
function entriesBehind(lines, studies, study) {
  const next = studies[studies.indexOf(study) + 1], rest = lines.slice(study.end, next ? next.head : lines.length),
        at = rest.findIndex(beginsGame), cut = at < 0 ? rest.length : at;
  return {along: apart(rest.slice(0, cut)), stay: apart(rest.slice(cut))};
}
/**
 * @param {string[]} lines
 * @param {Study[]} studies
 * @param {Study[]} order      the studies that are to stand there, one after the other
 * @param {Study} [moved]      one that goes to another place
 */
function inOrder(lines, studies, order, moved) {
  const names = TAGS.filter(name => studies.some(s => isKnown(s.tags[name])));
  const own = (/** @type {Study} */ study, /** @type {number} */ i) =>
    (order.indexOf(study) === i ? selfContained(lines, study, names) : named(lines, study, names).flatMap(asCopied));
  const behind = (/** @type {Study} */ study) => {
    const {along, stay} = entriesBehind(lines, studies, study), next = studies[studies.indexOf(study) + 1];
    return [
      ...along, ...(study === moved ? [] : stay),
      ...(moved && next === moved ? entriesBehind(lines, studies, moved).stay : [])
    ];
  };
  const blocks = order.map((study, i) => [...own(study, i), ...(order.lastIndexOf(study) === i ? behind(study) : [])]);
  const front = moved === studies[0] ? entriesBehind(lines, studies, moved).stay.slice(1) : [];
  return [
    ...lines.slice(0, studies[0].head), ...front, ...(front.length ? [''] : []),
    ...blocks.flatMap((block, i) => (i ? ['', ...block] : block))
  ];
}
/**
 * One more of the same, behind it; its refused lines too.
 * @param {string[]} lines
 * @param {Study[]} studies
 * @param {number} at
 * @returns {Change}
 */
export const copyStudy = (lines, studies, at) =>
  ({lines: inOrder(lines, studies, [...studies.slice(0, at + 1), ...studies.slice(at)]), at: at + 1, lenient: true});
/**
 * @param {string[]} lines
 * @param {Study[]} studies
 * @param {number} at
 * @param {number} by      how many places down
 * @returns {Change | null}
 */
export function moveStudy(lines, studies, at, by) {
  const to = at + by, order = [...studies];
  if (!by || !studies[to]) return null;
  order.splice(to, 0, ...order.splice(at, 1));
  return {lines: inOrder(lines, studies, order, studies[at]), at: to};
}
/**
 * Removes a study from the script, with the remarks above it, which are its own. What the next study takes over from it
 * becomes that one's own.
 * @param {string[]} lines
 * @param {Study[]} studies
 * @param {number} at
 * @returns {Change}
 */
export function dropStudy(lines, studies, at) {
  const study = studies[at], next = studies[at + 1], rest = {at: Math.max(at - 1, 0), path: 'root'};
  const without = (/** @type {string[]} */ all) => [...all.slice(0, study.head), ...all.slice(study.end)];
  if (!next) return {lines: without(lines), ...rest};
  const left = TAGS.filter(
    name => next.tags[name] !== undefined && next.place[name] === undefined && study.place[name] !== undefined);
  const own = study.place.aim === undefined ? lines.slice(next.from, next.end) : stipulatedFirst(lines, next);
  return {
    lines: without(
      [...lines.slice(0, next.from), ...withTags(own, left.map(name => taken(next, name))), ...lines.slice(next.end)]),
    ...rest
  };
}
