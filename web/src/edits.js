// @ts-check
// What the user does, as a change of the script's lines. Each function gives the lines to be run; the program takes or
// refuses them.
import {samePosition} from './fen.js';
import {namesOfGame, originalsIn, restated} from './imported.js';
import {isCutLine, withoutCut} from './left_out.js';
import {aimWords} from './words.js';
import {TAGS, isEdit, isGame, oneGame, wordsOf} from './script.js';
import {allNodes} from './parse_answers.js';
import {tailIn} from './tails.js';
import {insertions} from './tree_room.js';
/** @typedef {import('./types.js').Study} Study @typedef {import('./types.js').Change} Change */
/** @typedef {import('./types.js').TreeNode} TreeNode */

/**
 * @param {string[]} lines
 * @param {number} at
 * @param {number} gone
 * @param {string[]} more
 */
const splice = (lines, at, gone, ...more) => [...lines.slice(0, at), ...more, ...lines.slice(at + gone)];
/**
 * @param {string[]} lines
 * @param {Study} study
 * @param {string[]} more
 */
const append = (lines, study, ...more) => splice(lines, study.last + 1, 0, ...more);

/**
 * Several lines of moves, each one below the other, from a node on; what is there already is walked. What stands in
 * brackets begins where the move before it does.
 * @param {string[]} lines
 * @param {Study} study
 * @param {TreeNode} root
 * @param {string} path
 * @param {string[][]} lists
 * @returns {Change}
 */
export function insertLines(lines, study, root, path, lists) {
  const {more, path: end} = insertions(root, path, lists);
  return {lines: more.length ? append(lines, study, ...more) : lines, path: end};
}
/**
 * Moves one below the other.
 * @param {string[]} lines
 * @param {Study} study
 * @param {TreeNode} root
 * @param {string} path
 * @param {string[]} sans
 */
export const insertMoves = (lines, study, root, path, sans) => insertLines(lines, study, root, path, [sans]);
/**
 * Removes a node with all below it; where it is the newest line, that line is removed.
 * @param {string[]} lines
 * @param {Study} study
 * @param {TreeNode} node
 * @returns {Change}
 */
export function removeNode(lines, study, node) {
  const newest = study.made && study.made.line === study.last && wordsOf(study.made.reply)[1] === node.path &&
    wordsOf(lines[study.last])[0] === 'insert';
  return {
    lines: newest ? splice(lines, study.last, 1) : append(lines, study, 'delete ' + node.path),
    path: node.parent ? node.parent.path : 'root'
  };
}
/**
 * One place up, or to the front.
 * @param {string[]} lines
 * @param {Study} study
 * @param {TreeNode} node
 * @param {boolean} toFront
 * @returns {Change}
 */
export function promoteNode(lines, study, node, toFront = false) {
  const parts = node.path.split('.'), place = Number(parts.pop()), base = parts.map(p => p + '.').join('');
  const times = toFront ? place : 1;
  return {
    lines: append(lines, study, ...[...Array(times).keys()].map(i => `promote ${base}${place - i}`)),
    path: 'made'
  };
}
/** @param {string} line */
export const isAimLine = line => /^ *stipulate +(white|black) +(win|draw|mate +\d+) *$/.test(line);
/**
 * An earlier line of the study is changed in place; else one is added below the position and its stipulation, before
 * which there may be no study yet.
 * @param {string[]} lines
 * @param {Study} study
 * @param {string} place
 * @param {string} line
 */
function setLine(lines, study, place, line) {
  const at = study.place[place], {aim = study.from} = study.place;
  if (at !== undefined && at > study.from) return splice(lines, at, 1, ...(line ? [line] : []));
  const first = place === 'aim' ? -1 : lines.findIndex((text, i) => i > study.from && i <= aim && isAimLine(text));
  return line ? splice(lines, Math.max(study.from, first) + 1, 0, line) : lines;
}
/**
 * @param {string[]} lines
 * @param {Study} study
 * @param {string} words
 * @returns {Change}
 */
export function stipulate(lines, study, words) {
  const set = setLine(lines, study, 'aim', 'stipulate ' + words), same = study.aim && aimWords(study.aim) === words;
  return {lines: same ? set : [...set.slice(0, study.head), ...headAnew(set, study), ...set.slice(study.from)]};
}
/**
 * The remarks above the position of a study that is to be another, or to do something else.
 * @param {string[]} lines
 * @param {Study} study
 */
const headAnew = (lines, study) => restated(lines.slice(study.head, study.from));
/**
 * The same for a position: a part of a game with more than four men that begins elsewhere is a study by itself, which
 * keeps its names.
 * @param {string[]} lines
 * @param {Study} study
 * @param {string} fen
 */
function headOfPosition(lines, study, fen) {
  const head = headAnew(lines, study);
  if (!head.some(tailIn) || samePosition(fen, study.fen)) return head;
  const rest = head.filter(line => !tailIn(line));
  return [...rest, ...namesOfGame(rest, study)];
}
/**
 * What the PGN Standard writes where a tag is not known.
 * @param {string} name
 */
export const unknown = name => (name === 'Date' ? '????.??.??' : '?');
/** @param {string | undefined} text */
export const isKnown = text => text !== undefined && !/^[?.]*$/.test(text);
const MONTHS = 'jan feb mar apr may jun jul aug sep oct nov dec'.split(' ');
/**
 * Year, month and day of a date with the name of its month.
 * @param {string} text
 */
function namedDate(text) {
  const m = /^(?:(\d{1,2})\.?\s+)?([a-z]{3,9})\.?\s+(?:(\d{1,2}),?\s+)?(\d{4})$/i.exec(text);
  return m && [m[4], `${MONTHS.indexOf(m[2].slice(0, 3).toLowerCase()) + 1}`, m[1] || m[3] || ''];
}
/**
 * Whether a number is from 1 to the most, or is not given.
 * @param {string} n
 * @param {number} most
 */
const isUpTo = (n, most) => !n || (Number(n) >= 1 && Number(n) <= most);
/**
 * The days of a month; of an unknown one, or of an unknown year, as many as there can be.
 * @param {string} year
 * @param {string} month
 */
const daysIn = (year, month) => new Date(Date.UTC(Number(year) || 2000, Number(month) || 1, 0)).getUTCDate();
/**
 * A date as PGN writes it, with year, month and day, or only some of them: `1895`, `1921-05`, `12 May 1921`,
 * `May 1921`, `12.5.1921`. Any other text stays as it is.
 * @param {string} text
 */
export function wholeDate(text) {
  const parts = namedDate(text) || /^(\d{4})(?:[-./](\d{1,2}))?(?:[-./](\d{1,2}))?$/.exec(text)?.slice(1) ||
    /^(\d{1,2})\.\s?(\d{1,2})\.\s?(\d{4})$/.exec(text)?.slice(1).reverse();
  if (!parts) return text;
  const [year, month = '', day = ''] = parts;
  if (!isUpTo(month, 12) || !isUpTo(day, daysIn(year, month))) return text;
  return [year, month, day].map((n, i) => n && n.padStart(i ? 2 : 4, '0') || '??').join('.');
}
/** @param {string} text */
export function isDate(text) {
  const [, year, month, day] = /^([\d?]{4})\.(0[1-9]|1[0-2]|\?\?)\.(0[1-9]|[12]\d|3[01]|\?\?)$/.exec(text) || [];
  return day === '??' || Number(day) <= daysIn(year, month);
}
/**
 * The remark above a position that keeps the text of a tag in its own letters.
 * @param {string[]} lines
 * @param {Study} study
 * @param {string} name
 * @param {string} original
 */
function withOriginal(lines, study, name, original) {
  const at = lines.slice(study.head, study.from).findIndex(line => originalsIn([line])[name] !== undefined);
  const rest = at < 0 ? lines : splice(lines, study.head + at, 1), remark = `#! ${name} was: ${original}`;
  return original ? splice(rest, at < 0 ? study.from : study.head + at, 0, remark) : rest;
}
/**
 * @param {string[]} lines
 * @param {Study} study
 * @param {string} name
 * A line of the study that has the tag in other letters, and so is refused, goes.
 * @param {string} text      in plain letters
 * @param {string} [original]      in its own letters, where these are others
 * @returns {Change}
 */
export function setTag(lines, study, name, text, original = '') {
  const before = study.carried.find(line => wordsOf(line)[1] === name && wordsOf(line)[0] === 'tag'),
        carried = before !== undefined && isKnown(before.replace(/^tag +\w+ +/, ''));
  const own = lines.findIndex(
    (line, at) => at > study.from && at < study.end && wordsOf(line).slice(0, 2).join(' ') === 'tag ' + name);
  const there = own < 0 ? study : {...study, place: {[name]: own, ...study.place}};
  const set = setLine(lines, there, name,
          text ? `tag ${name} ${text}`
            : carried ? `tag ${name} ${unknown(name)}`
                      : ''),
        bad = set.findIndex((line, at) => at > study.from && at < study.end + set.length - lines.length &&
            wordsOf(line).slice(0, 2).join(' ') === 'tag ' + name && /[^ -~]/.test(line));
  return {lines: withOriginal(bad < 0 ? set : splice(set, bad, 1), study, name, original)};
}

/**
 * Another position with an empty tree; tags and remarks stay.
 * @param {string[]} lines
 * @param {Study} study
 * @param {string} fen
 * @param {string} aim
 * @returns {Change}
 */
export const replacePosition = (lines, study, fen, aim) => ({...withMoves(lines, study, fen, aim, []), path: 'root'});
/**
 * Another position with these moves; tags and remarks stay. A game that was not read to its end is not read there, too.
 * @param {string[]} lines
 * @param {Study} study
 * @param {string} fen
 * @param {string} aim
 * @param {string[]} moves      lines that insert them
 * @returns {Change}
 */
export function withMoves(lines, study, fen, aim, moves) {
  const all = lines.slice(study.from + 1, study.end), cut = moves.length > 0 && study.origin && study.origin.cut,
        head = headOfPosition(lines, study, fen);
  const own = all.filter(l => !/^ *(insert|delete|promote|shift|mark|moves|fen|solve|stipulate)( |$)/.test(l));
  const rest = oneGame(own), games = rest.findIndex(isGame), at = games < 0 ? rest.length : games;
  const gap = games < 0 && rest.length && !rest[rest.length - 1].trim() ? 1 : 0;
  return {
    lines: [
      ...lines.slice(0, study.head), ...(cut ? head : withoutCut(head)), 'position ' + fen, 'stipulate ' + aim,
      ...rest.slice(0, at - gap), ...moves, ...(cut ? all.filter(isCutLine) : []), ...rest.slice(at - gap),
      ...lines.slice(study.end)
    ]
  };
}
/**
 * One more study, with tags of its own.
 * @param {string[]} lines
 * @param {string} fen
 * @param {string} aim
 * @param {Study | undefined} before
 */
export function addStudy(lines, fen, aim, before) {
  const anew =
    before ? TAGS.filter(name => isKnown(before.tags[name])).map(name => `tag ${name} ${unknown(name)}`) : [];
  return [
    ...lines, ...(lines.length && lines[lines.length - 1].trim() ? [''] : []), 'position ' + fen, 'stipulate ' + aim,
    ...anew
  ];
}

/**
 * A study written again in its shortest form, in written order.
 * @param {string[]} lines
 * @param {Study} study
 * @param {TreeNode} root
 * @returns {Change}
 */
export function tidy(lines, study, root) {
  const cut = study.origin && study.origin.cut,
        isKept = (/** @type {string} */ line) => (cut && isCutLine(line)) || (!isEdit(line) && line.trim());
  const notes = oneGame(lines.slice(study.from + 1, study.end).filter(isKept));
  const tags = TAGS.filter(name => study.place[name] !== undefined).map(name => `tag ${name} ${study.tags[name]}`);
  const moves = allNodes(root).filter(n => n.parent).map(n => `insert ${n.parent ? n.parent.path : 'root'} ${n.san}`);
  const aim = study.aim ? ['stipulate ' + aimWords(study.aim)] : [];
  const gap = study.end < lines.length && lines[study.end - 1] === '' ? [''] : [];
  return {
    lines: splice(
      lines, study.from, study.end - study.from, 'position ' + root.fen, ...aim, ...tags, ...moves, ...notes, ...gap)
  };
}
