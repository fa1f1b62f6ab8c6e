// @ts-check
// How long a text a field takes and how long a script the programs read, and the sentences for longer ones, so that no
// text of any length stops the page.
import {MOST_LINES} from './script.js';
import {app, say, services} from './state.js';
import {grouped} from './words.js';

/**
 * `most` letters fit into a field; `where` a message to it stands; `name` and `instead` are words of its sentence.
 * @typedef {{most: number, where: string, name: string, instead: string}} Limit
 */
/** How many lines of left-out games a document keeps, so that they can be mended. */
export const MOST_KEPT = 10000;
const TEXT = {
  most: 200000,
  instead: 'save the text as a file, and open the file'
};
/** @type {Record<string, Limit>} */
const LIMITS = {
  san: {most: 65536, where: 'board', name: 'the field for moves', instead: 'enter fewer moves at a time'},
  fen: {most: 200, where: 'fen', name: 'the field for a position', instead: 'write a FEN, or men as Kb6 Pc6 / Ka1 Rd5'},
  script: {...TEXT, where: 'script', name: 'the field for a script'},
  cutText: {...TEXT, where: 'cut', name: 'the field for a game'},
  gameText: {...TEXT, where: 'game', name: 'the field for a game'},
  page: {...TEXT, where: 'board', name: 'the page'},
  tag: {most: 200, where: 'head', name: 'this field', instead: 'a script has room for 60'},
  note: {most: 2000, where: 'note', name: 'the field for your words', instead: 'divide it among several moves'},
  other: {most: 200, where: 'board', name: 'this field', instead: 'write less'}
};
/**
 * The limit of a field.
 * @param {string} id
 */
export const limitOf = id => LIMITS[id] || (id.startsWith('tag') ? LIMITS.tag : LIMITS.other);
/**
 * Why a text does not go into a field, and what is possible; nothing if it does.
 * @param {string} id
 * @param {string} text
 */
export function tooLong(id, text) {
  const {most, name, instead} = limitOf(id);
  return text.length > most ? `This text has ${grouped(text.length)} letters, and ${name} takes ${grouped(most)}: ` +
      `${instead}. Nothing was changed.`
                            : '';
}
/**
 * What is said of a script that has more lines than the programs read; nothing of a shorter one.
 * @param {number} count
 */
export const tooManyLines = count =>
  (count > MOST_LINES ? `it has ${grouped(count)} lines, and the programs read at most ${grouped(MOST_LINES)}` : '');
/**
 * A text that is too long for a field is refused with a sentence; the field has its value then.
 * @param {{id: string, value: string}} field
 * @param {string} text
 * @returns {boolean} whether it was refused
 */
export function refuseLong({id, value}, text) {
  const why = tooLong(id, text);
  if (!why) return false;
  say(limitOf(id).where, why);
  Object.assign(app.say || {}, {field: id, typed: value});
  services.show();
  return true;
}
