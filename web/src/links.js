// @ts-check
// A study as a link: its script behind the address of the page.
import {grouped} from './words.js';

/** Common programs for mail and chat keep a link of so many letters whole. */
const MOST = 2000;
/**
 * The link that opens a script.
 * @param {string} page      its address
 * @param {string} text
 */
export function linkTo(page, text) {
  const code = (/** @type {string} */ letter) => `%${letter.charCodeAt(0).toString(16).toUpperCase()}`;
  return `${page.split('#')[0]}#script=${encodeURIComponent(text).replace(/%20/g, '+').replace(/[!'()*]/g, code)}`;
}
/**
 * The script that a link has behind the address of the page; null if it has none.
 * @param {string} hash
 */
export function scriptIn(hash) {
  const found = /[#&]script=([^&]*)/.exec(hash);
  if (!found) return null;
  try {
    return decodeURIComponent(found[1].replace(/\+/g, ' '));
  } catch { return found[1]; }
}
/**
 * What is said of a link that was copied.
 * @param {string} link
 */
export function linkNote(link) {
  const long = link.length > MOST
    ? ` Some programs cut a link behind ${grouped(MOST)} letters: send the saved script instead.`
    : '';
  const here = link.startsWith('file:')
    ? ' It leads to this file on this computer: elsewhere put the part from # on behind the address of the page there.'
    : '';
  return `Copied: a link of ${grouped(link.length)} letters that opens this study.${long}${here}`;
}
