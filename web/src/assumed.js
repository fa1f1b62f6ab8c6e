// @ts-check
// What a script makes if each of its lines is accepted, as long as its replies are not there.
import {readScript, toRun, wordsOf} from './script.js';

/**
 * The reply to a line that is accepted, as far as studies are read from it.
 * @param {string} text
 */
export function acceptedReply(text) {
  if (!/^ *stipulate /.test(text)) return text.trim();
  const [, hero = '', goal = '', k = ''] = wordsOf(text);
  return `stipulate ${hero === 'black' ? 'Black' : 'White'} to ${goal}${k && ' in ' + k}`;
}
/** @param {string[]} lines */
export function assumeAccepted(lines) {
  const sent = toRun(lines);
  return readScript(lines, sent, sent.map(({text}) => acceptedReply(text)));
}
