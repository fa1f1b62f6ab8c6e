// @ts-check
// A file of games: its text, its lines, and its games one after the other.
import {decode} from './imported.js';

/**
 * The lines of a file.
 * @param {Uint8Array} bytes
 */
export function rawLines(bytes) {
  const lines = /** @type {Uint8Array[]} */ ([]);
  for (let at = 0; at < bytes.length;) {
    const end = bytes.indexOf(10, at), next = end < 0 ? bytes.length : end;
    lines.push(bytes.subarray(at, next));
    at = next + 1;
  }
  return lines;
}
/**
 * The text of a file.
 * @param {Uint8Array} bytes
 */
export function textOf(bytes) {
  try {
    return new TextDecoder('utf-8', {fatal: true}).decode(bytes);
  } catch { return rawLines(bytes).map(decode).join('\n'); }
}
/**
 * The lines of a file as texts.
 * @param {Uint8Array} bytes
 */
export function textLines(bytes) {
  const lines = textOf(bytes).split('\n');
  if (lines[lines.length - 1] === '') lines.pop();
  return lines;
}
/**
 * The games of a PGN one after the other, cut as the program cuts them: a line of a tag begins one behind a line of
 * moves, and a second Event.
 * @param {string} text
 * @param {number[]} [starts]      where the first line of each comes, counted from 1
 */
export function* eachGame(text, starts = []) {
  let lines = /** @type {string[]} */ ([]), moved = true, event = false, count = 0;
  for (const line of linesOf(text)) {
    count++;
    const remark = /^[%;]/.test(line), silent = remark || /^[ \t\v\f\r]*$/.test(line),
          tag = remark ? null : /^[ \t]*\[[ \t]*([A-Za-z]\w*)[ \t]*"/.exec(line);
    if (!starts.length && silent) continue;
    if (!starts.length || (tag && (moved || (event && tag[1] === 'Event')))) {
      if (starts.length) yield lines.join('\n') + '\n';
      lines = [];
      starts.push(count);
      moved = event = false;
    }
    if (tag) event = event || tag[1] === 'Event';
    else if (!silent) moved = true;
    lines.push(line);
  }
  if (starts.length) yield lines.join('\n') + '\n';
}
/**
 * The lines of a text one after the other, without byte order marks.
 * @param {string} text
 */
function* linesOf(text) {
  for (let at = 0; at < text.length;) {
    const end = text.indexOf('\n', at), next = end < 0 ? text.length : end;
    yield text.slice(at, next).replace(/^\ufeff|\r+$/g, '');
    at = next + 1;
  }
}
/**
 * The games of a PGN.
 * @param {string} text
 * @param {number[]} [starts]
 */
export const gamesIn = (text, starts = []) => [...eachGame(text, starts)];
