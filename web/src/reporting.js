// @ts-check
// The printed pages of all studies as a file. Nothing waits for them: the tables of the script's studies come into one
// worker, beside a long script into that of moves, and the page says which it waits for and that they are written.
import {shownText} from './comments.js';
import {download} from './dom.js';
import {Stopped} from './engine.js';
import {isCutLine, whyCut} from './left_out.js';
import {tooManyLines} from './limits.js';
import {AT_MOVES, plain, short} from './notes.js';
import {numbersOf, reportNumbers, withNumbers} from './numbering.js';
import {refusalIn} from './parse_answers.js';
import {cutAt, ownRemark} from './remarks.js';
import {squaresOf} from './saved_games.js';
import {fensOf, isPrinted, reportedLines, toText} from './script.js';
import {bareTree} from './unmarked.js';
import {PAGES, app, clearMessage, doc, say, services} from './state.js';
import {counted, numberedLast, reason} from './words.js';

/**
 * What is shown at the foot of the page while the report is on its way; nothing once it is done.
 * @param {string} text
 */
const tell = text => services.telling(text);
/**
 * The worker that writes the report, with the tables that its studies need; those that are not kept are built first.
 * @param {string[]} fens
 */
async function workerFor(fens) {
  const lacking = await services.tables.lacking(fens);
  if (lacking.length) {
    say('board', `The report waits for the ${lacking.length === 1 ? 'table' : 'tables'} ${lacking.join(' ')}.`, true);
    const said = app.say;
    services.show();
    await services.tables.ready(fens);
    if (app.say === said) clearMessage();
  }
  const names = await services.tables.classesOf(fens);
  tell(`For the report ${counted(names.length, 'table')} of its studies are loaded: ${names.join(' ')}`);
  return services.tables.factsFor(fens);
}
/**
 * The moves that lead to each node of a tree, by their squares, since remarks may have letters of another language.
 * @param {import('./unmarked.js').Bare} root
 */
function waysIn(root) {
  const ways = new Set([squaresOf('-')]);
  const walk = (/** @type {import('./unmarked.js').Bare} */ node, /** @type {string[]} */ way) => {
    for (const child of node.children) {
      const own = [...way, plain(child.san)];
      ways.add(squaresOf(own.join(' ')));
      walk(child, own);
    }
  };
  walk(root, []);
  return ways;
}
/**
 * A remark above a study that the report prints: a comment of the author, a dual that was accepted, the claimed result.
 * One at moves that are no longer in the tree is not printed.
 * @param {string} line
 * @param {string} fen
 * @param {Set<string>} [ways]      in the tree
 */
export function printedRemark(line, fen, ways) {
  const {word, rest} = ownRemark(line), [moves, said] = cutAt(rest, ': ');
  if (ways && AT_MOVES.has(word) && !ways.has(squaresOf(moves))) return line;
  const at = !moves || moves === '-' ? '' : `${numberedLast(fen, moves.split(' '))}: `,
        text = /^note\+?$/.test(word) && !/^\$\d+$/.test(said) ? shownText([said]) : '';
  const words = text      ? at + text
    : word === 'accepted' ? `${at}the dual is accepted`
    : word === 'tag' && /^Result [^*]/.test(rest) ? `the claimed result is ${rest.slice('Result '.length)}`
                                                  : '';
  return words ? short(`#! comment: ${words}`) : line;
}
/**
 * The lines of the document, each remark that is printed in its place.
 * @param {import('./types.js').Doc} d
 */
function printedLines(d) {
  const lines = [...d.lines];
  for (const {head, from, end, fen} of d.studies) {
    const ways = head < from ? waysIn(bareTree(d.lines.slice(from, end))) : undefined;
    for (let at = head; at < from; at++) lines[at] = printedRemark(lines[at], fen, ways);
  }
  return reportedLines({...d, lines});
}
/** The report's words for the line of a bad move: it has a word too many, or letters that are no ASCII. */
const REFUSED =
  /<p class="warn">Line \d+ was refused: <code>insert \S+ (\S+ [^<]+)<\/code> <b>Bad(Arguments|Byte)<\/b>[^<]*<\/p>/g;
/** @param {string} text */
const escaped = text => text.replace(/&/g, '&amp;').replace(/</g, '&lt;').replace(/>/g, '&gt;');
/**
 * The report with words for a reader where a game was not read to its end: which study, which move, and why.
 * @param {string} page
 * @param {{lines: string[], studies: import('./types.js').Study[]}} doc
 */
export function withReasons(page, {lines, studies}) {
  const numbers = numbersOf({lines, studies});
  const reasons = lines.flatMap((line, at) => {
    if (!isCutLine(line)) return [];
    const i = studies.findIndex(({from, end}) => from < at && at < end), {cut = null} = i < 0 ? {} : studies[i].origin;
    return [{number: numbers[i] || '', why: whyCut(line, cut)}];
  });
  let at = 0;
  return page.replace(REFUSED, (all, move) => {
    const {number = '', why = ''} = reasons[at++] || {};
    return why ? `<p class="warn">${number && `No. ${number}: `}${move} was not read: ${escaped(why)}</p>` : all;
  });
}
/**
 * @param {import('./types.js').Doc} d
 * @param {string} name      of the file
 * @returns {Promise<boolean>} whether it was saved
 */
async function write(d, name) {
  const least = d.lines.filter(isPrinted).length, lines = tooManyLines(least) ? [] : printedLines(d),
        many = tooManyLines(Math.max(least, lines.length));
  if (many) {
    say('board', `No report: ${many}. Save the PGN, and open a file of fewer of its games.`);
    return false;
  }
  const worker = await workerFor(fensOf(d.lines)), pages = d.studies.filter(({aim}) => aim).length;
  tell(`The report is being written: ${counted(pages, 'study', 'studies')}`);
  const {bytes, ended} = await worker.ask('report', toText(lines), PAGES);
  if (ended === 'done') {
    download(name, withReasons(withNumbers(new TextDecoder().decode(bytes), reportNumbers(d)), d));
    return true;
  }
  say('board', `No report: ${reason(refusalIn({text: new TextDecoder().decode(bytes), ended}))}.`);
  return false;
}
/**
 * Saves the printed pages of the script as it is now; a fault is shown.
 * @param {string} name
 */
export async function saveReport(name) {
  try {
    return await write(doc(), name);
  } catch (fault) {
    const {message} = /** @type {Error} */ (fault);
    say('board', fault instanceof Stopped ? `No report: ${message}.` : `The report was not written: ${message}.`);
    return false;
  } finally {
    tell('');
    services.show();
  }
}
