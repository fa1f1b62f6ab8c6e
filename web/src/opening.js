// @ts-check
// A file or a text becomes the document: a script as it stands, a PGN by way of the program.
import {$, h, smallButton} from './dom.js';
import {change, track, sayOpened, work} from './actions.js';
import {learn} from './answer_cache.js';
import {app, doc, services, say} from './state.js';
import {decode, documentOf, plainBytes, importNote, withoutAim} from './imported.js';
import {freshId} from './keep.js';
import {lookOf} from './looks.js';
import {notKept, stillGone} from './not_kept.js';
import {namesOf, notReadIn, remarksOf, saidInTail, savedRemark, withoutVerdicts} from './notes.js';
import {replace} from './history.js';
import {eachGame, gamesIn, rawLines, textLines, textOf} from './games.js';
import {offerJoining} from './joining.js';
import {inNumbers, numberedApart} from './numbering.js';
import {foreignGames, foreignText, inUtf8} from './code_pages.js';
import {cutOf, textRemarks} from './cut_game.js';
import {leftOut, leftOutBy} from './left_out.js';
import {MOST_KEPT, refuseLong} from './limits.js';
import {remarkOf} from './remarks.js';
import {savedGames} from './saved_games.js';
import {isNumbered, savedNumbers} from './saved_numbers.js';
import {isCommand, isSilent, linesOf} from './script.js';
import {tailIn, wayTo} from './tails.js';
import {pauses} from './pauses.js';
import {once} from './once.js';
import {setUpText} from './setup.js';
import {underWay} from './under_way.js';
import {aimText, counted, endedReason, readAim} from './words.js';

/**
 * The PGN that was opened last, so that it can be read again: `id` is the document that it became, or empty if no game
 * was read; `beside` has the lines that stood there then; `said` says what came in, `held` has its lines; `how` has the
 * stipulation for games that state none, and the code page; `opened` has the lines that it became, `foreign` the games
 * with names or comments in a code page.
 * @typedef {{aim: string, code: string}} How
 * @typedef {{bytes: Uint8Array, name: string, id: string, waiting: number, beside: string[], said: string,
 *   held: string[], how: How, opened: string[], foreign: import('./code_pages.js').Foreign[]}} Source
 */
let source = /** @type {Source | null} */ (null);
/** What was opened last and brought no study yet, or became the document that is shown. */
export function lastOpened() {
  const {id, lines} = doc(), here = source && (source.id ? source.id === id : source.beside === lines);
  return here ? source : null;
}
/**
 * Where the games of a document are the PGN that was opened, but for verdicts and the ends of lines, nothing of it was
 * lost. They are compared one after the other, up to the first that differs.
 */
export async function checkWhole() {
  const d = doc(), from = source, text = from && from.id === d.id && d.note && d.judged && decode(from.bytes);
  if (!from || !text) return;
  const games = eachGame(text), rest = pauses();
  for (const [i, study] of d.studies.entries()) {
    const {value: game} = games.next(), saved = game && savedGames({...d, studies: [study]}, true, [], i + 1);
    if (!saved || withoutVerdicts(saved).trim() !== withoutVerdicts(game).trim()) return;
    if (rest.isDue()) await rest.pause();
    if (doc() !== d) return;
  }
  if (!games.next().done) return;
  app.history = replace(app.history, {...d, note: '', name: from.name.replace(/\.\w+$/, '')});
  services.keep();
  services.show();
}
/** A worker whose memory is more than this, in bytes, is ended behind an import: it never becomes smaller. */
const MUCH = 40e6;
/**
 * The lines that the program makes of a PGN.
 * @param {Uint8Array} bytes
 * @param {string} aim      words of a stipulation for games that say none, or nothing
 * @param {boolean} [upToFaults]      whether a game with a bad move is read up to there
 */
export async function importPgn(bytes, aim, upToFaults = false) {
  const request = upToFaults ? 'import-up-to-faults' : 'import',
        answer = await services.core.ask(`${request} ${aim}`.trim(), bytes, 0);
  if (answer.ended !== 'done') throw new Error(endedReason(answer.ended));
  if (services.core.last.memory > MUCH && !services.core.waiting()) services.core.end();
  const lines = textLines(answer.bytes);
  await learn(lines);
  return lines;
}
/**
 * How many letters the first bytes of a line are, after a byte order mark.
 * @param {Uint8Array} raw
 */
const lettersIn = raw => (/** @type {number} */ count) => {
  const mark = raw[0] === 0xef && raw[1] === 0xbb && raw[2] === 0xbf ? 3 : 0;
  return decode(raw.subarray(mark, mark + count)).length;
};
/**
 * The lines of an import, with what its games say beside their moves as remarks above each position; behind a game that
 * was left out its title and author, and its text if it can be mended, as long as there is room for it.
 * @param {string[]} lines
 * @param {Uint8Array} bytes
 * @param {number[]} [starts]      where each game comes to begin
 */
export async function withRemarks(lines, bytes, starts = []) {
  const games = gamesIn(textOf(bytes), starts), raw = once(rawLines), rest = pauses();
  let game = 0, first = 0, way = /** @type {string[]} */ ([]), room = MOST_KEPT;
  const said = (/** @type {string} */ line, /** @type {number} */ at) => {
    if (!/^(#|position |pgn$)/.test(line)) return [line];
    const remark = remarkOf(line), out = leftOutBy(line), tail = tailIn(line);
    if (remark && remark.game) [game, first, way] = [remark.game, at, []];
    if (tail) way = wayTo(lines.slice(first, at), tail.node);
    const source = games[game - 1];
    if (!source) return [line];
    if (line.startsWith('position ')) return [...savedRemark(source), ...saidInTail(remarksOf(source), way), line];
    if (line === 'pgn') return [...notReadIn(source), line];
    if (!out) return stillGone(line);
    if (room <= 0) return [line, ...namesOf(source)];
    room -= source.split('\n').length;
    const cut = cutOf(source, starts[game - 1], out, lettersIn(raw(bytes)[out.line - 1] || bytes.subarray(0, 0)));
    return [line, ...namesOf(source), ...textRemarks(cut)];
  };
  const all = /** @type {string[]} */ ([]);
  for (const [at, line] of lines.entries()) {
    all.push(...said(line, at));
    if (rest.isDue()) await rest.pause();
  }
  return all;
}
/** A position for a game that only has a tag. */
const KINGS = '4k3/8/8/8/8/8/8/4K3 w - - 0 1';
/**
 * The text of a tag in the letters that a script can have, as the program writes them; it refuses more than 60.
 * @param {string} typed
 */
export async function plainText(typed) {
  if (/^[ -~]*$/.test(typed)) return typed;
  const pgn = `[FEN "${KINGS}"]\n[White "${typed.replace(/["\\]/g, '\\$&')}"]\n\n*\n`;
  const lines = await importPgn(new TextEncoder().encode(pgn), 'white win');
  return (lines.find(line => line.startsWith('tag White ')) || 'tag White ?').slice('tag White '.length);
}
const LATIN = 'Letters that are no UTF-8 are read as Latin 1.';
/**
 * A PGN is saved under another name than the one it was opened by, since not all of it is kept.
 * @param {string} name
 */
export const checkedName = name => (name ? name.replace(/\.\w+$/, '').replace(/\.checked$/, '') + '.checked' : '');
/**
 * @param {Uint8Array} bytes
 * @param {string} where
 * @param {string} name
 * @param {How} [how]
 */
export async function openPgn(bytes, where, name, how = {
  aim: '',
  code: ''
}) {
  const last = lastOpened(), again = last && last.bytes === bytes && last.id ? last.id : undefined,
        read = how.code ? inUtf8(rawLines(bytes), how.code) : bytes, starts = /** @type {number[]} */ ([]);
  let lines = /** @type {string[]} */ ([]);
  await work(async () => {
    lines = await importPgn(read, how.aim);
  }, where);
  if (!lines.length) return;
  const numbers = isNumbered(textOf(read)) ? savedNumbers(gamesIn(textOf(read))) : [],
        numbered = inNumbers(lines, numbers);
  await learn(numbered);
  const held = inNumbers(await withRemarks(documentOf(lines), read, starts), numbers), waiting = withoutAim(lines),
        came = importNote(numbered), latin = /\ufffd/.test(new TextDecoder().decode(bytes)),
        foreign = latin ? foreignGames(rawLines(bytes), starts) : [],
        letters = foreignText(foreign, how.code) || (latin && !how.code && LATIN);
  await learn(held);
  const said = [came, letters, notKept(held)].filter(Boolean).join(' '), before = source, open = doc();
  source = {bytes, name, id: '', waiting, beside: open.lines, said, held, how, opened: [], foreign};
  if (!lines.some(line => line.startsWith('position '))) {
    const offered = waiting || leftOut(lines).length || foreign.length;
    say(where, offered ? '' : `No study was found in this PGN. ${came} Nothing was changed.`);
    return services.show();
  }
  await take(held, where, checkedName(name), said, again);
  if (doc() === open) {
    source = before;
    return services.show();
  }
  Object.assign(source, {id: doc().id, held: [], opened: doc().lines});
  services.show();
  checkWhole();
}
/**
 * Says that something is being read, in place of what was said before.
 * @param {string} name      of its file
 * @param {() => Promise<any>} read
 */
function whileReading(name, read) {
  const said = app.say;
  return underWay(`Reading ${name || 'what was pasted'} …`, read, () => {
    if (app.say === said) app.say = null;
    services.show();
  });
}
/**
 * A script or a PGN takes the place of the document, which undo brings back; a position is set up.
 * @param {string} text
 * @param {string} where
 * @param {string} name      of its file
 */
export async function openText(text, where = 'script', name = '') {
  if (where === 'script' && refuseLong({id: 'script', value: text}, text)) return;
  await track(whileReading(name, () => openByLook(text, new TextEncoder().encode(text), where, name)));
}
/**
 * @param {string} text
 * @param {Uint8Array} bytes      that it was read from
 * @param {string} where
 * @param {string} name
 */
async function openByLook(text, bytes, where, name) {
  const look = lookOf(text);
  if (look === 'position') return setUpText(text);
  return look === 'pgn' ? openPgn(bytes, where, name) : openScript(text, where, name);
}
/**
 * A file, in whatever letters it is written.
 * @param {File} file
 */
const openFile = file => whileReading(file.name, async () => {
  const bytes = plainBytes(new Uint8Array(await file.arrayBuffer()));
  await openByLook(decode(bytes), bytes, 'board', file.name);
});
/**
 * Which of several files have letters of an older code, which can be chosen where one is opened alone.
 * @param {string[]} names
 */
const codedText = names => (names.length
    ? `With letters of an older code, read as Latin 1: ${names.join(', ')}; open each alone to choose the code.`
    : '');
/**
 * Opens files, each as a document; the last one is shown. What is wrong with one of several is said with its name.
 * @param {File[]} files
 */
export const openFiles = files => track((async () => {
  const bad = /** @type {string[]} */ ([]), coded = /** @type {string[]} */ ([]);
  for (const file of files) {
    const before = source;
    app.say = null;
    await openFile(file);
    const said = /** @type {import('./state.js').Say | null} */ (app.say);
    const read = source !== before ? source : null;
    if (said && !said.good) bad.push(`${file.name}: ${said.text}`);
    else if (read && !read.id) bad.push(`${file.name}: no study could be read; open it alone to mend it.`);
    if (read && read.foreign.length) coded.push(file.name);
  }
  if (files.length < 2) return;
  const opened = files.length - bad.length, join = opened > 1 ? '; Documents can join them' : '',
        text = `${opened} of ${files.length} files opened, each as a document${join}.`;
  say('board', [text, ...bad, codedText(coded)].filter(Boolean).join(' '), !bad.length);
  services.show();
})());
/**
 * @param {string} text
 * @param {string} where
 * @param {string} name
 */
async function openScript(text, where, name) {
  const lines = linesOf(text);
  if (!lines.some(isCommand) && (name || !lines.every(isSilent))) {
    say(where, 'This is neither a FEN, men as in Kc6 Pd5 / Ka6, a PGN nor a script. Nothing was changed.');
    if (where === 'script') Object.assign(app.say || {}, {field: 'script', typed: text});
    return services.show();
  }
  await learn(lines);
  await take(numberedApart(lines), where, name.replace(/\.\w+$/, ''), where === 'script' ? doc().note : '');
  if (app.say && app.say.where === where && !app.say.good) {
    Object.assign(app.say, {field: 'script', typed: text});
    services.show();
  }
}
/**
 * Lines become the document: a new one, or what the script's own field has as the next state of this one.
 * @param {string[]} lines
 * @param {string} where
 * @param {string} name
 * @param {string} note
 * @param {string} [id]      of the document that it is a state of
 */
async function take(lines, where, name, note, id = freshId()) {
  const same = where === 'script' && $('script') && lines.length > 0, before = doc();
  app.setup = null;
  await change(now => ({
    lines,
    note,
    ...(where === 'script' ? {} : {name, id}),
    at: same ? now.at : 0,
    path: same && lines.length === now.lines.length ? now.path : 'root',
    lenient: true
  }),
    where);
  if (where === 'script' || doc() === before) return;
  offerJoining(before);
  sayOpened(before);
}
