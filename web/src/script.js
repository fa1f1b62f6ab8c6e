// @ts-check
// The script is the document: lines of edits, run from the first to the last. Here its replies become studies.
import {commandOf, lineKind} from './wording.js';
import {aimWords} from './words.js';
import {headOf, withRefusedTags, withWholeGame} from './imported.js';
import {beginsGame, isOfImport} from './remarks.js';
import {once} from './once.js';
import {readStipulation} from './parse_answers.js';
/** @typedef {import('./types.js').Script} Script @typedef {import('./types.js').Study} Study */
/** @typedef {import('./types.js').Aim} Aim */
/**
 * @typedef {{text: string, line: number}} Sent
 *   a line that is run, and its place in the script; -1 for one of our own
 */

export const TAGS = ['Event', 'White', 'Black', 'Site', 'Date', 'Round'];

/** @param {string} line */
export const wordsOf = line => line.trim().split(/ +/);
/** @param {string} line */
export const isSilent = line => /^ *(#.*)?$/.test(line);
/** @param {string} line */
export const isTableLine = line => lineKind(line) === 'table';
/** @param {string} line */
export const isQuestion = line => lineKind(line) === 'question';
/** @param {string} line */
export const isCommand = line => lineKind(line) !== '';
/** @param {string} line */
export const isPosition = line => /^ *position( |$)/.test(line);
/** @param {string} line */
export const isEdit = line => !isSilent(line) && !/^(table|question)$/.test(lineKind(line));
/** @param {string} text */
export const linesOf = text => {
  const lines = text.replace(/^\ufeff/, '').split(/\r?\n/);
  while (lines.length && lines[lines.length - 1] === '') lines.pop();
  return lines;
};
/** The positions that lines name. */
export const fensOf =
  once((/** @type {string[]} */ lines) =>
         lines.filter(line => /^ *(position|shift) /.test(line)).map(line => line.trim().replace(/^\w+ +/, '')));

/** @param {string} line */
export const isGame = line => /^ *pgn *$/.test(line);
/**
 * The lines of a script that are run, with one more `pgn` at the end of each study that has none after its last edit:
 * not its remarks, and not its lines of tables, since the page loads those that are needed.
 * @param {string[]} lines
 * @returns {Sent[]}
 */
export function toRun(lines) {
  const sent = /** @type {Sent[]} */ ([]);
  let begun = false, open = false;
  lines.forEach((text, line) => {
    const kind = lineKind(text);
    if (isSilent(text) || kind === 'table') return;
    const position = isPosition(text);
    if (position && open) sent.push({text: 'pgn', line: -1});
    begun = begun || position;
    if (kind !== 'question') open = begun;
    else if (isGame(text)) open = false;
    sent.push({text, line});
  });
  if (open) sent.push({text: 'pgn', line: -1});
  return sent;
}
const MOST_BYTES = 1024;
/** The programs read no more lines of a script; the page, which runs it study by study, has no such limit. */
export const MOST_LINES = 100000;
/**
 * Which line no program reads, as its run would say it; else nothing.
 * @param {string[]} lines
 */
export function overLimit(lines) {
  const long =
    lines.findIndex(line => line.length > MOST_BYTES / 3 && new TextEncoder().encode(line).length > MOST_BYTES);
  return long >= 0 ? `LineTooLong ${long + 1}` : '';
}

/**
 * One reply for each line that is run: the whole text for a `pgn` that was accepted.
 * @param {string[]} lines
 * @param {string} text
 */
export function repliesOf(lines, text) {
  const rows = text.split('\n');
  let at = 0;
  return lines.map(line => {
    if (commandOf(line) !== 'pgn' || (rows[at] || '').startsWith('error ')) return rows[at++] || '';
    const from = at;
    for (let empty = 0; empty < 2 && at < rows.length;)
      if (rows[at++] === '') empty++;
    return rows.slice(from, at).join('\n') + '\n';
  });
}

/**
 * @param {string[]} lines
 * @param {Sent[]} sent
 * @param {string[]} replies
 * @returns {Script}
 */
export function readScript(lines, sent, replies) {
  const script = /** @type {Script} */ ({lines, studies: [], refused: []});
  const carried = /** @type {Carried} */ ({aim: null, tags: {}});
  sent.forEach((one, i) => applyReply(script, carried, one, replies[i] || 'error NoReply'));
  for (const study of script.studies) withRemarks(lines, study);
  script.studies.forEach((study, i) => {
    study.end = endOf(script, study, script.studies[i + 1] ? script.studies[i + 1].head : lines.length);
  });
  withRefusedTags(script);
  return script;
}
/**
 * The end of a study: the head of the next one, or that of an entry between them whose position was refused, or whose
 * game was left out or stands there whole.
 * @param {Script} script
 * @param {Study} study
 * @param {number} next
 */
function endOf({lines, refused}, study, next) {
  const faulty = refused.find(r => study.from < r.line && r.line < next && isPosition(r.text));
  let end = study.from + 1;
  while (end < next && end !== faulty?.line && !beginsGame(lines[end])) end++;
  while (end < next && /^ *#/.test(lines[end - 1])) end--;
  return end;
}
/**
 * The remarks right above a position are the study's; names of its whole game too, if it is a part of one.
 * @param {string[]} lines
 * @param {Study} study
 */
function withRemarks(lines, study) {
  while (study.head > 0 && /^ *#/.test(lines[study.head - 1])) study.head--;
  Object.assign(study, headOf(lines.slice(study.head, study.from)));
  withWholeGame(lines, study);
}

/** @typedef {{aim: Aim | null, tags: Record<string, string>}} Carried */
/**
 * @param {Script} script
 * @param {Carried} carried
 * @param {Sent} sent
 * @param {string} reply
 */
export function applyReply(script, carried, {text, line}, reply) {
  const command = commandOf(text), study = script.studies[script.studies.length - 1];
  if (reply.startsWith('error ')) {
    if (line >= 0) script.refused.push({line, text, reply});
    if (command === 'position') Object.assign(carried, {aim: null, tags: {}});
  } else if (command === 'position') {
    script.studies.push(newStudy(line, reply.slice(9), carried));
  } else if (study && command === 'pgn') {
    if (line >= 0 || !study.ended) study.games.push(reply);
    const {verdict, start} = openingOf(reply);
    Object.assign(study, {pgn: reply, verdict, start, ended: true});
  } else if (isEdit(text)) {
    if (study) Object.assign(study, {ended: false, last: Math.max(line, study.last)});
    if (command === 'tag') carry(carried, study, wordsOf(text)[1], text.trim().replace(/^tag +\w+ +/, ''), line);
    else if (command === 'stipulate') setAim(carried, study, reply, line);
    else if (study && command === 'shift') study.fen = reply.slice(6);
    else if (study && (command === 'insert' || command === 'promote')) study.made = {line, reply};
  }
}
/**
 * @param {number} line
 * @param {string} fen
 * @param {Carried} carried
 * @returns {Study}
 */
function newStudy(line, fen, carried) {
  const old = [
    ...(carried.aim ? ['stipulate ' + aimWords(carried.aim)] : []),
    ...Object.entries(carried.tags).map(([k, v]) => `tag ${k} ${v}`)
  ];
  return {
    head: line,
    from: line,
    end: line + 1,
    last: line,
    fen,
    aim: carried.aim,
    tags: {...carried.tags},
    ...headOf([]),
    place: {},
    carried: old,
    made: null,
    pgn: '',
    verdict: '',
    start: '',
    games: [],
    ended: false
  };
}
/**
 * @param {Carried} carried
 * @param {Study | undefined} study
 * @param {string} name
 * @param {string} text
 * @param {number} line
 */
function carry(carried, study, name, text, line) {
  carried.tags[name] = text;
  if (!study) return;
  study.tags[name] = text;
  study.place[name] = line;
}
/**
 * @param {Carried} carried
 * @param {Study | undefined} study
 * @param {string} reply
 * @param {number} line
 */
function setAim(carried, study, reply, line) {
  const [, hero, , goal, , k] = reply.split(' ');
  carried.aim = /** @type {Aim} */ ({hero, goal, k: Number(k) || 0});
  if (!study) return;
  study.aim = carried.aim;
  study.place.aim = line;
}
/**
 * Stipulation and verdict, as a game's first comment has them.
 * @param {string} pgn
 */
function openingOf(pgn) {
  const comment = /\{([^}]*)\}/.exec(pgn.slice(pgn.indexOf('\n\n')).replace(/\n/g, ' '));
  return readStipulation(comment ? comment[1] : '');
}
/**
 * What the games of a script say of a study before its last edit.
 * @param {Study} study
 */
export const openingsBefore = study => study.games.filter(game => game !== study.pgn).map(openingOf);

/**
 * The lines that make one study alone: its own, with what it takes over from earlier ones after its position.
 * @param {string[]} lines
 * @param {Study} study
 */
export function editsTo(lines, study) {
  const [position, ...own] = lines.slice(study.from, study.end).filter(isEdit);
  return [position, ...study.carried, ...own];
}
/**
 * Lines as a text that is run.
 * @param {string[]} lines
 */
export const toText = lines => lines.map(line => line + '\n').join('');

/**
 * The script as a file that studybench runs as it is: its tables first, `pgn` after the last edit of each study.
 * @param {Script} script
 * @param {string[]} classes
 */
export function savedScript(script, classes) {
  const lines = [...script.lines];
  for (const study of [...script.studies].reverse())
    if (study.aim && !lines.slice(study.last + 1, study.end).some(isGame)) lines.splice(study.last + 1, 0, 'pgn');
  const tables = lines.some(isTableLine) ? [] : classes.map(name => 'build ' + name);
  return toText([...tables, ...lines]);
}
/**
 * The games of a script: those that studybench writes when it runs the saved script.
 * @param {Script} script
 */
export const gamesOf = script => script.studies.flatMap(study => study.games).join('');
/**
 * Whether the report may print a line, or what it does.
 * @param {string} line
 */
export const isPrinted = line => !isSilent(line) || isOfImport(line) || /^#! (comment:|tail) /.test(line);
/**
 * The lines that are reported, each at its place in the script, so that refused ones have the numbers that they have on
 * the board. The `pgn` that a study lacks comes in place of an empty line or a remark behind it, if there is one. A
 * script with more lines than the program reads is reported without those that it does not print.
 * @param {Script} script
 */
export function reportedLines({lines, studies}) {
  const games = /** @type {Map<number, string[]>} */ (new Map());
  for (const {aim, last, end} of studies) {
    const behind = lines.slice(last + 1, end), free = behind.findIndex(line => !isPrinted(line));
    if (!aim || behind.some(isGame)) continue;
    games.set(free < 0 ? last : last + 1 + free, free < 0 ? [lines[last], 'pgn'] : ['pgn']);
  }
  const all = lines.flatMap((line, at) => games.get(at) || [line]);
  return all.length > MOST_LINES ? all.filter(isPrinted) : all;
}
/**
 * Remarks and questions of a study that is written anew: the last `pgn` is enough.
 * @param {string[]} lines
 */
export const oneGame = lines => lines.filter((line, i) => !isGame(line) || !lines.slice(i + 1).some(isGame));
