// @ts-check
// Runs a script: only the studies whose lines have changed, or what they take over, and of many studies some at a time.
//
// Each study is a block of lines, from its position to the next one. Its replies depend on these lines and on what it
// takes over from the studies before it; they are kept by both. Blocks that are not known are run together, behind
// lines which give them what they take over: in their order, or, if their tables are too many to be held at a time, by
// the tables that they need.
import {learn} from './answer_cache.js';
import {acceptedReply} from './assumed.js';
import {CLASSES} from './core_host.js';
import {Stopped} from './engine.js';
import {
  MOST_LINES,
  applyReply,
  fensOf,
  isGame,
  isPosition,
  overLimit,
  readScript,
  repliesOf,
  toRun,
  toText,
  wordsOf
} from './script.js';
import {pauseIfLong, pauses} from './pauses.js';
import {PAGES, services} from './state.js';
import {aimWords, endedReason} from './words.js';
/** @typedef {import('./script.js').Sent} Sent @typedef {import('./script.js').Carried} Carried */
/** @typedef {import('./types.js').Answer} Answer @typedef {import('./types.js').Script} Script */
/** @typedef {{needs: string, replies: string}} Known      `needs`: what of the studies before it mattered */

const KINGS = '4k3/8/8/8/8/8/8/4K3 w - - 0 1', AT_A_TIME = 50, MANY = 150, MOST_LETTERS = 3e7;
/** Studies with more lines are not run together, so that no run has more than the program reads. */
const LINES_AT_A_TIME = 20000;
/**
 * The blocks of a script. The first block may lack a position.
 * @param {Sent[]} sent
 */
export function blocksOf(sent) {
  const blocks = /** @type {Sent[][]} */ ([]);
  for (const one of sent)
    if (blocks.length && !isPosition(one.text)) blocks[blocks.length - 1].push(one);
    else blocks.push([one]);
  return blocks;
}
/**
 * What the studies after a block take over.
 * @param {Carried} carried
 * @param {Sent[]} block
 * @param {string[]} replies
 * @returns {Carried}
 */
export function carriedAfter(carried, block, replies) {
  const next = {aim: carried.aim, tags: {...carried.tags}},
        script = /** @type {Script} */ ({lines: [], studies: [], refused: []});
  block.forEach((one, i) => {
    if (/^ *(position|tag|stipulate)( |$)/.test(one.text)) applyReply(script, next, one, replies[i] || 'error NoReply');
  });
  return next;
}
/**
 * What of the studies before it a block has replies from: not the tags that it sets before its first game, and not the
 * stipulation that it sets before any line but tags.
 * @param {Sent[]} block
 * @param {string[]} replies
 */
export function ownOf(block, replies) {
  const own = new Set();
  let read = false, game = false;
  block.forEach(({text}, i) => {
    if ((replies[i] || 'error').startsWith('error ')) return;
    const [command, name] = wordsOf(text);
    if (command === 'tag' && !game) own.add(name);
    else if (command === 'stipulate' && !read) own.add('aim');
    else if (command !== 'position' && command !== 'tag') read = true;
    game = game || isGame(text);
  });
  return own;
}
/**
 * @param {Carried} carried
 * @param {Set<string>} own
 */
const needsOf = ({aim, tags}, own) => JSON.stringify(
  [own.has('aim') || !aim ? '' : aimWords(aim), ...Object.entries(tags).filter(([name]) => !own.has(name)).sort()]);
/**
 * Lines after which a study takes over what it would.
 * @param {Carried} carried
 */
export const before = ({aim, tags}) => {
  const list = [
    ...(aim ? ['stipulate ' + aimWords(aim)] : []), ...Object.entries(tags).map(([name, text]) => `tag ${name} ${text}`)
  ];
  return list.length ? ['position ' + KINGS, ...list] : [];
};

const known = /** @type {Map<string, (Known & {own: Set<string>})[]>} */ (new Map());
let letters = 0;
/** Stands between the replies to a block, which are kept as one text. */
const BETWEEN = '\0';
/**
 * @param {string} text
 * @param {{replies: string}[]} list
 */
const sizeOf = (text, list) => list.reduce((sum, {replies}) => sum + replies.length, text.length);
/** @param {Sent[]} block */
const textOf = block => block.map(({text}) => text).join('\n');
/**
 * @param {string} text
 * @param {Carried} carried
 */
function find(text, carried) {
  const list = known.get(text), found = list && list.find(({needs, own}) => needs === needsOf(carried, own));
  if (!list || !found) return null;
  known.delete(text);
  known.set(text, list);
  return found.replies.split(BETWEEN);
}
/**
 * The replies, as parts of the text by which they are kept, so that of the answer that they came with nothing is held.
 * Replies that wait for a table are not kept.
 * @param {Sent[]} block
 * @param {string[]} replies
 * @param {Carried} carried
 */
function keep(block, replies, carried) {
  if (replies.some(reply => /^error \w*(Table|OutOfMemory|NoReply)/.test(reply))) return replies;
  const text = textOf(block), own = ownOf(block, replies), needs = needsOf(carried, own), old = known.get(text) || [],
        all = replies.join(BETWEEN),
        list = [...old.filter(one => one.needs !== needs).slice(-3), {own, needs, replies: all}];
  letters += sizeOf(text, list) - (old.length ? sizeOf(text, old) : 0);
  known.delete(text);
  known.set(text, list);
  for (const [key, gone] of known) {
    if (letters < MOST_LETTERS || key === text) break;
    letters -= sizeOf(key, gone);
    known.delete(key);
  }
  return all.split(BETWEEN);
}

// ---- runs
const running = /** @type {Map<string, Promise<Answer>>} */ (new Map());
let lastRun = 0;
/** How long the last run took, in milliseconds. */
export const lastRunTime = () => lastRun;
/**
 * The replies to lines; two that want the same at once share them.
 * @param {string[]} texts
 */
async function repliesTo(texts) {
  if (texts.length > MOST_LINES) throw notRun('TooManyLines');
  const text = toText(texts), there = running.get(text), began = performance.now(),
        answer = there || services.core.answer('run', text, PAGES);
  running.set(text, answer);
  try {
    const {text: replies, ended} = await answer;
    if (ended !== 'done') throw new Error(endedReason(ended));
    return repliesOf(texts, replies);
  } finally {
    running.delete(text);
    if (!there) lastRun = performance.now() - began;
  }
}
/**
 * The place behind the blocks that are run together from one on.
 * @param {Sent[][]} blocks
 * @param {number} from
 * @param {(block: Sent[]) => boolean} isWanted
 */
function endOfRun(blocks, from, isWanted = () => true) {
  let end = from + 1, count = blocks[from].length;
  while (end < blocks.length && end - from < AT_A_TIME && isWanted(blocks[end])) {
    count += blocks[end].length;
    if (count > LINES_AT_A_TIME) break;
    end++;
  }
  return end;
}
/** @param {Sent[][]} blocks */
const linesOf = blocks => blocks.flatMap(block => block.map(({text}) => text));
/**
 * Whether a block was never run.
 * @param {Sent[]} block
 */
const isFresh = block => !known.has(textOf(block));
/**
 * The lines that load tables, as far as these are kept; they are in the core then.
 * @param {string[]} names
 */
async function loadsOf(names) {
  const lacking = await services.tables.load(names);
  return names.filter(name => !lacking.includes(name)).map(name => 'load ' + name);
}
/**
 * Runs studies that were never run, those that need the same tables together, so that the program holds no more than
 * these: each behind what it takes over if every line before it is accepted. Where that is not so it is run again.
 * @param {Sent[][]} blocks
 * @param {(done: number) => void} report
 */
async function runByTables(blocks, report) {
  const groups = /** @type {Map<string, {block: Sent[], carried: Carried}[]>} */ (new Map());
  let carried = /** @type {Carried} */ ({aim: null, tags: {}}), done = 0;
  for (const block of blocks) {
    const key = services.tables.knownClasses(fensOf(linesOf([block]))).join(' '), list = groups.get(key) || [];
    if (isFresh(block)) {
      groups.set(key, list);
      list.push({block, carried});
    }
    carried = carriedAfter(carried, block, block.map(({text}) => acceptedReply(text)));
  }
  // Those of the last classes first: their tables are more than the tables of others, which then are there already.
  const rank = (/** @type {string} */ key) => CLASSES.indexOf(key.slice(key.lastIndexOf(' ') + 1));
  for (const key of [...groups.keys()].sort((x, y) => rank(y) - rank(x))) {
    const list = groups.get(key) || [];
    for (let at = 0; at < list.length;) {
      const some = list.slice(at, endOfRun(list.map(({block}) => block), at));
      at += some.length;
      await runApart(key.split(' ').filter(Boolean), some);
      done += some.length;
      report(done);
    }
  }
}
/**
 * Runs studies that do not follow each other, each behind what it takes over.
 * @param {string[]} names
 * @param {{block: Sent[], carried: Carried}[]} some
 */
async function runApart(names, some) {
  const loads = await loadsOf(names),
        texts = some.flatMap(({block, carried}) => [...before(carried), ...linesOf([block])]);
  const replies = await repliesTo([...loads, ...texts]);
  let from = loads.length;
  for (const {block, carried} of some) {
    from += before(carried).length;
    keep(block, replies.slice(from, from += block.length), carried);
  }
}
/**
 * The lines of a script that are run, and the reply to each, as studybench gives it.
 * @param {string[]} lines
 * @param {(done: number, of: number) => void} [report]
 */
export async function repliesFor(lines, report = () => {}) {
  const sent = toRun(lines), replies = /** @type {string[]} */ ([]);
  const blocks = blocksOf(sent), names = await services.tables.classesOf(fensOf(linesOf(blocks.filter(isFresh))));
  const headless = blocks[0] && !isPosition(blocks[0][0].text) ? 1 : 0,
        told = (/** @type {number} */ done) => report(done - headless, blocks.length - headless);
  if (services.tables.isTooMuch(names)) await runByTables(blocks, told);
  const rest = pauses();
  let carried = /** @type {Carried} */ ({aim: null, tags: {}});
  const take = (/** @type {Sent[]} */ block, /** @type {string[]} */ own) => {
    replies.push(...own);
    carried = carriedAfter(carried, block, own);
  };
  for (let at = 0; at < blocks.length;) {
    const there = find(textOf(blocks[at]), carried);
    if (there) {
      take(blocks[at++], there);
      if (rest.isDue()) await rest.pause();
      continue;
    }
    const some = blocks.slice(at, endOfRun(blocks, at, isFresh)),
          loads = await loadsOf(await services.tables.classesOf(fensOf(linesOf(some)))),
          head = [...loads, ...before(carried)],
          all = (await repliesTo([...head, ...linesOf(some)])).slice(head.length);
    let from = 0;
    for (const block of some) { take(block, keep(block, all.slice(from, from += block.length), carried)); }
    at += some.length;
    if (blocks.length > MANY) told(at);
  }
  return {sent, replies};
}

/** @param {string} ended */
const notRun = ended => new Stopped(`Refused: ${endedReason(ended)}. Nothing was changed`);
/**
 * A script with a line that no program reads is not taken.
 * @param {string[]} lines
 */
export function readable(lines) {
  const limit = overLimit(lines);
  if (limit) throw notRun(limit);
}
/**
 * Runs lines over the tables that the core holds.
 * @param {string[]} lines
 * @returns {Promise<Script>}
 */
export async function evaluate(lines) {
  readable(lines);
  try {
    const [{sent, replies}] = await Promise.all([repliesFor(lines, services.reading), learn(lines)]);
    await pauseIfLong(lines);
    return readScript(lines, sent, replies);
  } finally { services.reading(0, 0); }
}
