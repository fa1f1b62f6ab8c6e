// @ts-check
// The set-up of men: a draft until it is taken over. The program says of each draft what is wrong with it, or what its
// value is.
import {EMPTY, menOf, placement, sideOf, typedFen} from './fen.js';
import {viewOf} from './answer_cache.js';
import {app, services, say, clearMessage, study} from './state.js';
import {Stopped} from './engine.js';
import {freshId} from './keep.js';
import {refuseLong} from './limits.js';
import {aimText, aimWords, counted, holds, movesTo, reason} from './words.js';
import {isTurn, turnedAim, turnedFen} from './turning.js';
import {wordOf} from './wording.js';
/** @typedef {import('./fen.js').Men} Men */
/** @typedef {{bad: string, text: string, lacking: string[], mate: number}} Judged */
/**
 * @typedef {object} Draft
 * @property {Men} men
 * @property {string} mover      `w` or `b`
 * @property {string} tail       the fields of a FEN after it
 * @property {string} aim        words of a stipulation
 * @property {string} tool       the man that a press puts down; `x` takes away
 * @property {number | null} man      where the man is that was put down last
 * @property {number | null} cursor      of the keys
 * @property {boolean} anew      a new study
 * @property {boolean} more      one more in this script
 * @property {Judged | null} judged
 * @property {string[]} passed
 * @property {import('./elsewhere.js').Spot[] | null} survey
 * @property {string[]} waits      the tables that are being built for it
 * @property {string} id      the document that it becomes, where that is a new one
 * @property {import('./turning.js').Turn[]} turns      of the whole diagram, so that the moves can come along
 * @property {string} base      the node whose position it began with: the moves below it can come along
 * @property {string[]} past      states before, as a FEN, an aim, turns and a node with | between them
 * @property {string[]} future      states that were taken back
 */

/**
 * @param {boolean} anew
 * @param {boolean} more
 */
export function openSetup(anew, more = false) {
  const s = study(), blank = anew || !s, fen = blank ? `${EMPTY} w - - 0 1` : app.view ? app.view.fen : s.fen;
  begin({
    placed: `${fen}|${blank || !s.aim ? 'white win' : aimWords(s.aim)}`,
    past: [],
    future: [],
    anew: blank,
    more,
    id: freshId()
  });
}
/**
 * A set-up begins, or goes on as it was kept.
 * @param {import('./types.js').KeptDraft} kept
 */
export function begin({placed, past, future, anew, more, id}) {
  const rest = {tool: 'K', man: null, cursor: null, judged: null, passed: [], survey: null, waits: []};
  app.setup = {...rest, ...stateOf(placed), anew, more, id, past, future};
  app.chosen = null;
  clearMessage();
  services.show();
  judgeDraft();
}
export function closeSetup() {
  app.setup = null;
  clearMessage();
  services.keep();
  services.show();
}
/** @param {string} placed */
function stateOf(placed) {
  const [fen, aim = '', turns = '', base = ''] = placed.split('|'), [, mover, ...tail] = fen.split(' ');
  return {
    turns: turns.split(' ').filter(isTurn),
    base: /^\d+(\.\d+)*$/.test(base) ? base : 'root',
    men: menOf(fen),
    mover: mover === 'b' ? 'b' : 'w',
    tail: tail.join(' ') || '- - 0 1',
    aim: aim || 'white win'
  };
}
/** @param {Draft} d */
const placedOf = d => `${draftFen()}|${d.aim}|${d.turns.join(' ')}|${d.base}`;
export const draftFen = () => {
  const d = /** @type {Draft} */ (app.setup);
  return `${placement(d.men)} ${d.mover} ${d.tail}`;
};
/**
 * The set-up at hand as it is kept; none where no man was put down.
 * @returns {import('./types.js').KeptDraft | null}
 */
export function draftKept() {
  const d = app.setup;
  if (!d || !d.past.length && !(d.anew && Object.keys(d.men).length)) return null;
  return {
    placed: placedOf(d),
    past: d.past.slice(-200),
    future: d.future.slice(0, 200),
    anew: d.anew,
    more: d.more,
    id: d.id
  };
}
/** The other fields of a FEN after a change of the men or of the side to move. */
const noPassed = (/** @type {string} */ tail) => '- - ' + tail.split(' ').slice(2).join(' ');

/** @param {Partial<Draft>} changes */
export function changeDraft(changes) {
  const d = app.setup;
  if (!d) return;
  const before = placedOf(d);
  Object.assign(d, changes, {judged: null, survey: null});
  if ((changes.men || changes.mover) && changes.tail === undefined) d.tail = noPassed(d.tail);
  if (changes.men && d.man !== null && !d.men[d.man]) d.man = null;
  if (placedOf(d) !== before) Object.assign(d, {past: [...d.past, before], future: []});
  redrawDraft();
}
function redrawDraft() {
  if (app.say && app.say.where === 'fen') clearMessage();
  services.keep();
  services.show();
  judgeDraft();
}
/**
 * The set-up as it was before the last change, or after it again; a set-up that nothing was done to is left by it.
 * @param {boolean} back
 */
export function stepDraft(back) {
  const d = app.setup, list = d ? (back ? d.past : d.future) : [];
  if (!d) return;
  if (!list.length) return back && study() ? closeSetup() : undefined;
  const now = placedOf(d),
        moved = back ? {past: d.past.slice(0, -1), future: [now, ...d.future]}
                     : {past: [...d.past, now], future: d.future.slice(1)};
  Object.assign(d, stateOf(back ? list[list.length - 1] : list[0]), moved, {man: null, judged: null, survey: null});
  redrawDraft();
}
/**
 * One king a side: the old one is removed.
 * @param {Men} men
 * @param {number} s
 * @param {string} letter
 * @returns {Men}
 */
function withMan(men, s, letter) {
  const next = Object.fromEntries(
    Object.entries(men).filter(([at, c]) => Number(at) !== s && !(/[Kk]/.test(letter) && c === letter)));
  return letter === 'x' ? next : {...next, [s]: letter};
}
/**
 * After a white king the black one is offered.
 * @param {Men} men
 * @param {string} tool
 */
const nextTool = (men, tool) => (tool === 'K' && !Object.values(men).includes('k') ? 'k' : tool);
/**
 * @param {number} s
 * @param {string} [letter]
 */
export function placeAt(s, letter) {
  const d = /** @type {Draft} */ (app.setup), men = withMan(d.men, s, letter || d.tool);
  changeDraft({men, man: s, ...(letter ? {} : {tool: nextTool(men, d.tool)})});
}
/** @param {number} s */
export function removeAt(s) {
  const men = {.../** @type {Draft} */ (app.setup).men};
  delete men[s];
  changeDraft({men});
}
/**
 * A man dragged: from the palette or a square, to a square or off the board.
 * @param {number | null} from
 * @param {number | null} to
 * @param {string} letter
 * @param {boolean} moved
 */
export function moveDraft(from, to, letter, moved) {
  const d = /** @type {Draft} */ (app.setup), rest = {...d.men};
  if (from === null && (to === null || !moved)) return services.show();
  if (from !== null) delete rest[from];
  if (to === null) return changeDraft({men: rest});
  if (from === to) {
    if (moved || d.survey) return services.show();
    return d.tool === letter || d.tool === 'x' ? changeDraft({men: rest}) : placeAt(to);
  }
  const men = withMan(rest, to, letter);
  changeDraft({men, man: to, ...(from === null ? {tool: nextTool(men, letter)} : {})});
}
/**
 * The whole diagram is turned; the moves of its study can come along.
 * @param {import('./turning.js').Turn} turn
 */
export function turnDraft(turn) {
  const d = /** @type {Draft} */ (app.setup), fen = turnedFen(turn, draftFen());
  if (!fen) {
    say('fen', 'A man would leave the board.');
    return services.show();
  }
  const [placed, mover, ...tail] = fen.split(' ');
  clearMessage();
  changeDraft({
    men: menOf(placed),
    mover,
    tail: tail.join(' '),
    aim: turnedAim(turn, d.aim),
    turns: [...d.turns, turn],
    man: null
  });
}
/** @param {string} text */
export function setTypedFen(text) {
  if (refuseLong({id: 'fen', value: draftFen()}, text)) return;
  const d = /** @type {Draft} */ (app.setup), read = typedFen(text, d.mover);
  if ('bad' in read) {
    say('fen', read.bad);
    Object.assign(app.say || {}, {field: 'fen', typed: text});
    return services.show();
  }
  const fields = read.fen.split(' ');
  clearMessage();
  changeDraft({men: menOf(read.fen), mover: fields[1] === 'b' ? 'b' : 'w', tail: fields.slice(2).join(' '), man: null});
}
/**
 * A position that comes in is set up: in the set-up that is open, else in a new one.
 * @param {string} text
 */
export function setUpText(text) {
  const back = !app.setup && Boolean(study());
  if (!app.setup) openSetup(true);
  setTypedFen(text);
  if (!back || app.say) return;
  say('board', 'The position is set up for a new study; Cancel goes back to the one before.', true);
  services.show();
}

let judging = 0;
/** What the program says of the draft. Tables of two and three men are built for it; larger ones when the user asks. */
export async function judgeDraft(build = false) {
  const mine = ++judging, d = app.setup;
  if (!d) return;
  const judged = await judgement(d, build).catch(
    fault => ({bad: '', text: `The program did not answer: ${fault.message}.`, lacking: [], mate: 0}));
  d.waits = [];
  const passed = judged.bad ? [] : await passedSquares().catch(() => []);
  if (mine !== judging || app.setup !== d) return;
  Object.assign(d, {judged, passed});
  services.showJudged();
}
/**
 * @param {Draft} d
 * @param {boolean} build
 * @returns {Promise<Judged>}
 */
async function judgement(d, build) {
  const fen = draftFen(), none = {bad: '', text: '', lacking: /** @type {string[]} */ ([]), mate: 0};
  const check = await services.core.answer('run', `position ${fen}\n`, 1);
  if (check.text.startsWith('error')) return {...none, bad: reason(check.text.trim())};
  let lacking = await services.tables.lacking([fen]);
  if (lacking.length && (build || Object.keys(d.men).length < 4 || services.tables.isComing(lacking))) {
    d.waits = lacking;
    services.showJudged();
    lacking = await services.tables.ready([fen]).then(() => [], fault => {
      if (fault instanceof Stopped) return lacking;
      throw fault;
    });
  }
  if (lacking.length) return {...none, lacking};
  const view = await viewOf(`position ${fen}\nstipulate ${d.aim}\n`, 'root');
  if (typeof view === 'string') return {...none, text: view};
  const own = view.moves.filter(holds).map(m => m.san), wrong = view.stamp !== wordOf('correct');
  const hero = view.aim && sideOf(view.fen) === view.aim.hero,
        list = own.slice(0, 8).join(' ') + (own.length > 8 ? ' ..' : '');
  const first = own.length === 1 ? `One first move: ${own[0]}.` : `${counted(own.length, 'first move')} work: ${list}.`;
  const aim = view.aim ? aimText(view.aim) : '', result = wrong ? view.stamp : 'correct';
  const text = `${aim}: ${result}; ${view.start}. ${!wrong && hero ? first : ''}`;
  return {...none, text, mate: movesTo(view.root.value)};
}
async function passedSquares() {
  const {text} = await services.core.answer('passed ' + draftFen().replace(/^(\S+ \S+) .*/, '$1 - - 0 1'), '', 1);
  return text.split(/\s+/).filter(word => /^[a-h][1-8]$/.test(word));
}
/** The number of moves that an aim of mate begins with. */
export const guess = () => {
  const judged = app.setup ? app.setup.judged : null, root = app.view ? app.view.root : null;
  return (app.setup ? judged && judged.mate : root && movesTo(root.value)) || 2;
};
