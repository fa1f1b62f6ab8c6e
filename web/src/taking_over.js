// @ts-check
// A set-up becomes lines: a new study, another position for this one with an empty tree, or with as much of its tree as
// is legal.
import {$} from './dom.js';
import {change, track, sayOpened} from './actions.js';
import {evaluate} from './running.js';
import {app, doc, services, say} from './state.js';
import {addStudy, replacePosition, withMoves} from './edits.js';
import {baseOf, notesBehind, treeFor, wayTo} from './ending.js';
import {notesMoved} from './notes.js';
import {fensOf} from './script.js';
import {closeSetup, draftFen} from './setup.js';
import {legalPart, turnedSan} from './turning.js';
import {counted} from './words.js';
/** @typedef {import('./types.js').Study} Study @typedef {import('./types.js').Doc} Doc */
/** @typedef {import('./setup.js').Draft} Draft */

/**
 * The moves of the study that is shown, or of its end, as far as they are legal from the set-up.
 * @param {Draft} d
 * @param {string} fen
 */
async function movesFrom(d, fen) {
  const tree = treeFor(/** @type {import('./types.js').View} */ (app.view).root, d),
        head = ['position ' + fen, 'stipulate ' + d.aim];
  await services.tables.ready(fensOf(head));
  return legalPart(tree, async lines => {
    const {refused} = await evaluate([...head, ...lines]), first = refused.find(r => r.line >= head.length);
    return first ? first.line - head.length : -1;
  });
}
/** @param {{san: string, below: number}[]} fallen */
function fallenText(fallen) {
  const list = fallen.slice(0, 8).map(({san, below}) => san + (below ? ` with ${below} below it` : '')).join(', ');
  const more = fallen.length > 8 ? `, and ${fallen.length - 8} more` : '';
  return `Not legal any more, and left out: ${list}${more}. Undo brings them back.`;
}
/**
 * @param {Draft} d
 * @param {Doc} now
 * @param {string} fen
 */
function anew(d, now, fen) {
  const s = now.studies[now.at];
  if (!d.anew && s) {
    const {lines, study} = notesBehind(now.lines, s, wayBefore(d));
    return replacePosition(lines, study, fen, d.aim);
  }
  return {
    lines: addStudy(d.more ? now.lines : [], fen, d.aim, d.more ? now.studies[now.studies.length - 1] : undefined),
    at: d.more ? now.studies.length : 0,
    path: 'root',
    ...(d.more ? {} : {name: '', note: '', id: d.id})
  };
}
/**
 * The moves before the position that was taken.
 * @param {Draft} d
 */
const wayBefore = d => (app.view ? wayTo(baseOf(app.view.root, d)) : []);
/**
 * The study with the moves that were kept.
 * @param {Draft} d
 * @param {string[]} all
 * @param {Study} s
 * @param {string} fen
 * @param {string[]} moves
 */
function withKept(d, all, s, fen, moves) {
  const turned = (/** @type {string} */ text) => d.turns.reduce((words, turn) => turnedSan(turn, words), text);
  const {lines, study} = notesBehind(notesMoved(all, s, turned, turned), s, wayBefore(d).map(turned));
  return {...withMoves(lines, study, fen, d.aim, moves), ...(d.base === 'root' ? {} : {path: 'root'})};
}
/** @param {'anew' | 'keep'} how */
export const takeOver = how => track(takeOverOnce(how));
/** @param {'anew' | 'keep'} how */
async function takeOverOnce(how) {
  const d = /** @type {Draft} */ (app.setup), fen = draftFen(), before = doc();
  const failed = (/** @type {Error} */ fault) => {
    say('fen', `${fault.message}.`);
    services.show();
    return null;
  };
  const kept = how === 'keep' && app.view ? await movesFrom(d, fen).catch(failed) : {lines: [], fallen: []};
  if (!kept || app.setup !== d) return;
  const done = await change(now => {
    const s = now.studies[now.at];
    return how === 'keep' && s ? withKept(d, now.lines, s, fen, kept.lines) : anew(d, now, fen);
  }, 'fen');
  if (!done) return;
  closeSetup();
  $('board').firstChild.focus({preventScroll: true});
  if (kept.fallen.length) say('board', `${counted(kept.lines.length, 'move')} kept. ${fallenText(kept.fallen)}`, true);
  services.show();
  if (d.anew && !d.more) sayOpened(before);
}
