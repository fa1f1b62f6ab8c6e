// @ts-check
// Two studies for a first visit: one whose tables are built in a second or two, and one whose tables take about a
// minute.
import {insertLines} from './edits.js';
import {typedMoves} from './typed.js';
/** @param {string} text      moves as they are typed */
const moves = text => insertLines([], /** @type {any} */ ({last: -1}),
  /** @type {any} */ ({path: 'root', children: []}), 'root',
  [typedMoves(text)]).lines;

export const PAWN = [
  'position 8/8/8/6k1/8/8/1P5K/8 w - - 0 1', 'stipulate white win', 'tag Event The longest win of king and pawn',
  'tag White found with the tables', ...moves('Kg3 (b4 Kf6) Kf5 Kf3 (b4 Ke6) Ke5 Ke3 Kd5 Kd3 Kc5 Kc3')
];
export const SAAVEDRA = [
  'position 8/8/1KP5/3r4/8/8/8/k7 w - - 0 1', 'stipulate white win', 'tag Event Glasgow Weekly Citizen',
  'tag White Barbier and Saavedra', 'tag Date 1895.??.??',
  ...moves('c7 (Kb7 Rd6) Rd6+ Kb5 (Kc5 Rd1) Rd5+ Kb4 Rd4+ Kb3 (Kc3 Rd1 Kc2) Rd3+ Kc2 Rd4 c8=R (c8=Q Rc4+ Qxc4) Ra4 Kb3')
];
