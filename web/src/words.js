// @ts-check
// Values, verdicts and refusals in the words of the printed page.
import {moveNumber, other, sideOf} from './fen.js';
import {atStart, refusalReason, wordOf, wordsNamed} from './wording.js';
/** @typedef {import('./types.js').Value} Value @typedef {import('./types.js').Side} Side */
/** @typedef {import('./types.js').Aim} Aim */
/** @typedef {import('./types.js').TreeNode} TreeNode */

/**
 * @param {Side} mover
 * @param {Value} value
 * @returns {Side | null}
 */
export const winner = (mover, value) => (value.kind === 'draw' ? null : value.kind === 'win' ? mover : other(mover));
/** @param {Value} value */
export const movesTo = value => Math.ceil(value.n / 2);
/** @param {Value} value */
const isMate = value => value.kind === 'loss' && value.n === 0;

/**
 * @param {Side} mover
 * @param {Value} value
 */
export function valueText(mover, value) {
  if (value.kind === 'draw') return wordOf('draw');
  if (isMate(value)) return wordOf('mate');
  return wordOf('mates').replace('White', `${winner(mover, value)}`).replace('1', `${movesTo(value)}`);
}
/**
 * The small number after a move; nothing after one that mates, whose own sign says so.
 * @param {Side} hero
 * @param {Side} mover
 * @param {Value} value
 */
export function valueSign(hero, mover, value) {
  const won = winner(mover, value);
  if (won === null) return '=';
  if (isMate(value)) return '';
  return won === hero ? `${movesTo(value)}` : `−${movesTo(value)}`;
}
/**
 * @param {number} n
 * @param {string} one
 */
export const counted = (n, one, many = one + 's') => `${n} ${n === 1 ? one : many}`;
/**
 * A number as `4,096`.
 * @param {number} n
 */
export const grouped = n => n.toLocaleString('en-US');
/**
 * A time as on a clock: `45 s`, `3:05 minutes`.
 * @param {number} seconds
 */
export const clockText = seconds =>
  (seconds < 60 ? `${seconds} s` : `${Math.floor(seconds / 60)}:${`${seconds % 60}`.padStart(2, '0')} minutes`);
/** @param {Aim} aim */
export const aimWords = aim => `${aim.hero.toLowerCase()} ${aim.goal}${aim.goal === 'mate' ? ' ' + aim.k : ''}`;
/** @param {Aim} aim */
export const aimText = aim => `${aim.hero} to ${aim.goal}${aim.goal === 'mate' ? ' in ' + aim.k : ''}`;
/**
 * `white mate 3`
 * @param {string} words
 * @returns {Aim}
 */
export function readAim(words) {
  const [hero, goal, k] = words.trim().split(/ +/);
  return {hero: hero === 'black' ? 'Black' : 'White', goal: /** @type {Aim['goal']} */ (goal), k: Number(k) || 0};
}
/** @param {{mark: string}} move */
export const holds = move => move.mark === 'only' || move.mark === 'dual';

/** @param {TreeNode} node */
export const moveName = node => (node.parent ? numberedName(node.parent.fen, node.san) : wordOf('root'));
/**
 * @param {string} before
 * @param {string} san
 */
export const numberedName = (before, san) => moveNumber(before) + san;
/**
 * A line of moves with its numbers.
 * @param {string} fen
 * @param {string[]} sans
 */
export function numberedLine(fen, sans) {
  let white = sideOf(fen) === 'White', k = Number(fen.split(' ')[5]);
  return sans
    .map((san, i) => {
      const text = (white ? `${k}. ` : i ? '' : `${k}... `) + san;
      if (!white) k++;
      white = !white;
      return text;
    })
    .join(' ');
}

/**
 * The last move of a line with its number.
 * @param {string} fen
 * @param {string[]} sans
 */
export function numberedLast(fen, sans) {
  const plies = sans.length - (sideOf(fen) === 'White' ? 1 : 0), number = Number(fen.split(' ')[5]) + (plies >> 1);
  return `${number}${plies % 2 ? '...' : '.'} ${sans[sans.length - 1]}`;
}

/**
 * The verdict and the value of the start: the sentences of the core.
 * @param {import('./types.js').View} view
 * @param {string} kind      of the stamp
 * @param {string} [ofPart]      what the verdict means of a part of a game, if that is something else
 */
export function verdictSentence(view, kind, ofPart = '') {
  const own = kind === 'not read' ? wordOf('unread-sentence')
    : kind === 'ends'             ? 'The stipulation is correct, and the line ends here.'
    : kind === 'over' ? `The stipulation is correct: ${view.over || 'mate'} stands on the board, and no move is left.`
                      : ofPart;
  return own ? `${own} ${atStart(view.start)}.` : view.sentence;
}
/** @param {{mark: string}} move */
export const markSign = ({mark}) => (mark === 'only' ? '!' : mark === 'mistake' ? '?' : '');
/**
 * What the mark of a node means.
 * @param {TreeNode} node
 * @param {Aim | null} aim
 */
export function markMeaning(node, aim) {
  if (node.mark === 'only') return 'the only move that works';
  if (node.mark === 'dual')
    return node.duals === 1 ? 'dual: one other move works too' : `dual: ${node.duals} others work too`;
  if (node.mark === 'idle') return 'nothing was to be gained';
  if (node.mark !== 'mistake' || !node.parent) return '';
  if (!aim || sideOf(node.parent.fen) !== aim.hero) return 'gives it back';
  return lateBy(aim, node) > 0 ? `mates${lateText(lateBy(aim, node)).replace(',', '')}` : letsGo();
}
/** What is said of a mistake of the hero. */
export const letsGo = () => wordOf('lets-go').replace(/[ :]*$/, '').trim();
/** @param {number} answers */
export const answersText = answers => (answers ? wordOf('answers').replace('2', `${answers}`) : wordOf('stalemate'));
/**
 * @param {number} keeping
 * @param {number} of
 */
export const keepText = (keeping, of) => `${keeping} of ${of}${wordOf('keep')} `;
/**
 * How much of a point a mutual zugzwang is, and what comes of it with White and with Black to move.
 * @param {string} kind      `full`, `half white`, `half black`
 */
export const zugzwangWords = kind => wordsNamed(kind.replace(' ', '-'));
/** @param {string} kind */
export function zugzwangText(kind) {
  const [points, white, black] = zugzwangWords(kind);
  return `${points}; White to move: ${white}; Black to move: ${black}`;
}
/**
 * How much longer another move takes than the one played.
 * @param {Aim} aim
 * @param {Value} played
 * @param {Value} value
 */
export function difference(aim, played, value) {
  if (aim.goal === 'draw' || value.kind === 'draw' || played.kind === 'draw') return '';
  const d = (value.n - played.n) / 2;
  const words = wordOf(d === 0 ? 'as-quick' : d > 0 ? 'longer' : 'quicker').replace(', ', '');
  return words.replace('1 move', counted(Math.abs(d), 'move'));
}
/**
 * By how many of the hero's moves, counted from the start, a mate comes too late.
 * @param {Aim} aim
 * @param {TreeNode} n
 */
export const lateBy = (aim, n) => (aim.goal === 'mate' && winner(sideOf(n.fen), n.value) === aim.hero
    ? Math.ceil((n.path.split('.').length + n.value.n) / 2) - aim.k
    : 0);
/**
 * `, one move too late`, `, 2 moves too late`
 * @param {number} late
 */
export const lateText = late => (late > 0 ? `, ${late === 1 ? 'one move' : `${late} moves`} too late` : '');
/**
 * What could be said of the position instead, by its value alone: words of stipulations.
 * @param {Aim} aim
 * @param {string} verdict
 * @param {Side} mover
 * @param {Value} value
 * @param {boolean} duals
 */
export function otherAims(aim, verdict, mover, value, duals) {
  const won = winner(mover, value);
  if (verdict === 'wrong') {
    if (!won) return aim.goal === 'draw' ? [] : ['white draw', 'black draw'];
    if (won !== aim.hero) return [`${won.toLowerCase()} win`];
    return aim.goal === 'mate' ? [`${won.toLowerCase()} mate ${movesTo(value)}`] : [];
  }
  if (aim.goal === 'draw' && won === aim.hero) return [`${won.toLowerCase()} win`];
  const mate = `${aim.hero.toLowerCase()} mate ${movesTo(value)}`;
  return duals && aim.goal === 'win' && movesTo(value) <= 127 ? [mate] : [];
}

/** Of requests that only the board makes. */
const OWN_REASONS = /** @type {Record<string, string>} */ ({
  PagedMode: 'it wants whole tables, and the board reads them by pages',
  NoFile: 'there is no file of this table',
  Cut: 'the file is cut short',
  NotATable: 'the file is no table',
  HeaderDamaged: 'the head of the file is damaged',
  TrailingBytes: 'the file is too long',
  NoMan: 'no man stands there',
  Device: 'it could not be written',
  NoSuchTheme: 'no such theme',
  NoSuchFilter: 'a word that names no square of a man: write Kf7, or Pa2-h4 for any square between',
  NoKeyMove: 'positions of this theme have no one first move',
});
/** What to write instead, where a reason of the core does not say it. */
const ADVICE = /** @type {Record<string, string>} */ ({
  BadByte: 'write names without accents',
  UnknownTag: 'write Event, White (the author), Black, Site, Date or Round',
  UnknownStipulation: 'write white or black, then win, draw, or mate and a number from 1 to 127',
  NotSan: 'write Kb6 or c8=R',
  Ambiguous: 'add the file or rank of the origin',
  EnPassantField: 'the square that a pawn has passed is the fourth field',
  Clock: 'the half-move clock is the fifth field',
  MoveNumber: 'the number of the move is the sixth field',
});
/**
 * A reply `error NAME ARGUMENT` as words.
 * @param {string} reply
 */
export function reason(reply) {
  const [, name = '', ...rest] = reply.split(' '), argument = rest.join(' ');
  if (/^K[QRBNP]*K[QRBNP]*$/.test(name)) return `the file of the table ${name} is damaged (${argument})`;
  if (name === 'NoTable' || name === 'MissingTable') return `the table ${argument} is not there`;
  if (name === 'AlreadyHeld') return `the table ${argument} is there already`;
  if (name === 'OtherClass') return `the file holds the table ${argument}`;
  if (name === 'PageDamaged') return `a table's file is damaged (${argument})`;
  if (name === 'ShiftBroken' || name === 'TableRead') return `${refusalReason(name)} (${argument})`;
  const why = refusalReason(name) || OWN_REASONS[name] || reply.replace(/^error /, '');
  return ADVICE[name] ? `${why}: ${ADVICE[name]}` : why;
}
/**
 * Why a whole run ended.
 * @param {string} ended
 */
export function endedReason(ended) {
  const [name, line] = ended.split(' ');
  if (name === 'LineTooLong') return `line ${line} has more than 1024 characters`;
  if (name === 'TooManyLines') return 'a study has more than 100,000 lines';
  return name === 'OutOfMemory' ? refusalReason(name) : ended;
}
