// @ts-check
// The stamp of a study: that of its view, as the printed page has it, with how many duals a judge accepts. A study with
// a line that was not read has no verdict; as long as its facts are not known, what its game says is shown.
import {acceptedAmong, acceptedStamp, hasAccepted} from './accepted.js';
import {faultKind} from './fault_kinds.js';
import {other, sideOf} from './fen.js';
import {isCutLine} from './left_out.js';
import {isEdit, openingsBefore, wordsOf} from './script.js';
import {unjudgedFor} from './tails.js';
import {bareTree} from './unmarked.js';
import {aimText} from './words.js';
import {wordOf} from './wording.js';
/** @typedef {import('./types.js').Study} Study @typedef {import('./types.js').Review} Review */
/** @typedef {import('./types.js').Aim} Aim */

/**
 * Whether some move of the hero is in a tree: what a review calls `empty`, for a tree that has no review yet.
 * @param {{children: {children: any[]}[]}} root
 * @param {string} fen
 * @param {Aim} aim
 */
export const hasHeroMove = ({children}, fen, aim) =>
  children.some(child => sideOf(fen) === aim.hero || child.children.length > 0);
/**
 * Whether some move of the hero is in the tree of a study.
 * @param {string[]} lines
 * @param {Study} s
 * @param {Review | null} review
 */
export function hasSolution(lines, s, review) {
  if (review) return !review.empty;
  const known = solved.get(s.pgn || '');
  if (s.aim === null || known !== undefined) return Boolean(known);
  const own = lines.slice(s.from, s.end), has = isSolved(own, s.fen, s.aim) || hasHeroMove(bareTree(own), s.fen, s.aim);
  if (solved.size > 20000) solved.clear();
  if (s.pgn) solved.set(s.pgn, has);
  return has;
}
/**
 * Whether a study's lines say by themselves that it has a move of the hero: one at the start, which none deletes.
 * @param {string[]} lines
 * @param {string} fen
 * @param {Aim} aim
 */
const isSolved = (lines, fen, aim) => sideOf(fen) === aim.hero && lines.some(line => /^insert root \S+$/.test(line)) &&
  !lines.slice(1).some(line => /^ *(delete|position) /.test(line));
/** The same by the game, which has stipulation and moves. */
const solved = /** @type {Map<string, boolean>} */ (new Map());
/**
 * The first refused line of a study that is as wanted.
 * @param {{refused: import('./types.js').Refused[]}} doc
 * @param {Study} s
 * @param {(line: string) => any} wanted
 */
const refusedIn = (doc, s, wanted) => doc.refused.find(r => s.from < r.line && r.line < s.end && wanted(r.text));
/** @param {import('./types.js').Refused} r */
function refusedText({text}) {
  const words = wordsOf(text);
  return words.slice(words[0] === 'insert' ? 2 : 0).join(' ').slice(0, 40);
}
/** @param {import('./types.js').Refused} r */
const unreadAt = ({line}) => wordOf('unread').replace('1', `${line + 1}`);
/**
 * Where the reading of a study ended, as its game says: the first move of the file that was not read, or the first
 * refused line. The verdict on such a study is not the entry's.
 * @param {{refused: import('./types.js').Refused[]}} doc
 * @param {Study} s
 */
export function unreadIn(doc, s) {
  const unread = refusedIn(doc, s, isEdit), cut = s.origin && s.origin.cut;
  return cut ? `not read: ${cut.move}` : unread ? `not read: ${refusedText(unread)}` : '';
}
/**
 * What is wrong with a stipulation: that the hero reaches more than is asked for, or less; empty if it is correct.
 * @param {Aim} aim
 * @param {string} verdict      as in the game
 * @param {string} start        the value of the start, in words
 * @param {string} fen
 */
export function wrongText(aim, verdict, start, fen) {
  const [, side = '', n = ''] = /^(White|Black) mates in (\d+)$/.exec(start) || [],
                          winner = start === wordOf('mate') ? other(sideOf(fen)) : side;
  if (aim.goal === 'draw' && winner === aim.hero) return wordOf('wins').replace('White', aim.hero);
  if (verdict !== 'wrong') return '';
  if (aim.goal === 'mate' && winner === aim.hero && Number(n) < aim.k)
    return wordOf('sooner').replace(wordOf('mates'), start);
  return missesText(aim);
}
/** @param {Aim} aim */
const missesText = aim => wordOf('misses').replace('win', aim.goal === 'mate' ? `mate in ${aim.k}` : aim.goal);
/**
 * What a solution with faults is called.
 * @param {Review} review
 * @returns {{kind: string, text: string}}
 */
export function faultyStamp({faults, stamp}) {
  const kinds = faults.map(fault => faultKind(fault));
  return {
    kind: kinds.includes('fails')             ? 'mistake'
      : kinds.every(kind => kind === 'waste') ? 'time'
                                              : 'duals',
    text: stamp
  };
}
/**
 * Whether the hero does not reach his goal.
 * @param {Study} s
 */
const isMissed = s =>
  s.aim !== null && s.verdict === 'wrong' && wrongText(s.aim, s.verdict, s.start, s.fen) === missesText(s.aim);
/**
 * Whether two studies ask for the same.
 * @param {Aim | null} one
 * @param {Aim | null} two
 */
const sameGoal = (one, two) => one !== null && two !== null && one.hero === two.hero && one.goal === two.goal;
/**
 * The part of the same game that refutes a try which leads to this part too: the opponent can enter it in place of a
 * move on the way to this one. What is refuted after moves of the hero that are not on that way proves nothing.
 * @param {import('./types.js').Script} doc
 * @param {Study} s
 */
function refutedIn(doc, {aim, origin}) {
  const {game, node} = origin.tail || {game: 0, node: ''};
  return doc.studies.find(other => {
    const {tail = null, cut = null} = other.origin || {},
                              before = tail && tail.game === game ? tail.node.split('.').slice(0, -1).join('.') : '';
    return tail !== null && tail.beside && before !== '' && node !== tail.node && node.startsWith(`${before}.`) &&
      !cut && !refusedIn(doc, other, isEdit) && sameGoal(aim, other.aim) && sideOf(other.fen) === aim?.hero &&
      isMissed(other);
  });
}
/**
 * The stamp of a part of a game beside the solution: refuted, if the hero does not reach his goal there. If he does,
 * only a part that comes after another move of the opponent may show that the try is refuted.
 * @param {import('./types.js').Script} doc
 * @param {Study} s
 * @returns {{kind: string, text: string}}
 */
function besideStamp(doc, s) {
  if (isMissed(s)) return {kind: 'refuted', text: wordOf('refuted')};
  const part = refutedIn(doc, s)?.origin.tail, text = wordOf('works');
  return part ? {kind: 'refuted', text: `${text}; the try is refuted in ${part.game}.${part.number}`}
              : {kind: 'works', text};
}
/** What the printed page says of a part of a game beside its solution. */
const REFUTED = 'This line is beside the solution, and from here it is refuted.',
      WORKS = 'This line is beside the solution, and from here it works';
/**
 * What a stamp of a part of a game beside the solution means.
 * @param {{text: string}} stamp
 */
export function besideSentence({text}) {
  if (text === wordOf('refuted')) return REFUTED;
  const [, refuted] = text.split('; ');
  return refuted ? `${WORKS}; but ${refuted.replace('the try', 'the try that leads to it')}.`
                 : `${WORKS}: a second solution, unless there is a better defence before.`;
}
/**
 * Whether the stipulation is not that of the tables in a part of a game: a move before it may be the cause.
 * @param {Study} s
 */
export const isWrongInPart = s => Boolean(s.origin && s.origin.tail && s.origin.tail.after) && s.verdict === 'wrong';
/**
 * What a stamp of a part of a game means, where that is not what it means of a whole one.
 * @param {{lines: string[]}} doc
 * @param {Study} s
 * @param {{text: string}} stamp
 */
export function partSentence({lines}, s, stamp) {
  if (s.origin && s.origin.tail && s.origin.tail.beside) return besideSentence(stamp);
  if (!s.aim || !isWrongInPart(s)) return '';
  const before = `move before, with ${unjudgedFor(lines, s)},`;
  return isMissed(s)
    ? `From here ${s.aim.hero} ${missesText(s.aim)}: a ${before} gave it away, or the stipulation is wrong.`
    : `${stamp.text.replace('from', 'From')}, more than is asked: a weak ${before} may have allowed it, or the ` +
      'stipulation asks for too little.';
}
/**
 * The stamp of a correct stipulation without a solution. Mate or stalemate on the board leaves nothing to give, and a
 * line of a game may end where four men are left.
 * @param {Study} s
 * @param {Review | null} review
 * @returns {{kind: string, text: string}}
 */
function unsolved({start, origin}, review) {
  const over = start === wordOf('mate') ? 'mate' : review && review.over;
  if (over) return {kind: 'over', text: `begins in ${over}`};
  return origin && origin.tail ? {kind: 'ends', text: 'correct, and the line ends here'}
                               : {kind: 'correct', text: wordOf('correct')};
}
/** @param {string} n */
const faultsText = n => `${n} ${n === '1' ? 'fault' : 'faults'}`;
/**
 * What the games of a script say of a study before its last edit, as `White to win: does not win`.
 * @param {Study} study
 */
export const verdictsBefore = study => openingsBefore(study).map(({aim, verdict, start}) => {
  const [kind, n] = verdict.split(' '), wrong = aim ? wrongText(aim, verdict, start, study.fen) : '';
  return `${aim ? aimText(aim) : ''}: ${wrong || (kind === 'unsound' ? faultsText(n) : kind)}`;
});
/**
 * What is said of a study in a few words. As long as its facts are not known, its faults are only counted.
 * @param {import('./types.js').Script} doc
 * @param {Study} s
 * @param {Review | null} review
 * @returns {{kind: string, text: string}}
 */
export function stampOf(doc, s, review) {
  const unread = refusedIn(doc, s, isEdit), [kind, n] = s.verdict.split(' '),
        wrong = s.aim ? wrongText(s.aim, s.verdict, s.start, s.fen) : '';
  if (s.origin && s.origin.cut) return {kind: 'not read', text: unreadIn(doc, s)};
  if (unread)
    return {
      kind: 'not read',
      text: isCutLine(unread.text) ? unreadIn(doc, s) : `${unreadAt(unread)}, ${refusedText(unread)}`
    };
  if (!kind) return {kind: 'not judged', text: 'not judged'};
  if (s.origin && s.origin.tail && s.origin.tail.beside) return besideStamp(doc, s);
  if (wrong && isWrongInPart(s) && !isMissed(s)) return {kind: 'more', text: wrong.replace(/^\w+: /, 'from here ')};
  if (wrong || kind === 'wrong') return {kind: 'wrong', text: wrong || kind};
  if (kind === 'sound')
    return hasSolution(doc.lines, s, review) ? {kind, text: (review && review.stamp) || kind} : unsolved(s, review);
  if (!review || !review.stamp) return {kind: 'duals', text: faultsText(n)};
  const stamp = faultyStamp(review);
  if (stamp.kind !== 'duals') return stamp;
  const {faults} = review, accepted = acceptedOf(doc, s, faults),
        cook = faults.find(fault => faultKind(fault) === 'cook'),
        idle = faults.filter(fault => faultKind(fault) === 'waste' && !accepted.includes(fault.path)).length,
        named = /^cook/.test(stamp.text) && cook !== undefined && accepted.includes(cook.path);
  return acceptedStamp(stamp.text, accepted.length, faults.length, named, idle) || stamp;
}
/**
 * A stamp as long as facts are being found that can change its words: `sound …`, `3 faults …`.
 * @param {{kind: string, text: string}} stamp
 */
export function openStamp({kind, text}) {
  if (kind === 'duals') return {kind: 'faults', text: `${text} …`};
  return {kind, text: kind === 'sound' ? `${text} …` : text};
}
/**
 * The paths of the faults of a study that are accepted.
 * @param {{lines: string[]}} doc
 * @param {Study} s
 * @param {import('./types.js').Fault[]} faults
 */
export function acceptedOf({lines}, s, faults) {
  if (!faults.length || !hasAccepted(lines, s)) return [];
  const duals = faults.filter(({kind}) => kind === 'dual').map(({path}) => path);
  return acceptedAmong(lines, s, bareTree(lines.slice(s.from, s.end)), duals);
}
