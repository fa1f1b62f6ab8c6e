// @ts-check
// A FEN as a drawing: which man is where. No rule of chess is here.

/** @typedef {Record<number, string>} Men      square -> letter, capitals are White */

export const EMPTY = '8/8/8/8/8/8/8/8';
export const NAMES =
  /** @type {Record<string, string>} */ ({K: 'king', Q: 'queen', R: 'rook', B: 'bishop', N: 'knight', P: 'pawn'});
const FILES = 'abcdefgh';

/** @param {number} square */
export const squareName = square => FILES[square % 8] + (Math.floor(square / 8) + 1);
/** @param {string} name */
export const squareAt = name => 8 * (Number(name[1]) - 1) + FILES.indexOf(name[0]);
/**
 * The men of a position, whatever squares they have.
 * @param {string} fen
 */
export const lettersOf = fen => [...fen.trim().split(' ')[0].replace(/[^a-z]/gi, '')].sort().join('');
/**
 * Whether two FEN have the same men, side to move and square of a pawn's double step.
 * @param {string} one
 * @param {string} other
 */
export const samePosition = (one, other) =>
  one.split(' ').slice(0, 4).join(' ') === other.split(' ').slice(0, 4).join(' ');
/** @param {string} letter */
export const isWhite = letter => letter === letter.toUpperCase();
/**
 * @param {string} fen
 * @returns {import('./types.js').Side}
 */
export const sideOf = fen => (fen.split(' ')[1] === 'b' ? 'Black' : 'White');
/**
 * @param {import('./types.js').Side} side
 * @returns {import('./types.js').Side}
 */
export const other = side => (side === 'White' ? 'Black' : 'White');
/**
 * The number before a move from this position, as `3.` or `3...`
 * @param {string} fen
 */
export const moveNumber = fen => (fen.split(' ')[5] || '1') + (sideOf(fen) === 'White' ? '. ' : '... ');
/** @param {string} letter */
export const manName = letter => `${isWhite(letter) ? 'white' : 'black'} ${NAMES[letter.toUpperCase()]}`;

/**
 * @param {string} fen
 * @returns {Men}
 */
export function menOf(fen) {
  const men = /** @type {Men} */ ({});
  fen.trim().split(/ +/)[0].split('/').forEach((rank, i) => {
    let file = 0;
    for (const c of rank) {
      if (/[1-8]/.test(c)) file += Number(c);
      else if (file < 8 && i < 8) men[8 * (7 - i) + file++] = c;
    }
  });
  return men;
}

/** @param {Men} men */
export function placement(men) {
  const squares = (/** @type {number} */ r) => [...FILES].map((_, f) => men[8 * r + f] || '1').join('');
  return [7, 6, 5, 4, 3, 2, 1, 0].map(r => squares(r).replace(/1+/g, s => `${s.length}`)).join('/');
}

/**
 * @param {Men} men
 * @param {boolean} white
 */
function menList(men, white) {
  const order = (/** @type {string} */ c) => 'KQRBNP'.indexOf(c.toUpperCase());
  return Object.entries(men)
    .filter(([, c]) => isWhite(c) === white)
    .sort(([s, c], [t, d]) => order(c) - order(d) || Number(s) % 8 - Number(t) % 8 || Number(s) - Number(t))
    .map(([s, c]) => c.toUpperCase() + squareName(Number(s)));
}
/**
 * `Kb6 Pc6 / Ka1 Rd5`
 * @param {string} fen
 */
export function control(fen) {
  const men = menOf(fen);
  return `${menList(men, true).join(' ')} / ${menList(men, false).join(' ')}`;
}
/**
 * What a screen reader hears of a position.
 * @param {string} fen
 */
export const spokenPosition = fen => `White ${control(fen).replace(' / ', '; Black ')}; ${sideOf(fen)} to move`;

/**
 * `Kb6 Pc6 / Ka1 Rd5`, or `white kb6 pc6 black ka1 rd5`, as a placement; else null.
 * @param {string} text
 */
export function fromControl(text) {
  const sides = text.trim().replace(/^(pieces )? *white /i, '').replace(/ black /i, ' / ').split('/');
  if (sides.length !== 2) return null;
  const men = /** @type {Men} */ ({});
  for (const [i, part] of sides.entries()) {
    for (const word of part.trim().split(/[ ,]+/)) {
      const m = /^([KQRBNSP]?)([a-h][1-8])$/i.exec(word);
      if (!m) return null;
      const letter = (m[1] || 'P').toUpperCase().replace('S', 'N');
      men[squareAt(m[2].toLowerCase())] = i ? letter.toLowerCase() : letter;
    }
  }
  return placement(men);
}

const NO_DRAWING = 'No position: write a FEN, eight ranks of eight squares with / between them, or the men as ' +
  'Kb6 Pc6 / Ka1 Rd5.';
/**
 * Why the first field of a FEN cannot be drawn, the first fault from rank 8 down; nothing if it can.
 * @param {string} field
 */
function drawingFault(field) {
  const ranks = field.split('/');
  if (ranks.length === 1) return NO_DRAWING;
  if (ranks.length !== 8)
    return `No position: there are eight ranks with / between them, and this has ${ranks.length}.`;
  for (const [i, rank] of ranks.entries()) {
    const none = /[^1-8KQRBNPkqrbnp]/.exec(rank), squares = [...rank].reduce((n, c) => n + (Number(c) || 1), 0);
    if (none) return `No position: rank ${8 - i} has ${none[0]}, which is no man; the letters of men are KQRBNP.`;
    if (squares !== 8)
      return `No position: rank ${8 - i} has ${squares} squares, and should have 8: ${rank || 'empty'}.`;
  }
  return '';
}
/**
 * Six fields of what was typed, if it can be drawn, or why it cannot. Whether it is a position is for the program to
 * say.
 * @param {string} text
 * @param {string} mover
 * @returns {{fen: string} | {bad: string}}
 */
export function typedFen(text, mover) {
  const listing = fromControl(text), fields = (listing ? `${listing} ${mover} - - 0 1` : text).trim().split(/\s+/);
  const bad = drawingFault(fields[0]);
  if (bad) return {bad};
  if (fields[1] && !/^[wb]$/.test(fields[1]))
    return {bad: `No position: behind the ranks stands w or b, the side to move, and this has ${fields[1]}.`};
  const rest = ['w', '-', '-', '0', '1'].map((d, i) => fields[i + 1] || (i === 0 ? mover : d));
  return {fen: [fields[0], ...rest].join(' ')};
}

/**
 * What a screen reader hears of a move: `white rook c8, check`.
 * @param {string} before
 * @param {{san: string, to: number}} move
 */
export function spokenMove(before, move) {
  const letter = /^[KQRBN]/.test(move.san) ? move.san[0] : 'P', side = sideOf(before).toLowerCase();
  const takes = move.san.includes('x') ? ' takes' : '', promotion = /=(.)/.exec(move.san);
  const promoted = promotion ? `, becomes a ${NAMES[promotion[1]]}` : '';
  const end = move.san.endsWith('#') ? ', mate' : move.san.endsWith('+') ? ', check' : '';
  return `${side} ${NAMES[letter]}${takes} ${squareName(move.to)}${promoted}${end}`;
}
