// @ts-check
// Moves as they are typed, in the ways in which books write them, as texts that the program takes.

const GERMAN = /** @type {Record<string, string>} */ ({S: 'N', T: 'R', L: 'B', D: 'Q'});
/** @param {string} letter */
const english = letter => GERMAN[letter] || letter;
/**
 * `Kb6-b7`, `kb7`, `Td6+` and `c7-c8D` as `Kb6b7`, `Kb7`, `Rd6+` and `c7c8=Q`.
 * @param {string} word
 */
export function typedMove(word) {
  if (/^[O0]/.test(word)) return word;
  const capital = (/** @type {string} */ letter) => letter.toUpperCase();
  const promoted = (/** @type {string} */ _, /** @type {string} */ square, /** @type {string} */ letter) =>
    `${square}=${english(letter)}`;
  const bare = word.replace(/[-\u2013\u2014]/g, '');
  const move =
    bare.replace(/^([kqrnstl])(?=[a-h]?[1-8]?x?[a-h][1-8])/, capital).replace(/^[STLD](?=[a-h1-8x])/, english);
  return move.replace(/([a-h][18])[=(]?([QRBNDTLS])\)?(?=[+#!?]*$)/, promoted);
}
/** No move has so many letters: of a longer word the first ones are enough to be refused. */
const MOST_LETTERS = 40;
/**
 * Several moves, with variations in brackets; numbers and `e.p.` are passed over.
 * @param {string} text
 * @returns {string[]}
 */
export function typedMoves(text) {
  const plain = text.replace(/\be\.?p\.?/g, ' ').replace(/\b\d+\s*\.+|\u2026/g, ' ');
  const words = plain.match(/[a-h][18]=?\([QRBNDTLS]\)[+#!?]*|[()]|[^\s()]+/g) || [];
  const moves = words.map(word => typedMove(word.slice(0, MOST_LETTERS)));
  return moves.filter(word => /[a-h][1-8]|[()O0]/.test(word) || word.length > 1);
}
