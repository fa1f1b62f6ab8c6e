// @ts-check
// The number of a game in the file that it was opened from, in a game that is saved at another place: where others were
// left out, or the studies were moved. It has this number again when the saved file is opened.
/** @typedef {import('./types.js').Study} Study */

/**
 * What a saved game says of its number, behind the program's words; nothing where its place says it, and of a part of a
 * game, which has words of its own.
 * @param {Study} study
 * @param {number} place
 */
export function numberText({origin, games}, place) {
  const isOther = origin && origin.game && !origin.tail && origin.game !== place;
  return isOther && games.length === 1 && games[0].includes('\n\n{') ? `Game ${origin.game} of the first file` : '';
}
const SAID = /Game (\d+) of the first file(?:\. |$)/, FIRST = new RegExp(`^${SAID.source}`),
      BEHIND_OURS = new RegExp(`\\. ${SAID.source}`);
/**
 * The author's words before the first move of a saved game, without its number.
 * @param {string} words
 */
export const withoutNumber = words => words.replace(FIRST, '');
/**
 * Whether a text has games that say a number, as far as can be seen at once.
 * @param {string} text
 */
export const isNumbered = text => /\sof\s+the\s+first\s+file/.test(text);
/**
 * The number that a saved game says in its first comment, or 0.
 * @param {string} game
 */
function numberIn(game) {
  const [, comment] = /\{([^}]*)\}/.exec(game.replace(/^\s*\[[^\n]*$/gm, '')) || ['', ''],
           [, number] = BEHIND_OURS.exec(comment.replace(/\s+/g, ' ').trim()) || [0, 0];
  return Number(number);
}
/**
 * The numbers of the games of a file, as those say that were saved; another game has its place, or one behind all where
 * that is taken. Nothing where no game says one, or two say the same, as in files that were put together.
 * @param {string[]} games
 */
export function savedNumbers(games) {
  const said = games.map(game => (isNumbered(game) ? numberIn(game) : 0)), stated = said.filter(Boolean),
        taken = new Set(stated);
  if (!stated.length || taken.size < stated.length) return [];
  let most = stated.reduce((x, y) => Math.max(x, y), games.length);
  return said.map((number, i) => number || (taken.has(i + 1) ? ++most : i + 1));
}
