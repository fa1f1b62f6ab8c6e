// @ts-check
// What is said of the PGN of two documents that become one: in the numbers that their games have there.
import {importNote} from './imported.js';
import {notKept} from './not_kept.js';

/** What came in of a PGN, behind the name of its file if it has one. */
const CAME = /^(?:(.*?): )?(\d+) games?, (\d+) stud(?:y|ies)\./;
/** What is said of the letters of a PGN. */
const LETTERS = /(The (tags|comments) of games? \d.* have l|L)etters that are no UTF-8.*?(?= Not kept of|$)/;
/** Games by their numbers. */
const GAMES = /\b(games? )(\d+(?:, \d+)*)/g;
/**
 * A text with other numbers of games.
 * @param {string} text
 * @param {Map<number, number>} moved      the new number of each that has one
 */
const withGames = (text, moved) => text.replace(GAMES,
  (_, word, numbers) =>
    word + numbers.split(', ').map((/** @type {string} */ n) => moved.get(Number(n)) || n).join(', '));
/** @param {string} note */
const lettersOf = note => (LETTERS.exec(note) || [''])[0];
/**
 * What is said of the first document and of one whose studies come behind it, each with the name of its file. Of two
 * PGN the games are counted together, as they stand in the joined lines.
 * @param {{note: string, name: string}} first
 * @param {{note: string, name: string}} second
 * @param {string[]} lines      of both, with numbers that go on
 * @param {Map<number, number>} moved      the new number of each game of the second one that has one
 */
export function joinedNote(first, second, lines, moved) {
  const then = withGames(second.note, moved), one = CAME.exec(first.note), two = CAME.exec(then);
  const named = (/** @type {RegExpExecArray | null} */ came, /** @type {string} */ name, /** @type {string} */ note) =>
    (came && !came[1] ? `${name}: ${note}` : note);
  if (!one || !two)
    return [named(one, first.name, first.note), named(two, second.name, then)].filter(Boolean).join(' ');
  const sum = (/** @type {number} */ at) => Number(one[at]) + Number(two[at]),
        names = `${one[1] || first.name} and ${two[1] || second.name}`,
        came = importNote(lines, {games: sum(2), studies: sum(3)});
  return [`${names}: ${came}`, lettersOf(first.note), lettersOf(then), notKept(lines)].filter(Boolean).join(' ');
}
