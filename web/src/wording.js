// @ts-check
// Words of the program that no reply has: its answer to the request `words`, for which the page asks once. Each line
// has a group, a name and words; of the group `word` some are examples, whose names and numbers the page replaces.

const groups = /** @type {Record<string, Map<string, string>>} */ (
  {'refused': new Map(), 'left-out': new Map(), 'command': new Map(), 'word': new Map()});
/** @param {string} answer */
export function readWording(answer) {
  for (const line of answer.split('\n')) {
    const [group, name] = line.split(' ', 2);
    if (groups[group]) groups[group].set(name, line.slice(group.length + name.length + 2));
  }
}
/**
 * Why a line is refused, by the name of the refusal.
 * @param {string} name
 */
export const refusalReason = name => groups.refused.get(name) || '';
/**
 * Why a game is left out for which no line would be refused, by the name of the fault.
 * @param {string} name
 */
export const gameReason = name => groups['left-out'].get(name) || '';
/** The names of these faults. */
export const gameFaults = () => [...groups['left-out'].keys()];
/**
 * What a command is for, by its first word: `edit`, `question` or `table`; nothing where there is no such command.
 * @param {string} word
 */
export const commandKind = word => groups.command.get(word) || '';
/**
 * The first word of a line.
 * @param {string} line
 */
export function commandOf(line) {
  const text = line.charCodeAt(0) > 32 ? line : line.trimStart(), end = text.indexOf(' ');
  return end < 0 ? text.trimEnd() : text.slice(0, end);
}
/**
 * What the command of a line is for.
 * @param {string} line
 */
export const lineKind = line => commandKind(commandOf(line));
/** @param {string} name */
export const wordOf = name => groups.word.get(name) || '';
/**
 * Words with tabs between them.
 * @param {string} name
 */
export const wordsNamed = name => wordOf(name).split('\t');
/**
 * The start, and its value behind it.
 * @param {string} value
 */
export const atStart = value => wordOf('start').replace(wordOf('draw'), value).replace(/\.$/, '');
