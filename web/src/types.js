// @ts-check
/**
 * The shapes that the modules hand to each other.
 *
 * @typedef {{kind: 'win' | 'loss' | 'draw', n: number}} Value      as the side to move sees it; n in plies to mate
 * @typedef {'White' | 'Black'} Side
 * @typedef {{hero: Side, goal: 'win' | 'draw' | 'mate', k: number}} Aim
 *
 * @typedef {{san: string, from: number, to: number, promoted: string, value: Value, mark: string, duals: number,
 *   fen: string}} Move
 *   a legal move, and what it would be in the tree: `mark` is only, dual, mistake, idle or reply; `duals` the others
 *   that hold
 *
 * @typedef {object} TreeNode
 * @property {string} path         `root`, or the places of children joined by dots
 * @property {string} san
 * @property {number} from         squares count from a1, b1 .. h8; -1 at the root
 * @property {number} to
 * @property {string} promoted     the letter of the man that a pawn becomes
 * @property {Value} value
 * @property {string} mark
 * @property {number} duals
 * @property {number} faults
 * @property {string} fen
 * @property {string} zugzwang     of a mutual zugzwang `full`, `half white` or `half black`; else empty
 * @property {TreeNode | null} parent
 * @property {TreeNode[]} children
 *
 * @typedef {object} View          the answer to `view`: a study at one of its nodes
 * @property {string} fen
 * @property {string} counts       `2 + 2, 0300.10 b6a1`: the men of each side, and the GBR code
 * @property {string} verdict      `sound`, `unsound 3`, `wrong`; empty without a stipulation
 * @property {string} start        the value at the root in words
 * @property {string} stamp        the verdict as a judge reads it
 * @property {string} worst        the worst dual behind it in words, if the stamp does not name it
 * @property {string} sentence     the same, and the value at the root, in sentences
 * @property {Aim | null} aim
 * @property {TreeNode} root
 * @property {string} path
 * @property {'' | 'mate' | 'stalemate'} over
 * @property {Move[]} moves
 *
 * @typedef {{path: string, san: string, value: Value, kind: 'dual' | 'mistake', duals: number, time: number}} Fault
 * @typedef {{path: string, san: string, value: Value, time: number}} Also      `time` is -1 where it loses none
 * @typedef {{path: string, san: string, value: Value | null}} Refutation       no value: the move stalemates
 * @typedef {{path: string, san: string, value: Value, count: number, answer: string}} Missing
 * @typedef {{path: string, value: Value | null, keeping: number, of: number, sans: string[]}} Ending   no value: drawn
 * @typedef {{empty: boolean, waste: string, stamp: string, worst: string, faults: Fault[], also: Also[],
 *   refuted: Refutation[], missing: Missing[], ends: Ending[], details?: ReviewDetails,
 *   over?: '' | 'mate' | 'stalemate'}} Review
 *   `empty`: the tree has no move of the hero; `stamp` and `worst` are those of a view of the study
 *   `details`: what is added behind it, as far as it is known; `over`: what stands on the board at the start
 *   `waste`: the stamp by which loss of time is no dual, as `sound but for loss of time`; empty where none loses time
 *
 * @typedef {{replies: Record<string, number>, elsewhere: Record<string, Record<string, string>>}} ReviewDetails
 *   `replies`: by the path of a node, how many legal moves there are
 *   `elsewhere`: by the path of a node and a move there, the path of the move of the tree that leads to the same
 *     position
 *
 * @typedef {{square: number, kind: 'none' | 'fails' | 'holds' | 'only', value: Value | null, count: number,
 *   san: string}} Stand
 *
 * @typedef {object} Study         a study as the lines of the script make it
 * @property {number} head         the first of the remarks right above its position
 * @property {number} from         its `position` line
 * @property {number} end          the line after its last
 * @property {number} last         its last edit
 * @property {string} fen          the start that the program read
 * @property {Aim | null} aim
 * @property {Record<string, string>} tags
 * @property {Record<string, string>} originals  texts of tags in their own letters, as remarks have them
 * @property {import('./imported.js').Origin} origin      where it comes from, as the remarks above its position say
 * @property {Record<string, number>} place      the line of each tag, and of `aim`, that the study has itself
 * @property {string[]} carried    what it takes over from earlier studies, as lines
 * @property {{line: number, reply: string} | null} made      the last `insert` or `promote`, whose reply has its node
 * @property {string} pgn          its game after its last edit
 * @property {string} verdict      as in its game
 * @property {string} start        the value of its start, in words
 * @property {string[]} games      those of its script: at each `pgn` line, and after the last edit
 * @property {boolean} ended       whether no edit follows its last `pgn` line
 *
 * @typedef {{line: number, text: string, reply: string}} Refused
 * @typedef {{lines: string[], studies: Study[], refused: Refused[]}} Script
 * @typedef {Script & {at: number, path: string, name: string, id: string, note: string, judged: boolean}} Doc
 *   with the study and the node that are looked at, its file's name, the document that it is a state of, what was not
 *   kept of its file, and whether the program has read it: else its studies are as if each line were accepted
 *
 * @typedef {{lines: string[], at?: number, path?: string, name?: string, id?: string, note?: string,
 *   lenient?: boolean}} Change
 *   lines to run; then the study and the node to look at, where `made` is the node just made; `lenient` takes refused
 *   lines too
 *
 * @typedef {{placed: string, past: string[], future: string[], anew: boolean, more: boolean, id: string}} KeptDraft
 *   a set-up that was not started: its FEN and its aim with | between them, and those before and after
 *
 * @typedef {{text: string, ended: string}} Answer
 * @typedef {{answer: (request: string, script: string, pages: number) => Promise<Answer>}} Engine
 */
export {};
