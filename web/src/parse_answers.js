// @ts-check
// The core's answers about a study - its view, its review, a survey - read into records.
import {squareAt} from './fen.js';
/** @typedef {import('./types.js').Value} Value @typedef {import('./types.js').TreeNode} TreeNode */
/** @typedef {import('./types.js').View} View */
/** @typedef {import('./types.js').Move} Move @typedef {import('./types.js').Review} Review */
/** @typedef {import('./types.js').Stand} Stand */

/**
 * A value at word `at`, and the place of the word after it.
 * @param {string[]} words
 * @param {number} at
 * @returns {[Value, number]}
 */
export function readValue(words, at) {
  if (words[at] === 'draw') return [{kind: 'draw', n: 0}, at + 1];
  return [{kind: words[at] === 'win' ? 'win' : 'loss', n: Number(words[at + 1])}, at + 2];
}
/**
 * `only`, `dual 2` ..
 * @param {string[]} words
 * @param {number} at
 * @returns {[string, number, number]}
 */
function readMark(words, at) {
  return words[at] === 'dual' ? ['dual', Number(words[at + 1]), at + 2] : [words[at], 0, at + 1];
}
/**
 * `White to win: unsound 3, White mates in 26`
 * @param {string} text
 */
export function readStipulation(text) {
  const m = /^(White|Black) to (win|draw|mate)(?: in (\d+))?: ([^,]*), (.*)$/.exec(text);
  if (!m) return {aim: null, verdict: '', start: ''};
  const aim = /** @type {import('./types.js').Aim} */ ({hero: m[1], goal: m[2], k: Number(m[3]) || 0});
  return {aim, verdict: m[4], start: m[5]};
}

/**
 * @param {string} text
 * @returns {string[][]}
 */
const rowsOf = text => text.split('\n').filter(Boolean).map(line => line.split(' '));
/**
 * Why an answer has no text, as `error NAME`: its own refusal, or that of a line of the script.
 * @param {{text: string, ended: string}} answer
 */
export function refusalIn({text, ended}) {
  if (ended === 'refused') return 'error ' + text.trim();
  const line = text.split('\n').find(row => row.startsWith('refused '));
  return line === undefined ? 'error ' + (ended === 'done' ? 'NoStudy' : ended) : line.replace(/^refused \d+/, 'error');
}

/**
 * `2 + 2, 0300.10 b6a1`, of a view or of a position without a stipulation.
 * @param {string} text
 */
export const countsIn = text => (/^counts (.*)$/m.exec(text) || ['', ''])[1];
/**
 * @param {string} text
 * @returns {View | null}
 */
export function readView(text) {
  const view = /** @type {View} */ (
    /** @type {unknown} */ ({
      fen: '',
      counts: countsIn(text),
      verdict: '',
      start: '',
      stamp: '',
      worst: '',
      sentence: '',
      aim: null,
      path: 'root',
      over: '',
      moves: []
    }));
  const nodes = /** @type {Map<string, TreeNode>} */ (new Map());
  for (const line of text.split('\n')) {
    if (line.startsWith('node ')) {
      addNode(nodes, line);
      continue;
    }
    const row = line.split(' ');
    if (row[0] === 'study') view.fen = row.slice(1).join(' ');
    else if (row[0] === 'stamp') view.stamp = line.slice('stamp '.length);
    else if (row[0] === 'worst') view.worst = line.slice('worst '.length);
    else if (row[0] === 'sentence') view.sentence = line.slice('sentence '.length);
    else if (row[0] === 'stipulation') Object.assign(view, readStipulation(row.slice(1).join(' ')));
    else if (row[0] === 'at')
      [view.path, view.over] = [row[1], /^\d/.test(row[2]) ? '' : /** @type {View['over']} */ (row[2])];
    else if (row[0] === 'move') view.moves.push(readMove(row));
    else if (row[0] === 'zugzwang') {
      const node = nodes.get(row[1]);
      if (node) node.zugzwang = row.slice(2).join(' ');
    }
  }
  const root = nodes.get('root');
  return root ? Object.assign(view, {root}) : null;
}
/**
 * A node of its line: at most ten words, and the position as it stands.
 * @param {Map<string, TreeNode>} nodes
 * @param {string} line
 */
function addNode(nodes, line) {
  const row = line.split(' ', 10), [, path, san, squares] = row, [value, at] = readValue(row, 4),
        [mark, duals, next] = readMark(row, at);
  const dot = path.lastIndexOf('.'),
        parent = path === 'root' ? null : nodes.get(dot < 0 ? 'root' : path.slice(0, dot)) || null;
  let fenAt = 0;
  for (let i = 0; i < next + 2; i++) fenAt += row[i].length + 1;
  const node = /** @type {TreeNode} */ ({
    path,
    san,
    ...readSquares(squares),
    value,
    mark,
    duals,
    faults: Number(row[next + 1]),
    fen: line.slice(fenAt),
    zugzwang: '',
    parent,
    children: []
  });
  nodes.set(path, node);
  if (parent) parent.children.push(node);
}
/** @param {string} squares */
function readSquares(squares) {
  if (squares === '-') return {from: -1, to: -1, promoted: ''};
  return {
    from: squareAt(squares.slice(0, 2)),
    to: squareAt(squares.slice(2, 4)),
    promoted: squares.slice(4).toUpperCase()
  };
}
/**
 * @param {string[]} row
 * @returns {Move}
 */
function readMove(row) {
  const [value, at] = readValue(row, 3), [mark, duals, next] = readMark(row, at);
  return {san: row[1], ...readSquares(row[2]), value, mark, duals, fen: row.slice(next).join(' ')};
}

/**
 * @param {TreeNode} root
 * @param {string} path
 * @returns {TreeNode | null}
 */
export function nodeAt(root, path) {
  if (path === 'root') return root;
  let node = /** @type {TreeNode | null} */ (root);
  for (const place of path.split('.')) node = node ? node.children[Number(place)] || null : null;
  return node;
}
/**
 * All nodes in written order.
 * @param {TreeNode} node
 * @param {TreeNode[]} list
 * @returns {TreeNode[]}
 */
export function allNodes(node, list = []) {
  list.push(node);
  for (const child of node.children) allNodes(child, list);
  return list;
}
/** @param {TreeNode} node */
export const depth = node => (node.path === 'root' ? 0 : node.path.split('.').length);

/**
 * The facts of each game of a script, in their order.
 * @param {string} text
 */
export const readReviews = text => text.split(/^(?=study )/m).map(readReview).filter(Boolean);
/**
 * The facts of one study; null where there are none.
 * @param {string} text
 * @returns {Review | null}
 */
export function readReview(text) {
  const review =
    /** @type {Review} */ (
      {empty: false, waste: '', stamp: '', worst: '', faults: [], also: [], refuted: [], missing: [], ends: []});
  let found = false;
  for (const row of rowsOf(text)) {
    if (row[0] === 'study') found = true;
    else if (row[0] === 'empty') review.empty = true;
    else if (row[0] === 'waste') review.waste = row.slice(1).join(' ');
    else if (row[0] === 'fault' || row[0] === 'also' || row[0] === 'refuted' || row[0] === 'missing')
      addFact(review, row);
    else if (row[0] === 'play') {
      const [value, at] = readValue(row, 2);
      review.ends.push({path: row[1], value, keeping: 0, of: 0, sans: row.slice(at)});
    } else if (row[0] === 'keep')
      review.ends.push({path: row[1], value: null, keeping: Number(row[2]), of: Number(row[3]), sans: row.slice(4)});
  }
  return found ? review : null;
}
/**
 * A review with what a view of the same study says of it as a judge reads it, and whether it begins in mate or
 * stalemate.
 * @param {Review | null} review
 * @param {View | null} view
 */
export const judgedBy = (review, view) =>
  review && view && {...review, stamp: view.stamp, worst: view.worst, over: view.path === 'root' ? view.over : ''};
/**
 * @param {Review} review
 * @param {string[]} row
 */
function addFact(review, row) {
  const [kind, path, san] = row;
  if (san === 'stalemate') return void review.refuted.push({path, san, value: null});
  const [value, at] = readValue(row, 3);
  if (kind === 'fault' && row[at] === 'dual')
    review.faults.push({path, san, value, kind: 'dual', duals: Number(row[at + 1]), time: Number(row[at + 3])});
  else if (kind === 'fault') review.faults.push({path, san, value, kind: 'mistake', duals: 0, time: 0});
  else if (kind === 'also') review.also.push({path, san, value, time: row[at] === 'time' ? Number(row[at + 1]) : -1});
  else if (kind === 'refuted') review.refuted.push({path, san, value});
  else review.missing.push({path, san, value, count: Number(row[at]), answer: row[at + 1] || ''});
}

/**
 * @param {string} text
 * @returns {Stand[]}
 */
export function readSurvey(text) {
  return rowsOf(text).filter(row => /^[a-h][1-8]$/.test(row[0])).map(row => {
    const square = squareAt(row[0]);
    if (row[1] === '-') return {square, kind: 'none', value: null, count: 0, san: ''};
    const [value, at] = readValue(row, 2), kind = /** @type {Stand['kind']} */ (row[1]);
    return {
      square,
      kind,
      value,
      count: kind === 'only' ? 1 : Number(row[at]) || 0,
      san: kind === 'only' ? row[at] || '' : ''
    };
  });
}
