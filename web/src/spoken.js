// @ts-check
// The texts that a screen reader hears of what is shown: the move with its mark and value, the verdict, a set-up, and
// what is under way.
import {$} from './dom.js';
import {shownText, signOf} from './comments.js';
import {wordsAt} from './comments_view.js';
import {sideOf, spokenMove} from './fen.js';
import {app, doc, node, study} from './state.js';
import {judgedText} from './setup_view.js';
import {hear, hearNew} from './voice.js';
import {wordOf} from './wording.js';
import {markMeaning, valueText, zugzwangText} from './words.js';
/** @typedef {import('./types.js').Study} Study @typedef {import('./types.js').TreeNode} TreeNode */

/**
 * A node with its move, what its mark means, its value, and the author's words.
 * @param {Study} s
 * @param {TreeNode} n
 * @param {string} over      how the game ends there
 */
export function spokenNode(s, n, over) {
  const {comments, glyphs} = wordsAt(s, n), own = [...glyphs.map(signOf), shownText(comments)].filter(Boolean);
  return [
    n.parent ? spokenMove(n.parent.fen, n) : wordOf('root'), markMeaning(n, s.aim),
    over === 'mate' ? '' : valueText(sideOf(n.fen), n.value), over === 'stalemate' && over,
    n.zugzwang && `mutual zugzwang, ${zugzwangText(n.zugzwang)}`, own.length > 0 && `note: ${own.join(' ')}`
  ].filter(Boolean)
    .join(', ');
}
let spoken = '';
/** The node that was gone to, or the first one of a study. */
export function speakNode() {
  const n = node(), s = study(), key = n && !app.setup ? doc().id + doc().at + n.path + n.fen : '';
  if (s && n && app.view && key && key !== spoken) hear('node', spokenNode(s, n, app.view.over));
  spoken = key;
}
/** The stamp of a study, whenever it is another one. */
export function speakVerdict() {
  const stamp = $('stamp'), text = stamp && !app.setup ? stamp.textContent : '';
  if (text) hearNew('verdict', `Verdict: ${text}`, `${doc().id} ${doc().at} ${text}`);
}
/** What the program says of a set-up, and where else its man could stand. */
export function speakDraft() {
  const d = app.setup, stands = $('stands');
  hearNew('draft', d && d.judged ? judgedText(d) : '');
  hearNew('stands', stands ? stands.textContent : '');
}
/** What is under way, once; what came in; and that the browser keeps nothing. */
export function speakState() {
  const p = app.progress, unkept = $('unkept');
  hearNew('progress', p ? (!p.reading ? 'Tables are being built' : p.of ? 'The games are being read' : p.text) : '');
  hearNew('import', $('import').textContent);
  hearNew('unkept', unkept.hidden ? '' : unkept.textContent);
  hearNew('said', app.say && app.say.good ? app.say.text : '');
}
