// @ts-check
// What is copied: the FEN of the position that is shown, and a link to the study at hand.
import {shownFen} from './board.js';
import {linkNote, linkTo} from './links.js';
import {toText} from './script.js';
import {doc, say, services, study} from './state.js';
import {aloneLines} from './study_edits.js';

/**
 * @param {string} text
 * @param {string} said      once it is copied
 * @param {string} name      what the text is, where the browser does not let the page copy it
 */
async function copyText(text, said, name) {
  const copied = await navigator.clipboard?.writeText(text).then(() => true, () => false);
  say('board', copied ? said : `The browser does not let this page copy. ${name}: ${text}`, Boolean(copied));
  services.show();
}
export function copyFen() {
  const fen = shownFen();
  return copyText(fen, `Copied: ${fen}`, 'The FEN');
}
/** A link that opens the study at hand alone, in this page. */
export async function copyLink() {
  const s = study();
  if (!s) return;
  const link = linkTo(location.href, toText(aloneLines(doc().lines, s)));
  await copyText(link, linkNote(link), 'The link');
}
