// @ts-check
// The head of a study: title, stipulation, tags.
import {$, h} from './dom.js';
import {change} from './actions.js';
import {app, doc, services, say, study} from './state.js';
import {isDate, isKnown, setTag, stipulate, wholeDate} from './edits.js';
import {isAimCarried, isCarried, nameOf} from './entries.js';
import {againstText, sourceText} from './imported.js';
import {knownEntries} from './list_facts.js';
import {refuseLong} from './limits.js';
import {plainText} from './opening.js';
import {cutAt, ownRemark} from './remarks.js';
import {guess} from './setup.js';
import {typedOr} from './node_view.js';
import {TAGS} from './script.js';
import {tailText} from './tails.js';
import {wordOf} from './wording.js';
import {aimWords} from './words.js';
import {numbersOf} from './numbering.js';
/** @typedef {import('./types.js').Study} Study @typedef {import('./types.js').Aim} Aim */

const LABELS =
  /** @type {Record<string, string>} */ (
    {Event: 'Title or source', White: 'Author', Black: 'Second name', Site: 'Site', Date: 'Date', Round: 'Entry'});
/** @param {string} where */
export const messageAt = where => app.say && app.say.where === where &&
  h('p', app.say.good ? {class: 'say good'} : {class: 'say', role: 'alert'}, app.say.text);
/** The document whose tags are open for writing. */
const open = {
  tags: ''
};

/** @param {Study} s */
export function headView(s) {
  const t = s.tags, year = (t.Date || '').replace(/(\.\?\?)+$/, '');
  const by =
    [numberText(), nameOf(s, 'White'), nameOf(s, 'Site'), isKnown(year) && year, isKnown(t.Round) && 'entry ' + t.Round]
      .filter(Boolean)
      .join(' · ');
  const old = Object.keys(t).filter(name => isCarried(s, name) && isKnown(t[name]));
  return [
    h('h1', {}, nameOf(s, 'Event') || wordOf('untitled')), by && h('p', {class: 'by'}, by),
    old.length > 0 &&
      h('p', {class: 'note'}, `Set for an earlier study and not since: ${old.map(name => LABELS[name]).join(', ')}. `,
        h('button',
          {class: 'chip act', id: 'clearOld', title: 'not known for this study', onclick: () => clearTags(old)},
          'Clear')),
    h('div', {class: 'row'}, aimView(s.aim, setAim, 'aim'), s.aim && !isAimCarried(s) && sourceView(s),
      h('span', {class: 'note'}, app.counts)),
    s.aim && isAimCarried(s) && carriedAim(s.aim), againstView(s), sameView(), languageView(s), tailView(s),
    s.place.Date !== undefined && dateNote(t.Date), lettersNote(s), messageAt('head'),
    h('details', {
      id: 'tags',
      open: open.tags !== '' && open.tags === doc().id,
      ontoggle: (/** @type {any} */ e) => {
        open.tags = e.target.open ? doc().id : '';
      }
    },
      h('summary', {}, 'Title, author, source'),
      h('div', {class: 'tags'}, TAGS.map(name => tagView(name, nameOf(s, name))), otherTags(s).map(otherTagView)))
  ];
}
/** The number of the study among several entries. */
export function numberText() {
  const number = numbersOf(doc())[doc().at];
  return number && knownEntries(doc()).length > 1 ? `No. ${number}` : '';
}
/** Which other studies of the script have the same position. */
export const sameText = () => (knownEntries(doc()).find(({at}) => at === doc().at) || {same: ''}).same;
export const sameView = () =>
  sameText() !== '' && h('p', {class: 'note differs', id: 'same'}, `It has the ${sameText()}.`);
/**
 * Where the stipulation is from.
 * @param {Study} s
 */
const sourceView = s => sourceText(s.origin) && h('span', {class: 'note', id: 'source'}, `(${sourceText(s.origin)})`);
/**
 * The result that a game of the file states, in its tag and behind its moves.
 * @param {Study} s
 */
function resultsOf(s) {
  const remarks = doc().lines.slice(s.head, s.from).map(ownRemark),
        tag = remarks.find(({word, rest}) => word === 'tag' && rest.startsWith('Result ')),
        behind = remarks.find(({word}) => word === 'result'), stated = tag ? tag.rest.slice('Result '.length) : '';
  return {'result-tag-differs': stated, 'result-differs': behind ? behind.rest : stated};
}
/**
 * The result that its author claims, if a game of a file states one.
 * @param {Study} s
 */
export const claimedResult = s => resultsOf(s)['result-tag-differs'].replace(/^\*$/, '');
/**
 * What speaks against the stipulation, as long as the user sets none.
 * @param {Study} s
 */
function againstView(s) {
  const results = /** @type {Record<string, string>} */ (resultsOf(s)),
        said =
          s.origin ? s.origin.against.map(what => againstText(what) + (results[what] ? `: ${results[what]}` : '')) : [];
  return said.length > 0 &&
    h('p', {class: 'note differs', id: 'against'}, `Compare the sources of the stipulation: ${said.join('; ')}.`);
}
/**
 * The language of the letters in which its file has the moves.
 * @param {Study} s
 */
const languageView = ({origin}) => origin && origin.letters !== '' &&
  h('p', {class: 'note', id: 'letters'}, `The file has its moves in ${origin.letters} letters.`);
/**
 * Of a part of a game with more than four men: which it is, whether the solution leads to it, and what is not judged.
 * @param {Study} s
 */
export const tailView = s => s.origin && s.origin.tail && h('p', {class: 'note', id: 'tail'}, tailText(doc().lines, s));
/** @param {string} words */
const setAim = words =>
  change(now => (now.studies[now.at] ? stipulate(now.lines, now.studies[now.at], words) : null), 'head');
/** @param {Aim} aim */
const carriedAim = aim => h('p', {class: 'note'}, 'The stipulation was set for an earlier study and not since. ',
  h('button',
    {class: 'chip act', id: 'keepAim', title: 'write it for this study', onclick: () => setAim(aimWords(aim))},
    'It is this study\'s'));
/**
 * A script and a PGN may have any text for a date: what a PGN would have, or where to write it.
 * @param {string} date
 */
function dateNote(date) {
  if (!isKnown(date) || isDate(date)) return null;
  const whole = wholeDate(date), known = isDate(whole);
  const write = () => {
    if (known) return changeTag('Date', whole);
    $('tags').open = true;
    $('tagDate').focus();
  };
  return h('p', {class: 'note'}, `${date}: PGN writes a date as 1921.05.12 or 1921.??.??. `,
    h('button', {class: 'chip act', id: 'mendDate', onclick: write}, known ? `Write ${whole}` : 'Change it'));
}
/**
 * A text that a script by hand has in other letters than it may have.
 * @param {Study} s
 */
function lettersNote({originals, place, tags}) {
  const isSet = (/** @type {string} */ name) => place[name] !== undefined && isKnown(tags[name]);
  const name = TAGS.find(tag => /[^ -~]/.test(originals[tag] || '') && !isSet(tag));
  return name &&
    h('p', {class: 'note'}, `${originals[name]}: a script has plain letters alone. `,
      h('button', {class: 'chip act', id: 'mendLetters', onclick: () => changeTag(name, originals[name])},
        'Write it in plain letters'));
}
/**
 * Tags that an earlier study left are not known for this one.
 * @param {string[]} names
 */
const clearTags = names => change(now => {
  const s = now.studies[now.at];
  return s ? {lines: names.reduce((lines, name) => setTag(lines, s, name, '').lines, now.lines)} : null;
}, 'head');
/**
 * @param {string} name
 * @param {string} text
 */
const tagView = (name, text) => [h('label', { for: 'tag' + name
}, LABELS[name], LABELS[name] !== name && h('small', {}, ' ' + name)), h('input', {
  id: 'tag' + name,
  value: typedOr('tag' + name, isKnown(text) ? text : ''),
  autocomplete: 'off',
  placeholder: name === 'Date' ? '2026.11.24' : '',
  onchange: (/** @type {any} */ e) => changeTag(name, e.target.value.trim())
})];
/**
 * The tags of a game that a script has no room for, each with the remark that keeps it.
 * @param {Study} s
 */
const otherTags = s => doc().lines.slice(s.head, s.from).flatMap((line, i) => {
  const {word, rest} = ownRemark(line), [name, text] = cutAt(rest, ' ');
  return word === 'tag' && /^\w+$/.test(name) && name !== 'Result' ? [{name, text, at: i}] : [];
});
/** @param {{name: string, text: string, at: number}} tag */
const otherTagView = ({name, text, at}) => [h('label', { for: `other${name}`
}, name), h('input', {
  id: `other${name}`,
  value: typedOr(`other${name}`, text),
  autocomplete: 'off',
  onchange: (/** @type {any} */ e) => changeOther(name, at, e.target.value.trim())
})];
/**
 * Such a tag has another text, or is gone.
 * @param {string} name
 * @param {number} at      its remark among those of the study
 * @param {string} text
 */
const changeOther = (name, at, text) => change(now => {
  const s = now.studies[now.at], line = s ? s.head + at : 0;
  if (!s || refuseLong({id: `tag${name}`, value: text}, text)) return null;
  return {
    lines: [...now.lines.slice(0, line), ...(text ? [`#! tag ${name} ${text}`] : []), ...now.lines.slice(line + 1)]
  };
}, 'head');
/**
 * A text is kept in its own letters beside the plain ones that the script has; a note says how these are.
 * @param {string} name
 * @param {string} typed
 */
async function changeTag(name, typed) {
  const s = study();
  if (s && refuseLong({id: 'tag' + name, value: nameOf(s, name)}, typed)) return;
  const before = app.history, plain = await plainText(typed), text = name === 'Date' ? wholeDate(plain) : plain;
  if (name === 'Date' && text && !isDate(text)) {
    say('head', `${typed}: a date is a year, or a year, a month and a day, as 1921 or 1921.05.12.`);
    Object.assign(app.say || {}, {field: 'tagDate', typed});
    return services.show();
  }
  const original = name !== 'Date' && plain !== typed ? typed.slice(0, 200) : '';
  await change(
    now => (now.studies[now.at] ? setTag(now.lines, now.studies[now.at], name, text, original) : null), 'head');
  if (app.history === before && app.say) Object.assign(app.say, {field: 'tag' + name, typed});
  else if (original)
    say('head', `The script has it in plain letters, as ${text}; the page and Save PGN have it as you wrote it.`, true);
  services.show();
}
/**
 * `White | to win`: two choices and a number.
 * @param {Aim | null} aim
 * @param {(words: string) => any} done
 * @param {string} id
 */
export function aimView(aim, done, id) {
  const option = (/** @type {string} */ value, /** @type {string} */ text, /** @type {boolean} */ selected) =>
    h('option', {value, selected}, text);
  const choose = () => {
    if (goal.value) done(`${hero.value} ${goal.value}${goal.value === 'mate' ? ' ' + (k.value || guess()) : ''}`);
  };
  const hero = h('select', {id: id + 'Hero', 'aria-label': 'Side', onchange: choose},
    option('white', 'White', !aim || aim.hero === 'White'),
    option('black', 'Black', Boolean(aim && aim.hero === 'Black')));
  const goals = [['win', 'to win'], ['draw', 'to draw'], ['mate', 'to mate in']].map(
    ([value, text]) => option(value, text, Boolean(aim && aim.goal === value)));
  const goal =
    h('select', {id: id + 'Goal', 'aria-label': 'Aim', onchange: choose}, !aim && option('', 'to …', true), goals);
  const k = h('input', {
    id: id + 'K',
    class: 'num',
    type: 'number',
    min: 1,
    max: 127,
    value: aim && aim.k ? aim.k : '',
    'aria-label': 'Moves to mate',
    hidden: !aim || aim.goal !== 'mate',
    onchange: choose
  });
  return [hero, goal, k];
}
