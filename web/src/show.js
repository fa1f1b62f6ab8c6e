// @ts-check
// What is shown: each part a function of the document, its view and its facts.
import {$, button, h, put, onDocument} from './dom.js';
import {prefetch} from './prefetch.js';
import {app, doc, node, study} from './state.js';
import {showBoard} from './board.js';
import {listView, showDocuments} from './documents_view.js';
import {beingMended} from './mending.js';
import {reviewView} from './review_view.js';
import {openFinding} from './finding_view.js';
import {headView, numberText, sameText} from './head_view.js';
import {hitsView} from './hits.js';
import {commentView} from './comments_view.js';
import {hereView, navView} from './node_view.js';
import {PAWN, SAAVEDRA} from './samples.js';
import {toText} from './script.js';
import {redrawJudged, setupView} from './setup_view.js';
import {checkWhole, openText} from './opening.js';
import {importView} from './import_view.js';
import {cutView, gameView} from './mend_view.js';
import {drawList, listFrom, markShown, nameSaves, studyBeside} from './list_view.js';
import {knownEntries, later} from './list_facts.js';
import {nameOf} from './entries.js';
import {menuText} from './entry_list.js';
import {speakDraft, speakNode, speakState, speakVerdict} from './spoken.js';
import {textsView} from './texts_view.js';
import {faultsView, verdictView} from './verdict_view.js';
import {keyView, listenToTree, markCurrent, showTree} from './tree_view.js';
import {drawn, handOverKept, typeAgain, typedNow, watchTyping} from './typing.js';
import {wordOf} from './wording.js';

let pressing = false, tabbing = false;
const late = /** @type {Set<() => void>} */ (new Set());
export function watch() {
  listenToTree();
  watchTyping();
  onDocument('pointerover', pointedAt);
  onDocument('keydown', leaving, true);
  addEventListener('scroll', () => {
    $('toast').hidden = true;
  }, {passive: true});
  for (const kind of ['pointerdown', 'pointerup', 'pointercancel'])
    onDocument(kind, () => {
      pressing = kind === 'pointerdown';
      if (!pressing) setTimeout(afterwards);
    }, true);
}
/**
 * A field that is left by Tab may change what is shown: that is drawn only once the focus has gone where Tab leads.
 * @param {KeyboardEvent} e
 */
function leaving(e) {
  if (e.key !== 'Tab') return;
  tabbing = true;
  setTimeout(() => {
    tabbing = false;
  });
}
/**
 * Moves on a button that is pointed at may be put in soon.
 * @param {PointerEvent} e
 */
function pointedAt(e) {
  const button = /** @type {Element} */ (e.target).closest('[data-san], [data-sans]');
  if (!button) return;
  const sans = button.getAttribute('data-sans') || button.getAttribute('data-san') || '';
  prefetch(button.getAttribute('data-path') || doc().path, [sans.split(' ')]);
}
function afterwards() {
  const list = [...late];
  late.clear();
  list.forEach(draw => draw());
}
/**
 * What comes late is not drawn under a finger that presses, and focus stays where it was.
 * @param {() => void} draw
 */
function lately(draw) {
  if (pressing) {
    late.add(draw);
    return;
  }
  const kept = focused();
  draw();
  refocus(kept);
}
const NAMED_BY = ['data-path', 'data-san', 'data-at', 'data-kind', 'data-sort'];
/** @param {Element} e */
const nameIn = e => e.getAttribute('aria-label') || e.textContent;
/** What the element with the focus is found again by. */
function focused() {
  const focus = document.activeElement || document.body, by = NAMED_BY.find(name => focus.hasAttribute(name));
  return {
    id: focus.id,
    place: by ? `[${by}="${focus.getAttribute(by)}"]` : focus.tagName,
    name: by || focus === document.body ? null : nameIn(focus),
    typed: typedNow()
  };
}
/**
 * What each part was last drawn from.
 * @type {Map<string, any[]>}
 */
const drawnFrom = new Map();
/**
 * Whether a part stands there not yet as drawn from these things.
 * @param {string} id
 * @param {any[]} from
 */
function isNew(id, from) {
  const before = drawnFrom.get(id);
  if (before && before.every((thing, i) => thing === from[i])) return false;
  drawnFrom.set(id, from);
  return true;
}
/**
 * Draws a part, but where it stands there already, drawn from the same things: then what the user opened or typed in it
 * stays too.
 * @param {string} id
 * @param {any[]} from
 * @param {() => any} make
 */
function part(id, from, make) {
  if (isNew(id, from)) put(id, make());
}
/** A refusal or a note, with what was typed there: whatever shows it is drawn again with it. */
const saying = () => [app.say, app.say && app.say.text, app.say && app.say.field, app.say && app.say.typed];
export function show() {
  if (tabbing) {
    setTimeout(show);
    return;
  }
  const s = study(), n = node(), kept = focused(), d = doc();
  showBoard();
  showBar();
  const said = app.say && app.say.where === 'board' ? app.say : null;
  $('sayBoard').hidden = !said;
  $('sayBoard').className = said && said.good ? 'say good' : 'say';
  if (said && !said.good) $('sayBoard').setAttribute('role', 'alert');
  else $('sayBoard').removeAttribute('role');
  $('sayBoard').textContent = said ? said.text : '';
  const anew = app.setup && app.setup.anew;
  put('finds', !app.setup && hitsView(openFinding));
  put('import', importView(Boolean(anew)));
  part('game', [beingMended(), ...saying()], gameView);
  put('setup', app.setup && setupView());
  put('nav', !app.setup && n && navView(n));
  put('here', !app.setup && s && n && hereView(s, n));
  part('words', [s, n && n.path, Boolean(app.setup), app.view !== null, ...saying()],
    () => !app.setup && s && n && commentView(s, n));
  for (const id of ['head', 'verdict', 'unread', 'mend']) $(id).hidden = Boolean(app.setup);
  for (const id of ['tree', 'review', 'texts']) $(id).hidden = Boolean(anew && s);
  part('head',
    [
      s &&
        JSON.stringify([s.fen, s.aim, s.tags, s.originals, s.origin, Object.keys(s.place), numberText(), sameText()]),
      app.counts, ...saying()
    ],
    () => s && headView(s));
  put('welcome', (!s || anew) && welcomeView());
  if (isNew('tree', [s, app.view !== null])) showTree(s);
  markCurrent(n ? n.path : '');
  drawFacts();
  part('texts', [d.lines, d.studies, d.at, app.view !== null, ...saying()], () => textsView(s));
  showDocuments();
  if (isNew('list facts', [d.lines, d.judged])) {
    later(d);
    setTimeout(checkWhole);
  }
  refocus(kept);
  handOverKept();
  speakNode();
  speakDraft();
  speakVerdict();
  speakState();
  hint();
  $('right').classList.toggle('behind', Boolean(app.setup && s && !anew));
  document.title = s ? `${nameOf(s, 'Event') || wordOf('untitled')} · Study board` : 'Study board';
}
/**
 * Focus stays where it was, though everything is drawn again.
 * @param {ReturnType<typeof focused>} kept
 */
function refocus({id, place, name, typed}) {
  drawn();
  if (document.activeElement !== document.body || place === 'BODY') return;
  const again = id
    ? $(id)
    : /** @type {any} */ ([...document.querySelectorAll(place)].find(e => name === null || nameIn(e) === name));
  if (!again) return;
  again.focus({preventScroll: true});
  typeAgain(again, typed);
}
/** A refusal that is off the screen is shown below the bar too, until the page is scrolled. */
function hint() {
  const alert = [...document.querySelectorAll('[role=alert]')].find(e => !(/** @type {HTMLElement} */ (e).hidden)),
        at = alert ? alert.getBoundingClientRect() : null;
  $('toast').hidden = !alert || !at || (at.top > 0 && at.bottom < innerHeight);
  $('toast').textContent = alert ? alert.textContent : '';
}
function drawFacts() {
  const s = study();
  part('verdict', [s, app.view !== null, app.noView, app.review], () => s && verdictView(s));
  part('unread', [s, ...saying()], () => s && cutView(s));
  part('mend', [s, app.view !== null, app.review], () => s && faultsView(s));
  part('review', [s, app.view !== null, app.review, app.review?.details, app.noReview], () => s && reviewView(s));
  if (isNew('list', listFrom())) drawList();
  markShown();
  speakVerdict();
}
function drawKnown() {
  drawFacts();
  showBar();
}
export const showFacts = () => lately(drawKnown);
function drawJudged() {
  showBoard();
  redrawJudged();
  speakDraft();
}
export const showJudged = () => lately(drawJudged);
/** A study of the menu by its place; an entry that was left out by its line. */
const menuValue = (/** @type {import('./entries.js').Entry} */ {at, line}) => (at < 0 ? `line ${line}` : `${at}`);
/** Of more entries the menu has so many, those around the study that is shown: each line of it takes 5 kB. */
const MOST_IN_MENU = 1000;
/**
 * @param {import('./entries.js').Entry[]} entries
 * @param {number} at
 */
function menuOf(entries, at) {
  const half = MOST_IN_MENU / 2, here = entries.findIndex(entry => entry.at === at),
        from = Math.min(Math.floor((here - half / 2) / half) * half, entries.length - MOST_IN_MENU);
  return entries.length > MOST_IN_MENU ? entries.slice(Math.max(0, from), Math.max(0, from) + MOST_IN_MENU) : entries;
}
let menu = /** @type {import('./entries.js').Entry[]} */ ([]);
/**
 * The lines of the menu, those alone that are others than before.
 * @param {import('./entries.js').Entry[]} entries
 */
function drawMenu(entries) {
  const {options} = $('studies');
  if (entries.length !== options.length) put('studies', entries.map(() => h('option', {})));
  entries.forEach((entry, i) => {
    if (entry !== menu[i] || entries.length !== menu.length)
      Object.assign(options[i], {value: menuValue(entry), text: menuText(doc().studies, entry)});
  });
  menu = entries;
}
function showBar() {
  const d = doc(), entries = knownEntries(d), many = d.studies.length > 1;
  $('undo').disabled = app.setup ? !app.setup.past.length && !study() : !app.history.past.length;
  $('redo').disabled = !(app.setup || app.history).future.length;
  $('studies').hidden = entries.length < 2;
  $('walk').hidden = !many;
  $('before').disabled = studyBeside(-1) === undefined;
  $('after').disabled = studyBeside(1) === undefined;
  drawMenu(menuOf(entries, d.at));
  $('studies').value = d.at;
  $('more').disabled = !d.studies.length;
  for (const id of ['saveScript', 'savePgn', 'savePlain', 'saveReport', 'print']) $(id).disabled = !d.lines.length;
  nameSaves();
}
export function showProgress() {
  const p = app.progress;
  speakState();
  $('progress').hidden = !p;
  if (!p) return;
  $('progressText').textContent = p.text;
  $('progressBar').max = p.of || 1;
  if (p.of) $('progressBar').value = p.done;
  else $('progressBar').removeAttribute('value');
  $('stop').hidden = Boolean(p.reading);
}
function welcomeView() {
  const sample = (/** @type {string[]} */ lines) => () => openText(toText(lines), 'board'), kept = listView(8);
  const keptList = kept && [h('h2', {}, 'Kept in this browser'), kept];
  return study() ? keptList : [
    h('h1', {}, 'Compose a study'),
    h('p', {},
      'Two to four men, kings included. Set up the men, say what is to be done, and play the solution with its ' +
        'tries and defences on the board. Each move is judged against all legal moves, by endgame tables that this ' +
        'page builds itself with a proved program.'),
    h('p', {class: 'row'},
      button('Show a sample: king and pawn', 'its tables are built in a few seconds', sample(PAWN),
        {id: 'sample', class: 'main'}),
      button('Saavedra, 1895 (eleven tables, built once in about a minute)', 'this browser keeps them then',
        sample(SAAVEDRA), {id: 'sample2'})),
    keptList,
    h('p', {class: 'note keys'},
      'Keys: ← → ↑ ↓ Home End walk the tree, Delete takes a move away, Ctrl-Z and Ctrl-Y undo and redo, f turns ' +
        'the board, m goes to the field for a move, Escape leaves it; Ctrl-V takes a FEN, men, a PGN or a script. ' +
        'Nothing leaves this computer; the page works offline.'),
    keyView()
  ];
}
