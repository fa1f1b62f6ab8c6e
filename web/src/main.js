// @ts-check
// The beginning: workers, what was kept, the bar, files and keys.
import {$, download, onDocument} from './dom.js';
import {makeApi} from './api.js';
import {arrive, track, goStudy, judgeAgain, work} from './actions.js';
import {learnWords} from './answer_cache.js';
import {app, doc, services, say, study} from './state.js';
import {showBoard} from './board.js';
import {listen} from './board_input.js';
import {firstDocument, holdLock, keep, local} from './documents.js';
import {close, openDocuments} from './documents_view.js';
import {listenToDoors, openHash} from './doors.js';
import {close as closeEarlier} from './earlier_view.js';
import {close as closeFinding, openFinding, startFinding} from './finding_view.js';
import {makeCore} from './engine.js';
import {back, closeMenu, forth, listenToKeys, goBeside} from './keys.js';
import {tooManyLines} from './limits.js';
import {saveReport} from './reporting.js';
import {savedInParts} from './saved_games.js';
import {unreadIn} from './stamps.js';
import {fensOf, linesOf, savedScript} from './script.js';
import {begin, judgeDraft, openSetup} from './setup.js';
import {bytesOf} from './packed.js';
import {clearPaper, layOut} from './paper.js';
import {makeReaders} from './file_readers.js';
import {makeTables} from './tables.js';
import {factsToPrint, knownFacts} from './list_facts.js';
import {showLeftOut} from './list_rows.js';
import {show, showFacts, showJudged, showProgress, watch} from './show.js';
import {makeStore} from './store.js';
import {openFiles} from './opening.js';
import {counted, grouped} from './words.js';

// ---- the module; it stands after this script, so that tables are read while it comes
const whole = new Promise(on => onDocument('DOMContentLoaded', on));
/** @returns {Promise<Uint8Array>} */
async function unpack() {
  const gunzip = new (/** @type {any} */ (window).DecompressionStream)('gzip');
  const bytes = new Blob([bytesOf($('module').textContent)]).stream().pipeThrough(gunzip);
  return new Uint8Array(await new Response(bytes).arrayBuffer());
}
let module = /** @type {Promise<WebAssembly.Module> | null} */ (null);
async function compile() {
  await whole;
  return WebAssembly.compile(await unpack());
}
const compiled = () => module = module || compile();
const source = URL.createObjectURL(new Blob([$('workerSource').textContent], {type: 'text/javascript'}));
const spawn = () => makeCore(() => new Worker(source), compiled), readers = makeReaders(() => new Worker(source));

const store = makeStore(), LONG = 300;
services.core = spawn();
services.facts = spawn();
services.tables = makeTables({
  core: services.core,
  facts: services.facts,
  spawn,
  readers,
  store,
  isLong: () => doc().studies.length > LONG,
  report: p => {
    app.progress = p;
    showProgress();
  }
});
services.show = show;
services.showFacts = showFacts;
services.showJudged = showJudged;
services.keep = keep;
services.busy = is => document.body.toggleAttribute('data-busy', is);
/** @param {import('./tables.js').Progress | null} p      beside builds it is not shown */
const showReading = p => {
  const ours = app.progress && app.progress.reading;
  if (p || ours) app.progress = p;
  showProgress();
};
services.telling = text => showReading(text ? {text, done: 0, of: 0, reading: true} : null);
services.reading = (done, of, what = 'Reading game') => {
  const text = `${what} ${grouped(done)} of ${grouped(of)}`;
  showReading(done < of ? {text, done, of, reading: true} : null);
};

// ---- files
/**
 * A file is saved under the name that it was opened by; else under the title of its one study.
 * @param {string} ending
 */
function fileName(ending) {
  const title = doc().studies.length > 1 ? 'studies' : (study() && study().tags.Event) || 'study';
  return (doc().name || title.replace(/[^A-Za-z0-9]+/g, '_').replace(/^_+|_+$/g, '').slice(0, 40)) + ending;
}
/** @param {File[]} files */
const openTables = files => work(async () => {
  const {taken, bad, kept} = await services.tables.open(files);
  const where = kept ? ' and kept in this browser' : ', for as long as this page stands open';
  const opened = taken.length ? [`${counted(taken.length, 'table')} opened${where}`] : [];
  say('board', [...opened, ...bad].join('; ') + '.', !bad.length);
  show();
  if (app.setup) judgeDraft();
  if (!doc().judged) judgeAgain();
});
/** Those that the script needs, else all that are kept, as downloads one after the other. */
const saveTables = () => work(async () => {
  const kept = new Set(await store.names()),
        need = (await services.tables.classesOf(fensOf(doc().lines))).filter(name => kept.has(name)),
        names = need.length ? need : [...kept];
  for (const name of names) {
    const file = await store.get(name);
    if (file) download(name + '.dtm', file);
    await new Promise(on => setTimeout(on, 150));
  }
  say('board', names.length ? `${counted(names.length, 'table')} saved: ${names.join(' ')}.` : 'No table is kept yet.',
    true);
  show();
});

// ---- the bar
/**
 * @param {string} id
 * @param {(e: any) => any} act
 */
const on = (id, act) => $(id).addEventListener('click', act);
on('new', () => openSetup(true));
on('more', () => openSetup(true, true));
on('open', () => $('file').click());
on('documentsButton', openDocuments);
on('findButton', openFinding);
startFinding(spawn);
onDocument('pointerdown', e => {
  const within = (/** @type {string} */ places) => /** @type {Element} */ (e.target).closest(places);
  if (!within('#documents, #documentsButton')) close();
  if (!within('#finding, #findButton')) closeFinding();
  if (!within('#earlier, #beginEarlier')) closeEarlier();
  if (!within('#saveMenu')) closeMenu();
});
on('saveMenu', e => e.target.closest('button') && closeMenu());
on('openTables', () => $('tableFiles').click());
on('saveTables', saveTables);
on('saveScript', () => work(async () => {
  const classes = await services.tables.classesOf(fensOf(doc().lines)).catch(() => []);
  const text = savedScript(doc(), classes), many = tooManyLines(linesOf(text).length);
  download(fileName('.script'), text);
  if (many) say('board', `The script is saved, for this page alone: ${many}.`, true);
  show();
}));
/**
 * Studies with a refused line are saved as far as they were read.
 * @param {string} how
 */
function sayUnread(how) {
  const n = doc().studies.filter(s => unreadIn(doc(), s)).length;
  if (n) say('board', `${counted(n, 'study', 'studies')} not read to the end: what was read is saved, ${how}.`);
  services.show();
}
/**
 * @param {string} name
 * @param {boolean} marks
 */
const savePgn = (name, marks) => track((async () => {
  download(name, await savedInParts(doc(), marks, marks ? knownFacts(doc()).reviews : []));
  sayUnread('and its game says so');
})());
on('savePgn', () => savePgn(fileName('.pgn'), true));
on('savePlain', () => savePgn(fileName('').replace(/\.checked$/, '') + '.unmarked.pgn', false));
addEventListener('beforeprint', layOut);
addEventListener('afterprint', clearPaper);
on('print', () => track(factsToPrint().then(() => window.print())));
on('saveReport', () => track((async () => {
  if (await saveReport(fileName('.html'))) sayUnread('without a verdict');
})()));
on('undo', back);
on('redo', forth);
on('stop', () => services.tables.stop());
on('theme', () => theme(!document.documentElement.classList.contains('dark')));
on('before', () => goBeside(-1));
on('after', () => goBeside(1));
let byPointer = false;
for (const kind of ['pointerdown', 'keydown'])
  $('studies').addEventListener(kind, () => {
    byPointer = kind === 'pointerdown';
  });
$('studies').addEventListener('change', (/** @type {any} */ e) => {
  if (byPointer) e.target.blur();  // the arrow keys walk the tree again
  const [word, line] = e.target.value.split(' ');
  if (line) showLeftOut(Number(line));
  else goStudy(Number(word));
});
$('file').addEventListener('change', (/** @type {any} */ e) => {
  const files = [...e.target.files];
  e.target.value = '';
  openFiles(files);
});
$('tableFiles').addEventListener('change', (/** @type {any} */ e) => {
  const files = [...e.target.files];
  e.target.value = '';
  openTables(files);
});
/** @param {boolean} dark */
function theme(dark, kept = true) {
  document.documentElement.classList.toggle('dark', dark);
  if (kept) try {
      local.setItem('studyboardDark', dark ? '1' : '');
    } catch { /* for this visit */
    }
}
// ---- the beginning
async function start() {
  holdLock();
  listen();
  listenToKeys();
  listenToDoors(openTables);
  watch();
  const dark = local.getItem('studyboardDark');
  theme(dark === null ? matchMedia('(prefers-color-scheme: dark)').matches : dark === '1', false);
  const words = learnWords().catch(fault => console.error(fault)), {kept, draft} = await firstDocument();
  if (kept) showBoard();
  await words;
  if (kept) {
    services.telling('Opening the document …');
    await work(() => arrive(kept.history));
    services.telling('');
    // Where the program did not run at all the script is shown as it is, and can be saved.
    if (!doc().id) app.history = {...kept.history, now: {...kept.history.now, judged: true}};
  }
  if (draft) begin(draft);
  show();
  if (!await openHash() && !doc().lines.length && !app.setup) openSetup(true);
}
/** @type {any} */ (window).studyboard = makeApi(spawn);
track(start());
