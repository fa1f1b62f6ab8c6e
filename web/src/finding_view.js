// @ts-check
// The panel 'Find': a class, a theme and squares; what is found while it searches; a press opens one.
import {$, button, h, put, smallButton, panelHead} from './dom.js';
import {track} from './actions.js';
import {app, services} from './state.js';
import {CLASSES} from './core_host.js';
import {diagramOf} from './drawing.js';
import {control, sideOf} from './fen.js';
import {FEATURES, THEMES, manMissing, narrowing, partText, searchText} from './finding.js';
import {hitsHere, openAll, openHit} from './hits.js';
import {search} from './searching.js';
import {draftFen} from './setup.js';
import {hearNew} from './voice.js';
import {valueText, winner} from './words.js';
/** @typedef {import('./finding.js').Search} Search @typedef {import('./finding.js').Found} Found */

const MOST = 300;
const form = {
  name: 'KPK',
  theme: 'zugzwang',
  n: '4',
  side: '',
  squares: '',
  row: '',
  quiet: false,
  families: false,
  white: false
};
/**
 * @type {{spawn: () => import('./engine.js').Core, search: Search | null, going: AbortController | null, fault: string,
 *   shown: string, theme: string, preview: string, advice: string, lacking: string, here: string, chosen: boolean}}
 */
const state = {
  spawn: () => services.core,
  search: null,
  going: null,
  fault: '',
  shown: '',
  theme: '',
  preview: '',
  advice: '',
  lacking: '',
  here: '',
  chosen: false
};
/** @param {() => import('./engine.js').Core} spawn */
export function startFinding(spawn) { state.spawn = spawn; }

/** The class of the set-up or of the study at hand: the last of those that its position needs. */
async function classHere() {
  const fen = app.setup ? draftFen() : app.view ? app.view.fen : '';
  return (fen && (await services.tables.classesOf([fen])).pop()) || '';
}
/**
 * @param {string} id
 * @param {string} label
 * @param {[string, string][]} options
 * @param {string} now
 * @param {(value: string) => void} done
 */
const choice = (id, label, options, now, done) => h('select', {
  id,
  'aria-label': label,
  onchange: (/** @type {any} */ e) => {
    done(e.target.value);
    showFinding();
  }
},
  options.map(([value, text]) => h('option', {value, selected: value === now}, text)));
/**
 * @param {string} id
 * @param {string} label
 * @param {'n' | 'squares'} field
 * @param {any} props
 */
const field = (id, label, field, props) => h('input', {
  id,
  'aria-label': label,
  title: label,
  value: form[field],
  autocomplete: 'off',
  spellcheck: 'false',
  oninput: (/** @type {any} */ e) => {
    form[field] = e.target.value;
  },
  onkeydown: (/** @type {KeyboardEvent} */ e) => {
    if (e.key === 'Enter' && !state.going) find();
  },
  ...props
});
/**
 * @param {string} id
 * @param {'quiet' | 'families' | 'white'} field
 * @param {string} label
 * @param {string} title
 */
const check = (id, field, label, title) => h('label', {class: 'note', title}, h('input', {
  type: 'checkbox',
  id,
  checked: form[field],
  onchange: (/** @type {any} */ e) => {
    form[field] = e.target.checked;
  }
}),
  ` ${label}`);
/** @param {string} name */
function chooseClass(name) {
  form.name = name;
  state.chosen = true;
}
function formView() {
  const {here} = state, takesNumber = form.theme.endsWith('N'), narrowed = !form.theme.startsWith('longest'),
        keyed = narrowed && form.theme !== 'zugzwang';
  return h('div', {class: 'row'},
    choice('findClass', 'The men', CLASSES.map(name => [name, name]), form.name, chooseClass),
    here && here !== form.name &&
      smallButton('these men', `the class ${here}`,
        () => {
          chooseClass(here);
          showFinding();
        },
        {id: 'findHere'}),
    choice('findTheme', 'What is sought', THEMES, form.theme,
      value => {
        form.theme = value;
        showFinding();
      }),
    takesNumber &&
      field('findN', 'How many only moves in a row, 1 to 12', 'n', {type: 'number', min: 1, max: 12, class: 'num'}),
    narrowed &&
      choice('findSide', 'The side to move',
        [['', 'either side to move'], ['white', 'White to move'], ['black', 'Black to move']], form.side,
        value => {
          form.side = value;
        }),
    narrowed &&
      field('findSquares', 'Squares, as Kf7 or Pa2-h4, small letters for Black; the board is turned as it fits',
        'squares', {placeholder: 'squares', size: 14}),
    keyed &&
      choice('findRow', 'What the row of only moves has', FEATURES, form.row,
        value => {
          form.row = value;
        }),
    keyed && check('findWhite', 'white', 'White as the hero', 'where Black is to move colours are exchanged'),
    keyed && check('findQuiet', 'quiet', 'begins with a quiet move', 'neither a capture nor a check'),
    keyed &&
      check('findFamilies', 'families', 'one of each family',
        'of those that differ in the square of one man, with the same key, the first'),
    state.going ? button('Stop', 'keep what was found', stop, {id: 'findStop', class: 'main'})
                : button('Find', 'search the table', find, {id: 'findGo', class: 'main'}));
}
function find() {
  if (form.theme.endsWith('N') && !/^([1-9]|1[0-2])$/.test(form.n.trim())) {
    Object.assign(state, {search: null, fault: 'the number of only moves in a row is 1 to 12'});
    return showFinding();
  }
  const narrowed = !form.theme.startsWith('longest'), keyed = narrowed && form.theme !== 'zugzwang',
        ofKey = keyed
    ? [form.quiet && 'no-capture no-check', form.row, form.families && 'families', form.white && 'as-white']
    : [];
  const wanted = {
    name: form.name,
    theme: form.theme.replace('N', form.n),
    filters: narrowed ? [form.side, ...ofKey, form.squares.trim()].filter(Boolean).join(' ') : '',
    most: MOST
  };
  const shown = [wanted.name, wanted.theme, wanted.filters].filter(Boolean).join(' '),
        lacking = manMissing(wanted.name, wanted.filters), advice = narrowing(form.theme, Number(form.n));
  const going = new AbortController();
  Object.assign(state, {search: null, going, fault: '', shown, theme: wanted.theme, preview: '', advice, lacking});
  showFinding();
  const found = (/** @type {Search} */ now) => {
    if (state.going !== going) return;
    state.search = now;
    showFinding();
  };
  const failed = (/** @type {Error} */ fault) => {
    if (state.going === going) state.fault = fault.message;
  };
  const ended = () => {
    if (state.going !== going) return;
    state.going = null;
    showFinding();
  };
  return track(search(wanted, state.spawn, found, going.signal).then(found).catch(failed).finally(ended));
}
/** Its workers end at once; what was found stays. */
function stop() {
  if (state.going) state.going.abort();
}
function soFar() {
  const now = state.search;
  if (state.fault) return `Not found: ${state.fault}.`;
  if (!now) return state.going ? 'Its tables are being read, or built …' : '';
  return `${state.shown}: ${now.found.length || !state.lacking ? searchText(now, state.advice) : `${state.lacking}.`}`;
}
/** What was found, for those who open it. */
const hits = () => ({
  found: state.search ? state.search.found : [],
  part: state.search ? partText(state.search) : '',
  theme: state.theme,
  words: state.shown
});
/**
 * The diagram of the position under the pointer or the focus, beside the list.
 * @param {string} fen
 */
function preview(fen) {
  state.preview = fen;
  put('findPreview', diagramOf(fen, true));
}
/**
 * @param {Found} found
 * @param {number} at      its place in the list
 */
function rowView(found, at) {
  const mover = sideOf(found.fen), [first, second] = found.values, here = hitsHere();
  const words = second ? `White to move: ${valueText('White', first)}; Black to move: ${valueText('Black', second)}`
                       : valueText(mover, first);
  const open = () => {
    const all = hits();
    close();
    openHit(all, at);
  };
  return h('li', {}, button(control(found.fen), 'look at it as a study', open, {
    class: 'link',
    'data-found': found.fen,
    'aria-current': here && here.found[here.at] === found && 'true',
    onmouseenter: () => preview(found.fen),
    onfocus: () => preview(found.fen)
  }),
    ` ${second ? '' : `${mover} to move: `}${found.key && `${found.key}, `}${words}`);
}
/** The panel, drawn again as it searches; what is typed in it stays. */
export function showFinding() {
  if (!state.going) hearNew('finding', soFar());
  if ($('finding').hidden) return;
  const focus = document.activeElement, inside = focus && $('finding').contains(focus) ? focus : null,
        id = inside ? inside.id : '', hit = inside && inside.getAttribute('data-found'),
        down = $('foundList') ? $('foundList').scrollTop : 0, found = state.search ? state.search.found : [];
  const all = () => {
    const list = hits();
    close();
    openAll(list);
  };
  put('finding', panelHead('Find', close, 'closeFinding'),
    h('p', {class: 'note'},
      'All positions of these men that have the theme, each once up to symmetry, none missing: proved. ' +
        'A press shows one as a study, which is kept once you change it.'),
    formView(), h('p', {id: 'findState'}, soFar()),
    !state.going && found.length > 0 &&
      h('p', {class: 'row'},
        button('Open all as a script', 'each position as a study of one script', all, {id: 'findAll'})),
    h('div', {class: 'finds'}, h('ol', {class: 'found', id: 'foundList'}, found.map(rowView)),
      h('div', {id: 'findPreview'}, found.length > 0 && state.preview && diagramOf(state.preview, true))));
  $('foundList').scrollTop = down;
  const again = id ? $(id) : hit && $('finding').querySelector(`[data-found="${hit}"]`);
  if (again) again.focus({preventScroll: true});
}
export async function openFinding() {
  const panel = $('finding');
  if (!panel.hidden) return void close();
  panel.hidden = false;
  $('findButton').setAttribute('aria-expanded', 'true');
  showFinding();
  const current = panel.querySelector('[aria-current]') || $('findClass');
  current.focus();
  state.chosen = false;
  state.here = await classHere().catch(() => '');
  if (state.here && !state.chosen && !state.going && !state.search) form.name = state.here;
  showFinding();
}
/** A search ends with its panel. Whether it was open. */
export function close() {
  const panel = $('finding'), open = !panel.hidden;
  stop();
  panel.hidden = true;
  $('findButton').setAttribute('aria-expanded', 'false');
  if (open && panel.contains(document.activeElement)) $('findButton').focus();
  return open;
}
