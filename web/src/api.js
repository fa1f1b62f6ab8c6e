// @ts-check
// For other programs: `studyboard` on window. Promises of texts, as the program writes them.
import {idle} from './actions.js';
import {app, doc, services, PAGES, study} from './state.js';
import {editsTo, fensOf, gamesOf, toText, linesOf} from './script.js';
import {openText} from './opening.js';

/**
 * The tables of a script's positions are loaded, and built where they lack.
 * @param {string} script
 */
const tablesOf = async (script, core = services.core) => {
  const fens = fensOf(linesOf(script));
  await services.tables.ready(fens);
  await services.tables.loadFor(fens, core);
};
/**
 * @param {string} request
 * @param {string} script
 * @param {import('./engine.js').Core} core
 * @param {number} pages
 */
async function answer(request, script, core = services.core, pages = PAGES) {
  const reply = await core.answer(request, script, pages);
  if (reply.ended !== 'done' && reply.ended !== 'refused') throw new Error(reply.ended);
  return reply.text;
}
/**
 * The facts of a script's studies, from the worker of facts.
 * @param {string} request
 * @param {string} script
 */
async function factsOf(request, script) {
  await tablesOf(script, services.facts);
  return answer(request, script, services.facts);
}
/** @param {() => import('./engine.js').Core} spawn */
export function makeApi(spawn) {
  return Object.freeze({
    /**
     * The replies to a script: over pages of the tables that are kept, or, without a number, as `studybench --tables`
     * has them.
     * @param {string} script
     * @param {number} [pages]
     */
    async run(script, pages) {
      const core = spawn(), names = await services.tables.store.names();
      try {
        const wanted = new Set([...script.matchAll(/^ *load +(\w+) *\r?$/gm)].map(m => m[1]));
        await services.tables.load(names.filter(name => wanted.has(name)), core);
        const reply = await core.ask('run', script, pages || 0);
        for (const [name, bytes] of reply.saved) await services.tables.keep(name, bytes);
        if (reply.ended !== 'done') throw new Error(reply.ended);
        return new TextDecoder().decode(reply.bytes);
      } finally { core.end(); }
    },
    /**
     * @param {string} script
     * @param {string} path
     */
    async view(script, path = 'root') {
      await tablesOf(script);
      return answer('view ' + path, script);
    },
    /**
     * The facts of each study at its `pgn` line.
     * @param {string} script
     */
    review: script => factsOf('review', script),
    /**
     * The printed pages of the studies, in HTML.
     * @param {string} script
     */
    report: script => factsOf('report', script),
    /**
     * The script of the games of a PGN.
     * @param {string} pgn
     * @param {string} stipulation      of games that state none, as `white win`; or nothing
     * @param {boolean} upToFaults      whether a game with a bad move is read up to there
     */
    import: (pgn, stipulation = '', upToFaults = false) =>
      answer(`${upToFaults ? 'import-up-to-faults' : 'import'} ${stipulation}`.trim(), pgn, services.core, 0),
    /**
     * @param {string} fen
     * @param {string} square
     * @param {string} stipulation      as `white win`, `black draw`, `white mate 3`
     */
    async survey(fen, square, stipulation) {
      await tablesOf(`position ${fen}`);
      return answer(`survey ${square} ${stipulation} ${fen}`, '');
    },
    /**
     * How many only moves in a row the defender can make the side to move find.
     * @param {string} fen
     * @param {'win' | 'draw'} goal
     */
    async row(fen, goal) {
      await tablesOf(`position ${fen}`);
      return answer(`row ${goal} ${fen}`, '');
    },
    /** The words that no reply has. */
    words: () => answer('words', ''),
    /**
     * The remarks and comments of a script, a line each, with tabs between their fields.
     * @param {string} script
     */
    remarks: script => answer('remarks', script),
    /**
     * The tables that a script's positions need.
     * @param {string} script
     */
    tables: script => services.tables.classesOf(fensOf(linesOf(script))),
    /**
     * Opens a script in the board; undo brings the old one back.
     * @param {string} script
     */
    open: async script => {
      await openText(script, 'board');
      await idle();
    },
    /** The script that is shown. */
    script: () => doc().lines.join('\n') + '\n',
    /** The lines of the study that is looked at, alone, and the path of its node. */
    study: () => (study() ? toText(editsTo(doc().lines, study())) : ''),
    path: () => doc().path,
    /** The games, as `Save PGN` writes them. */
    pgn: () => gamesOf(doc()),
    /** Settles when all that was requested before is done. */
    idle,
    /** What the last answer took, for measures. */
    last: () => ({...services.core.last, facts: {...services.facts.last}, reviewed: Boolean(app.review?.details)}),
  });
}
